//! Direct calls, one after the other from a fresh token: wrong numbers, policies and body lengths among them, every answer and
//! value compared, and no answer 0 to 11 missing; and by hand, that a body of a wrong length is answered 1 and changes nothing.

use compare::seeds;
use harness::calls::{answers, calls, Call, Calls};
use independent::random::Random;
use std::iter::repeat;

/// Through the program, which has to answer what the independent engine does.
fn right(row: &[u8]) -> usize {
    let told = proved::calls(row).unwrap_or_else(|what| panic!("{what}"));
    assert!(told == answers(row), "differs on {row:02x?}");
    told.len() / 3
}

#[test]
fn every_answer_and_value() {
    let seen = seeds::direct(1..=6_000).unwrap_or_else(|what| panic!("{what}"));
    println!("answers 0 to 11: {seen:?}");
    assert!(seen.iter().all(|&count| count > 100), "{seen:?}");
}

#[test]
fn no_call_at_all() {
    for row in [&[][..], &[0], &[2, 0], &[1, 0, 0], &[9, 0, 0, 0, 0, 0]] {
        assert_eq!(right(row), 0);
    }
}

#[test]
fn cut_off_at_every_byte() {
    let lists = [calls(1), calls(2), calls(3)];
    let all: usize = lists.iter().map(|list| list.calls.len()).sum();
    let row = lists.map(|list| list.bytes()).concat();
    for length in 0..row.len() {
        assert!(right(&row[..length]) < all);
    }
    assert_eq!(right(&row), all);
}

/// Bytes with no plan: most of the calls are none.
#[test]
fn noise() {
    let mut calls = 0;
    for seed in 1..=100 {
        let mut random = Random::new(seed);
        let length = random.below(2_000);
        let row: Vec<u8> = (0..length).map(|_| random.byte() % 12).collect();
        calls += right(&row);
    }
    assert!(calls > 10_000, "{calls}");
}

/// As many calls as there is room for: the output is at its longest.
#[test]
fn the_longest_row_and_more() {
    let mut row = vec![0, 0xFF, 0xFF];
    row.resize(proved::LONGEST_CALLS - 1, 9);
    for pair in row[3..].chunks_exact_mut(2) {
        pair[1] = 0;
    }
    assert_eq!(right(&row), 32_766);
    row.push(9);
    assert_eq!(right(&row), 32_766);
    // What stands behind is not read, so that the last call is cut off.
    row.extend([0, 9, 0]);
    let told = proved::calls(&row).map(|told| told.len() / 3);
    assert_eq!(told, Ok(32_766));
}

/// A call by hand, with its answer and value.
type Line = (u8, Vec<u8>, [u8; 2]);

/// Flags by policy: of a key that wraps and unwraps, of one that can be wrapped under it besides, of an imported one.
const FLAGS: [[u8; 3]; 3] = [[19, 19, 22], [19, 19, 22], [67, 51, 54]];

/// What is called first. Keys 0, 1 and 2 are the terms 0 to 2 under handles 0 to 2, the last one with 28 (E, D, X); the own key
/// is term 3. Term 4 is key 1 sealed under key 0; term 5 is that sealed under key 2.
fn before([wrapping, wrapped, _]: [u8; 3]) -> Vec<Line> {
    vec![
        (1, vec![wrapping], [0, 0]),
        (1, vec![wrapped], [0, 1]),
        (1, vec![28], [0, 2]),
        (8, vec![], [0, 3]),
        (2, vec![0, 1], [0, 4]),
        (4, vec![2, 0, 4], [0, 5]),
    ]
}

/// What is called last, and shows what the token is like: the next term is 6; handles 0 to 2 are live, the next is 3, and they
/// stand for the keys of before with their flags; the seals are those of before; keys 0 to 2 are not held. After the corruption of
/// key 0, key 1, which was wrapped under it, is held and key 2 is not.
fn after([_, _, imported]: [u8; 3]) -> Vec<Line> {
    vec![
        (9, vec![], [0, 6]),
        (1, vec![28], [0, 3]),
        (2, vec![0, 1], [0, 4]),
        (3, vec![0, 0, 4, imported], [0, 4]),
        (4, vec![2, 0, 6], [0, 8]),
        (5, vec![2, 0, 5], [0, 4]),
        (10, vec![0, 3, 0, 0], [7, 0]),
        (10, vec![0, 3, 0, 1], [7, 0]),
        (6, vec![0], [0, 0]),
        (10, vec![0, 3, 0, 1], [0, 9]),
        (10, vec![0, 3, 0, 2], [7, 0]),
        (7, vec![2], [0, 2]),
        (1, vec![28], [0, 2]),
    ]
}

/// For each command a body that is done between the two, and shows behind it but for DECRYPT, which gives what is held already;
/// an unknown number has none.
fn body(number: u8, [_, wrapped, imported]: [u8; 3]) -> Vec<u8> {
    match number {
        1 => vec![wrapped],
        2 => vec![0, 2],
        3 => vec![0, 0, 4, imported],
        4 | 5 => vec![2, 0, 5],
        6 | 7 => vec![0],
        10 => vec![0, 3, 0, 3],
        _ => vec![],
    }
}

/// The three parts as calls under a policy, and the answers by hand in bytes: 1 to the call between, and to all under policy 3.
fn with(policy: u8, number: u8, body: Vec<u8>) -> (Vec<u8>, Vec<u8>) {
    let flags = FLAGS[usize::from(policy % 3)];
    let between = vec![(number, body, [1, 0])];
    let (mut calls, mut wanted) = (Vec::new(), Vec::new());
    for (number, body, [answer, value]) in [before(flags), between, after(flags)].concat() {
        calls.push(Call { number, body });
        wanted.extend(match policy {
            0..=2 => [answer, 0, value],
            _ => [1, 0, 0],
        });
    }
    (Calls { policy, calls }.bytes(), wanted)
}

/// "unknown command number, policy above 2, or a body not of that command's length": 1, and what is called behind it is answered as if
/// it had not been there.
#[test]
fn a_body_too_long_or_too_short_changes_nothing() {
    for policy in 0..=3 {
        let (mut row, mut wanted, mut tried) = (Vec::new(), Vec::new(), 0);
        for number in (0..=12).chain([255]) {
            let good = body(number, FLAGS[usize::from(policy % 3)]);
            let right = (1..=10).contains(&number).then_some(good.len());
            for length in (0..=6).chain([254, 255]).filter(|&l| Some(l) != right) {
                let bytes = good.iter().copied().chain(repeat(0));
                let (calls, answers) = with(policy, number, bytes.take(length).collect());
                row.extend(calls);
                wanted.extend(answers);
                tried += 1;
            }
        }
        assert_eq!(tried, 10 * 8 + 4 * 9);
        assert!(row.len() < proved::LONGEST_CALLS);
        assert_eq!(right(&row), wanted.len() / 3);
        assert_eq!(proved::calls(&row), Ok(wanted), "policy {policy}");
    }
}

/// That a change would show: with bodies of the right length the calls are done, and those behind are answered otherwise.
#[test]
fn a_body_of_the_right_length_shows() {
    for (policy, flags) in (0..=2).zip(FLAGS) {
        for number in 1..=10 {
            let (row, without) = with(policy, number, body(number, flags));
            assert_eq!(right(&row), without.len() / 3);
            let told = proved::calls(&row).unwrap_or_else(|what| panic!("{what}"));
            let at = 3 * before(flags).len();
            assert_eq!((&told[..at], told[at]), (&without[..at], 0));
            let same = told[at + 3..] == without[at + 3..];
            assert_eq!(same, number == 5, "policy {policy}, number {number}");
        }
    }
}
