//! The sheets of the benchmark through both engines, with what is done and known of each, worked out by hand from how it is made
//! (compare/src/kinds.rs) and from document 01.

use compare::kinds::KINDS;
use compare::programs::{printed, rounds};
use harness::difference::{compare, Expected};
use independent::report::c_call;
use std::process::Command;
use std::thread;

const SIZES: [usize; 6] = [16, 17, 512, 1_024, 2_048, 4_096];

/// How many keys are known for each of SIZES. In all of these sheets every command is done: there are never more than 256 live
/// handles and 1,024 terms, a key with 19 wraps and can be wrapped under STP, own keys are held, and a seal that exists needs no
/// new term. Every key is known, so the number is that of the keys.
const KNOWN: [(&str, [usize; 6]); 5] = [
    // A quarter of the commands make keys, 31 at most. The first wraps, as many as there are keys, are those under key 0, and the last
    // command corrupts key 0: 16 / 4 and 17 / 4 are 4, all others are above 31. Terms: 31 and at most 31 * 31 seals.
    ("dense-wraps", [4, 4, 31, 31, 31, 31]),
    // One own key, and one seal of one data item, made over and over.
    ("repeated-seals", [1, 1, 1, 1, 1, 1]),
    // The first key takes one command, each further one GENERATE and WRAP and, but for the last, a DESTROY, and CORRUPT is one
    // more: 3 * keys - 2, and a wrap is repeated at least once. So keys is (commands + 1) / 3, and 512 at most, which with 511
    // seals are 1,023 terms: 17 / 3, 18 / 3, 513 / 3, 1,025 / 3. Each key is under the next, and the last is corrupted.
    ("long-chain", [5, 6, 171, 341, 512, 512]),
    // A quarter of the commands make own keys, 512 at most; as many seals, one under each key, are 1,024 terms.
    ("same-bucket", [4, 4, 128, 256, 512, 512]),
    // A quarter of the commands make keys, 256 at most, and one fewer wraps them in a chain. What is left, more than half of the
    // commands, corrupts each key at least once.
    ("corruptions", [4, 4, 128, 256, 256, 256]),
];

/// A report taken apart: what each command was answered, and the known keys.
struct Told {
    answers: Vec<u8>,
    known: Vec<usize>,
}

/// The sheet through both engines, which agree.
fn told(sheet: &[u8]) -> Told {
    let both = compare(c_call, proved::report, sheet);
    let Expected { report, .. } = both.unwrap_or_else(|what| panic!("{what}"));
    let two = |bytes: &[u8]| usize::from(u16::from_be_bytes([bytes[0], bytes[1]]));
    let (records, keys) = report[4..].split_at(3 * two(&report));
    assert_eq!(two(&report[2..]), keys.len() / 2);
    Told {
        answers: records.chunks(3).map(|record| record[0]).collect(),
        known: keys.chunks(2).map(two).collect(),
    }
}

/// Answers that are 0, and known keys.
fn counts(expected: &Expected) -> (usize, usize) {
    let report = &expected.report;
    let two = |at: usize| usize::from(u16::from_be_bytes([report[at], report[at + 1]]));
    let records = report[4..4 + 3 * two(0)].chunks(3);
    (records.filter(|record| record[0] == 0).count(), two(2))
}

#[test]
fn both_engines_agree_on_every_kind() {
    for kind in &KINDS {
        for commands in [16, 17, 512, 1_024, 2_048, 4_096] {
            let told = compare(c_call, proved::report, &kind.sheet(commands));
            let expected = told.unwrap_or_else(|what| panic!("{} {commands}: {what}", kind.name));
            let (done, known) = counts(&expected);
            println!("{} {commands}: {done} done, {known} known", kind.name);
            // Known by hand: all that the kind is about is done, and the leak reaches every key.
            let wanted = match (kind.name, commands) {
                ("random", _) => continue,
                ("dense-wraps", 512..) => (commands, 31),
                ("repeated-seals", _) => (commands, 1),
                ("long-chain", 4_096) => (commands, 512),
                ("long-chain", 512) => (commands, 171),
                ("same-bucket", 512..) => (commands, 512.min(commands / 4)),
                ("corruptions", 512..) => (commands, 256.min(commands / 4)),
                _ => (commands, known),
            };
            assert_eq!((done, known), wanted, "{} {commands}", kind.name);
        }
    }
}

#[test]
fn every_key_of_a_kind_is_known() {
    let kinds = KINDS.iter().filter(|kind| kind.name != "random");
    assert_eq!(kinds.clone().count(), KNOWN.len());
    for kind in kinds {
        let row = KNOWN.iter().find(|row| row.0 == kind.name);
        let (_, known) = row.expect("every kind has its numbers");
        for (commands, known) in SIZES.into_iter().zip(*known) {
            let told = told(&kind.sheet(commands));
            let name = format!("{} {commands}", kind.name);
            assert_eq!(told.answers, vec![0; commands], "{name}");
            assert!(told.known.into_iter().eq(0..known), "{name}");
        }
    }
}

/// Nobody worked these out: the engines agree, something is refused and some key known, and the two numbers of the tally that
/// `rounds` prints are the commands answered 0 and the others.
#[test]
fn random_sheets_have_refusals_and_known_keys() {
    let program = rounds().unwrap_or_else(|what| panic!("{what}"));
    let random = KINDS.iter().find(|kind| kind.name == "random");
    for commands in SIZES {
        let sheet = random.expect("a kind").sheet(commands);
        let Told { answers, known } = told(&sheet);
        let done = answers.iter().filter(|&&answer| answer == 0).count();
        println!("{commands}: {done} done, {} known", known.len());
        assert!(0 < done && done < commands && !known.is_empty());
        let text = printed(&mut Command::new(&program), &sheet, usize::MAX);
        let tally = format!("\ndone {done} refused {}\n", commands - done);
        assert!(text.is_ok_and(|text| text.contains(&tally)), "{tally}");
    }
}

#[test]
fn calls_at_the_same_time_do_not_disturb_each_other() {
    let work = |kind: usize| {
        let sheet = KINDS[kind].sheet(4_096);
        let alone = Expected::of(c_call, &sheet);
        move || (0..20).all(|_| Expected::of(proved::report, &sheet) == alone)
    };
    let threads: Vec<_> = (0..KINDS.len()).map(|k| thread::spawn(work(k))).collect();
    for thread in threads {
        assert!(thread.join().expect("the thread ends"));
    }
}
