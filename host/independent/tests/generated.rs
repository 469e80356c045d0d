//! Properties over generated sheets, good and damaged.

mod common;

use independent::command::{Command, KeyNumber, TermNumber};
use independent::compromise::compromised;
use independent::damage::damage;
use independent::generate::generate;
use independent::policy::Policy;
use independent::random::Random;
use independent::report::{
    c_call, number_and_value, report_bytes, report_for, rounds_text, run, Outcome,
};
use independent::sheet::{read_sheet, Sheet};
use independent::terms::{Message, Terms};
use std::collections::BTreeSet;
use std::sync::OnceLock;

/// Sheets of up to so many commands; the same ones on every run.
fn sheets(seed: u64, count: usize, commands: usize) -> impl Iterator<Item = Sheet> {
    let mut random = Random::new(seed);
    (0..count).map(move |_| generate(&mut random, commands))
}

/// 2,000 sheets: most of up to 40 commands, some large enough to meet 10 and 11.
fn two_thousand() -> impl Iterator<Item = &'static Sheet> {
    static MADE: OnceLock<Vec<Sheet>> = OnceLock::new();
    let make = || {
        let (small, large) = (sheets(1, 1_978, 40), sheets(2, 14, 420));
        small.chain(large).chain(sheets(3, 8, 1_500)).collect()
    };
    MADE.get_or_init(make).iter()
}

#[test]
fn every_answer_of_a_sheet_occurs_and_most_commands_are_done() {
    let mut seen = [0_usize; 12];
    // By command and answer, so that no command is left out.
    let mut by_command = BTreeSet::new();
    for sheet in two_thousand() {
        for round in run(sheet).rounds {
            let answer = number_and_value(round.answer).0;
            seen[usize::from(answer)] += 1;
            by_command.insert((round.command.number(), answer));
        }
    }
    for (answer, count) in seen.iter().enumerate() {
        assert_eq!(*count > 0, answer != 1, "answer {answer}: {seen:?}");
    }
    let all: usize = seen.iter().sum();
    assert!(
        10 * seen[0] > 7 * all && 20 * seen[0] < 19 * all,
        "{seen:?}"
    );
    assert_eq!(by_command, every_pair());
}

/// Every answer each command can have in a sheet, by document 01's two tables.
fn every_pair() -> BTreeSet<(u8, u8)> {
    let table: [(u8, &[u8]); 10] = [
        (1, &[0, 2, 5, 10, 11]),
        (2, &[0, 3, 6, 11]),
        (3, &[0, 2, 3, 4, 5, 6, 7, 8, 10]),
        (4, &[0, 3, 4, 6, 7, 9, 11]),
        (5, &[0, 3, 4, 6, 7, 8]),
        (6, &[0, 3]),
        (7, &[0, 3]),
        (8, &[0, 11]),
        (9, &[0, 11]),
        (10, &[0, 4, 7, 8, 11]),
    ];
    let pairs = table
        .iter()
        .map(|(number, answers)| answers.iter().map(|answer| (*number, *answer)));
    pairs.flatten().collect()
}

#[test]
fn writer_and_reader_agree() {
    for sheet in two_thousand() {
        let bytes = sheet.to_bytes().expect("a sheet can hold it");
        assert_eq!(read_sheet(&bytes).as_ref(), Ok(sheet));
    }
}

#[test]
fn damaged_sheets_never_panic() {
    let mut random = Random::new(4);
    let (mut good, mut bad) = (0, 0);
    for sheet in sheets(5, 4_000, 24) {
        let bytes = damage(&mut random, &sheet.to_bytes().expect("a sheet"));
        let text = rounds_text(&bytes);
        let mut buffer = vec![0xAA; random.below(200)];
        let before = buffer.clone();
        let number = c_call(&bytes, &mut buffer);
        match report_for(&bytes) {
            Ok(report) if report.len() <= buffer.len() => {
                assert_eq!(number as usize, report.len());
                assert_eq!(buffer[..report.len()], report);
                assert_eq!(buffer[report.len()..], before[report.len()..]);
                good += 1;
            }
            Ok(_) => {
                assert_eq!((number, buffer), (13 * 65_536, before));
                good += 1;
            }
            Err(place) => {
                assert_eq!((number, buffer), (12 * 65_536 + u32::from(place.0), before));
                assert_eq!(text, format!("refused 12 place {}\n", place.0));
                bad += 1;
            }
        }
    }
    // Some damage leaves a good sheet; most does not.
    assert!(good > 100 && bad > 2_000, "{good} {bad}");
}

/// The seals and their parts, as (key's term, payload, seal).
fn seals(terms: &Terms) -> Vec<(TermNumber, TermNumber, TermNumber)> {
    let part = |(seal, message)| match message {
        Message::Seal { under, payload } => Some((terms.term_of(under), payload, seal)),
        _ => None,
    };
    terms.all().filter_map(part).collect()
}

/// The known keys once more, from the answers alone: the rules of "held" applied over
/// and over to the terms of the table until nothing is added.
fn known_by_passes(outcome: &Outcome) -> Vec<KeyNumber> {
    let terms = outcome.token.terms();
    let gives = |command: &Command| !matches!(command.number(), 1 | 3 | 7);
    let answered = outcome.rounds.iter().filter(|round| gives(&round.command));
    let mut held: BTreeSet<TermNumber> = answered
        .filter_map(|round| round.answer.ok().map(TermNumber))
        .collect();
    let seals = seals(terms);
    loop {
        let before = held.len();
        for &(key, payload, seal) in &seals {
            if held.contains(&key) && held.contains(&seal) {
                held.insert(payload);
            }
            if held.contains(&key) && held.contains(&payload) {
                held.insert(seal);
            }
        }
        if held.len() == before {
            break;
        }
    }
    let known = terms.keys().filter(|(_, term, _)| held.contains(term));
    known.map(|(key, _, _)| key).collect()
}

#[test]
fn known_keys_by_passes_over_all_seals() {
    for sheet in two_thousand() {
        let outcome = run(sheet);
        let known: Vec<KeyNumber> = outcome.known.iter().map(|&(key, _)| key).collect();
        assert_eq!(known, known_by_passes(&outcome));
    }
}

#[test]
fn every_seal_and_data_item_is_held() {
    for sheet in two_thousand() {
        let outcome = run(sheet);
        for (term, message) in outcome.token.terms().all() {
            let is_key = matches!(message, Message::Key(_));
            assert!(is_key || outcome.token.holds(term));
        }
    }
}

#[test]
fn compromised_keys_are_known_and_under_stp_no_others() {
    let mut more_known = 0;
    for sheet in two_thousand() {
        let outcome = run(sheet);
        let known: BTreeSet<KeyNumber> = outcome.known.iter().map(|&(key, _)| key).collect();
        let compromised = compromised(&outcome);
        assert!(compromised.is_subset(&known));
        // No handle that wraps ever decrypts under STP and STP+, so no DECRYPT gives
        // a key that was wrapped. In the plain policy exercise A does just that.
        if sheet.policy != Policy::Plain {
            assert_eq!(compromised, known);
        } else if compromised != known {
            more_known += 1;
        }
    }
    assert!(more_known > 20, "{more_known}");
}

#[test]
fn refused_commands_can_be_left_out() {
    for sheet in two_thousand() {
        let outcome = run(sheet);
        let done = outcome.rounds.iter().filter(|round| round.answer.is_ok());
        let rounds: Vec<_> = done.copied().collect();
        let commands = rounds.iter().map(|round| round.command).collect();
        let without = run(&Sheet { commands, ..*sheet });
        assert_eq!(without.rounds, rounds);
        assert_eq!(without.known, outcome.known);
    }
}

#[test]
fn a_prefix_of_a_sheet_has_a_prefix_of_the_answers() {
    for sheet in sheets(6, 200, 40) {
        let outcome = run(&sheet);
        for length in 0..sheet.commands.len() {
            let commands = sheet.commands[..length].to_vec();
            let start = run(&Sheet { commands, ..sheet });
            assert_eq!(start.rounds, outcome.rounds[..length]);
            assert!(start.known.iter().all(|key| outcome.known.contains(key)));
        }
    }
}

#[test]
fn reports_have_the_length_of_the_document() {
    for sheet in sheets(7, 300, 60) {
        let outcome = run(&sheet);
        let report = report_bytes(&outcome);
        let reply = common::take_apart(&report);
        assert_eq!(reply.answers.len(), sheet.commands.len());
        assert!(reply.known.windows(2).all(|pair| pair[0] < pair[1]));
    }
}

#[test]
fn the_same_seed_gives_the_same_sheets() {
    let (one, two) = (sheets(8, 50, 50), sheets(8, 50, 50));
    assert!(one.eq(two));
    assert!(!sheets(8, 50, 50).eq(sheets(9, 50, 50)));
}
