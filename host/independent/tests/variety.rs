//! That the generator comes to what it is for, under each policy: wraps and unwraps,
//! aliases, re-imports, numbers used again, nested seals, late corruption.

use independent::command::Command;
use independent::command::{HandleNumber, KeyNumber, TermNumber};
use independent::engine::Token;
use independent::generate::generate;
use independent::policy::Policy;
use independent::random::Random;
use independent::sheet::Sheet;
use independent::terms::{Message, Origin};
use std::collections::BTreeMap;

/// How often each thing was seen, by policy and name.
type Seen = BTreeMap<(u8, &'static str), usize>;

fn depth(token: &Token, term: TermNumber) -> usize {
    match token.terms().message(term) {
        Some(Message::Seal { payload, .. }) => 1 + depth(token, payload),
        _ => 0,
    }
}

fn live_handles_of(token: &Token, key: KeyNumber) -> usize {
    token.handles().values().filter(|h| h.key == key).count()
}

/// What a done UNWRAP came to: the new handle's key seen from before and after.
fn of_unwrap(before: &Token, after: &Token, value: u16) -> Vec<&'static str> {
    let key = after.handles()[&HandleNumber(value as u8)].key;
    let own = |(k, _, origin)| k == key && origin == Origin::Own;
    let mut names = vec!["unwrap"];
    if live_handles_of(before, key) > 0 {
        names.push("alias");
    } else if before.terms().keys().any(own) {
        names.push("own key imported");
    } else {
        names.push("re-import");
    }
    names
}

fn names(command: Command, before: &Token, after: &Token, value: u16) -> Vec<&'static str> {
    let mut names = match command {
        Command::Wrap { .. } => vec!["wrap"],
        Command::Unwrap { .. } => of_unwrap(before, after, value),
        Command::Destroy { .. } => vec!["destroy"],
        _ => vec![],
    };
    let gives_handle = matches!(command.number(), 1 | 3);
    if gives_handle && before.handles().keys().any(|h| u16::from(h.0) > value) {
        names.push("number used again");
    }
    let makes_seal = matches!(command.number(), 2 | 4 | 10);
    if makes_seal && before.terms().len() == after.terms().len() {
        names.push("equal seal");
    }
    if makes_seal && depth(after, TermNumber(value)) >= 4 {
        names.push("four seals deep");
    }
    let more = after.known_keys().len() - before.known_keys().len();
    if command.number() == 6 && more >= 3 {
        names.push("corruption of three or more");
    }
    if command.number() == 2 && more >= 1 {
        names.push("wrap after corruption");
    }
    names
}

fn look(sheet: &Sheet, seen: &mut Seen) {
    let mut token = Token::new();
    for command in &sheet.commands {
        let before = token.clone();
        if let Ok(value) = token.step(sheet.policy, command) {
            for name in names(*command, &before, &token, value) {
                *seen.entry((sheet.policy.byte(), name)).or_insert(0) += 1;
            }
        }
    }
}

#[test]
fn the_generator_comes_to_all_of_it_under_each_policy() {
    let mut random = Random::new(11);
    let mut seen = Seen::new();
    for _ in 0..600 {
        look(&generate(&mut random, 48), &mut seen);
    }
    let wanted = [
        ("wrap", 300),
        ("unwrap", 300),
        ("destroy", 100),
        ("alias", 100),
        ("re-import", 20),
        ("own key imported", 5),
        ("number used again", 100),
        ("equal seal", 100),
        ("four seals deep", 30),
        ("corruption of three or more", 10),
        ("wrap after corruption", 20),
    ];
    for policy in Policy::ALL {
        for (name, least) in wanted {
            let count = seen.get(&(policy.byte(), name)).copied().unwrap_or(0);
            assert!(count >= least, "{policy:?}, {name}: {seen:#?}");
        }
    }
}
