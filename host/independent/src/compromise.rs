//! compromise.rs: document 01's "compromised", from the answers of a sheet and apart
//! from what the caller holds, so that the two can be compared.

use crate::command::{Command, KeyNumber, TermNumber};
use crate::report::Outcome;
use crate::terms::{Message, Origin};
use std::collections::BTreeSet;

/// Corrupted, or the caller's own, or wrapped by a done WRAP under a compromised key.
pub fn compromised(outcome: &Outcome) -> BTreeSet<KeyNumber> {
    let terms = outcome.token.terms();
    let own = terms.keys().filter(|&(_, _, origin)| origin == Origin::Own);
    let mut found: BTreeSet<KeyNumber> = own.map(|(key, _, _)| key).collect();
    let mut wraps = Vec::new();
    for round in &outcome.rounds {
        let Ok(value) = round.answer else { continue };
        match (round.command, terms.message(TermNumber(value))) {
            (Command::Corrupt { .. }, Some(Message::Key(key))) => {
                found.insert(key);
            }
            (Command::Wrap { .. }, Some(Message::Seal { under, payload })) => {
                if let Some(Message::Key(wrapped)) = terms.message(payload) {
                    wraps.push((under, wrapped));
                }
            }
            _ => {}
        }
    }
    follow(&wraps, &mut found);
    found
}

/// Follows the wraps, whatever their order, until a pass adds nothing.
fn follow(wraps: &[(KeyNumber, KeyNumber)], found: &mut BTreeSet<KeyNumber>) {
    loop {
        let before = found.len();
        for &(under, wrapped) in wraps {
            if found.contains(&under) {
                found.insert(wrapped);
            }
        }
        if found.len() == before {
            return;
        }
    }
}
