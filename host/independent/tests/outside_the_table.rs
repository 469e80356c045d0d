//! The definition of "held" taken at its word for small sheets: messages as trees, and
//! the caller building seals that are not in the token's table, three deep on top of
//! what it was given. No key more comes out than the engine knows, nor a term of the
//! table that it does not hold.

use independent::command::TermNumber;
use independent::generate::generate;
use independent::random::Random;
use independent::report::{run, Outcome};
use independent::terms::{Message, Terms};
use std::collections::BTreeSet;

#[derive(Clone, PartialEq, Eq, PartialOrd, Ord, Debug)]
enum Tree {
    Data(u16),
    Key(u16),
    Seal(u16, Box<Tree>),
}

fn tree(terms: &Terms, term: TermNumber) -> Tree {
    match terms.message(term).expect("a term of the table") {
        Message::Data(item) => Tree::Data(item),
        Message::Key(key) => Tree::Key(key.0),
        Message::Seal { under, payload } => Tree::Seal(under.0, Box::new(tree(terms, payload))),
    }
}

/// Opens seals until nothing is added.
fn open(held: &mut BTreeSet<Tree>) {
    loop {
        let payload = |tree: &Tree| match tree {
            Tree::Seal(key, inner) if held.contains(&Tree::Key(*key)) => Some((**inner).clone()),
            _ => None,
        };
        let found: BTreeSet<Tree> = held.iter().filter_map(payload).collect();
        if found.is_subset(held) {
            return;
        }
        held.extend(found);
    }
}

/// Every seal of a held tree under a held key.
fn build(held: &mut BTreeSet<Tree>) {
    let mut built = Vec::new();
    for key in held.iter() {
        if let Tree::Key(key) = key {
            let seal = |inner: &Tree| Tree::Seal(*key, Box::new(inner.clone()));
            built.extend(held.iter().map(seal));
        }
    }
    held.extend(built);
}

fn worked_out(outcome: &Outcome) -> BTreeSet<Tree> {
    // GENERATE, UNWRAP and DESTROY give no term.
    let gives = |number: u8| !matches!(number, 1 | 3 | 7);
    let mut held = BTreeSet::new();
    for round in &outcome.rounds {
        if let (true, Ok(value)) = (gives(round.command.number()), round.answer) {
            held.insert(tree(outcome.token.terms(), TermNumber(value)));
        }
    }
    for _ in 0..3 {
        open(&mut held);
        build(&mut held);
    }
    open(&mut held);
    held
}

#[test]
fn seals_outside_the_table_bring_no_key() {
    let mut random = Random::new(12);
    let (mut sheets, mut known) = (0, 0);
    while sheets < 300 {
        let outcome = run(&generate(&mut random, 14));
        // Three keys known at most, or the trees become too many.
        if outcome.known.len() > 3 {
            continue;
        }
        let held = worked_out(&outcome);
        for (term, _) in outcome.token.terms().all() {
            let here = held.contains(&tree(outcome.token.terms(), term));
            assert_eq!(
                here,
                outcome.token.holds(term),
                "{term:?} {:?}",
                outcome.rounds
            );
        }
        sheets += 1;
        known += outcome.known.len();
    }
    assert!(known > 150, "{known}");
}
