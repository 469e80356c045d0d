//! caller.rs: what the caller holds, by a work list over the terms of the table.
//!
//! Document 01 lets the caller's list hold terms that are not in the table. The
//! work list below stays inside the table, and loses nothing by it. Let S be what
//! it ends with, and S* be S together with every seal that can be built, in any
//! number of steps, from members under keys of S. No building makes a key, so the
//! keys of S* are the keys of S. Every entry of a caller's list is in S*:
//!
//! - an own or given term is in S;
//! - a seal of two earlier entries is built from members of S*, the first a key;
//! - a payload of an earlier seal s under an earlier key k, which is a key of S: if
//!   s is in S its payload is in the table and the rule `open` put it in S; if s was
//!   built then it was built from its payload, which so is in S*.
//!
//! So a key is held exactly if it is in S. (For any other term of the table: every
//! seal and data item is given when it is entered. Apart from that the rule `build`
//! enters each seal of the table that has its parts in S, and by going down a
//! seal's parts a term of the table that is in S* is in S.)
//!
//! Work done earlier need not be done again: the rules only add.

use crate::command::TermNumber;
use crate::terms::{Message, Terms};
use std::collections::HashSet;

#[derive(Clone, Default, Debug)]
pub struct Caller {
    held: HashSet<TermNumber>,
}

impl Caller {
    pub fn holds(&self, term: TermNumber) -> bool {
        self.held.contains(&term)
    }

    /// How many terms of the table are held.
    pub fn count(&self) -> usize {
        self.held.len()
    }

    /// The caller is given a term (or has it as its own), with all that follows.
    pub fn give(&mut self, term: TermNumber, terms: &Terms) {
        let mut work = vec![term];
        while let Some(term) = work.pop() {
            if !self.held.insert(term) {
                continue;
            }
            for &seal in terms.touched(term) {
                work.extend(self.follows(seal, terms));
            }
        }
    }

    /// What the two rules give for one seal of the table from what is held now.
    fn follows(&self, seal: TermNumber, terms: &Terms) -> Vec<TermNumber> {
        let Some(Message::Seal { under, payload }) = terms.message(seal) else {
            return Vec::new();
        };
        let mut found = Vec::new();
        if self.holds(terms.term_of(under)) {
            // open: a seal and its key give the payload.
            if self.holds(seal) {
                found.push(payload);
            }
            // build: a key and a term give the seal.
            if self.holds(payload) {
                found.push(seal);
            }
        }
        found
    }
}
