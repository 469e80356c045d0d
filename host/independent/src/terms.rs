//! terms.rs: the table of terms. A message is interned: an equal one is found by
//! its hash and never entered twice, and its number is its order of entry.

use crate::command::{KeyNumber, TermNumber};
use std::collections::HashMap;

/// At most this many terms; nothing frees one.
pub const MOST_TERMS: usize = 1024;

/// What a term is. A seal names its key by key number, so that nothing but a key
/// can stand there, and its payload by term number.
#[derive(Clone, Copy, PartialEq, Eq, Hash, Debug)]
pub enum Message {
    /// A data item; the number only tells items apart.
    Data(u16),
    Key(KeyNumber),
    Seal {
        under: KeyNumber,
        payload: TermNumber,
    },
}

/// Who made a key.
#[derive(Clone, Copy, PartialEq, Eq, Debug)]
pub enum Origin {
    Generated,
    Own,
}

#[derive(Clone, Default, Debug)]
pub struct Terms {
    messages: Vec<Message>,
    numbers: HashMap<Message, TermNumber>,
    /// For each term, the seals whose holding it can bear on: those it is the key
    /// of, those it is the payload of, and itself if it is a seal.
    touched: Vec<Vec<TermNumber>>,
    keys: Vec<(TermNumber, Origin)>,
    data_items: u16,
}

impl Terms {
    pub fn len(&self) -> usize {
        self.messages.len()
    }

    pub fn is_empty(&self) -> bool {
        self.messages.is_empty()
    }

    pub fn is_full(&self) -> bool {
        self.messages.len() >= MOST_TERMS
    }

    /// The message with this number; none if the term does not exist.
    pub fn message(&self, term: TermNumber) -> Option<Message> {
        self.messages.get(usize::from(term.0)).copied()
    }

    /// Every term with its message, ascending.
    pub fn all(&self) -> impl Iterator<Item = (TermNumber, Message)> + '_ {
        let numbered = self.messages.iter().enumerate();
        numbered.map(|(index, &message)| (TermNumber(index as u16), message))
    }

    /// The number of an equal term, if there is one.
    pub fn find(&self, message: Message) -> Option<TermNumber> {
        self.numbers.get(&message).copied()
    }

    /// The term of a key that exists.
    pub fn term_of(&self, key: KeyNumber) -> TermNumber {
        self.keys[usize::from(key.0)].0
    }

    /// Every key with its term and maker, ascending.
    pub fn keys(&self) -> impl Iterator<Item = (KeyNumber, TermNumber, Origin)> + '_ {
        let numbered = self.keys.iter().enumerate();
        numbered.map(|(index, &(term, origin))| (KeyNumber(index as u16), term, origin))
    }

    /// The seals whose holding this term can bear on.
    pub fn touched(&self, term: TermNumber) -> &[TermNumber] {
        &self.touched[usize::from(term.0)]
    }

    pub fn enter_key(&mut self, origin: Origin) -> KeyNumber {
        let key = KeyNumber(self.keys.len() as u16);
        let term = self.enter(Message::Key(key));
        self.keys.push((term, origin));
        key
    }

    pub fn enter_data(&mut self) -> TermNumber {
        self.data_items += 1;
        self.enter(Message::Data(self.data_items))
    }

    pub fn enter_seal(&mut self, under: KeyNumber, payload: TermNumber) -> TermNumber {
        let seal = self.enter(Message::Seal { under, payload });
        for part in [self.term_of(under), payload, seal] {
            self.touched[usize::from(part.0)].push(seal);
        }
        seal
    }

    /// Enters a message that is not in the table yet; the caller has seen to room.
    fn enter(&mut self, message: Message) -> TermNumber {
        let number = TermNumber(self.messages.len() as u16);
        self.messages.push(message);
        self.touched.push(Vec::new());
        self.numbers.insert(message, number);
        number
    }
}
