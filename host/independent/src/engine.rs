//! engine.rs: the symbolic token and its caller, and one step for each command with
//! the refusals 2 to 11 asked in their order, so that the smallest is answered.

use crate::caller::Caller;
use crate::command::{Command, HandleNumber, KeyNumber, TermNumber};
use crate::policy::{self, Policy};
use crate::terms::{Message, Origin, Terms};
use std::collections::BTreeMap;

/// At most this many live handles.
pub const MOST_HANDLES: usize = 256;

/// Document 01's answers 1 to 11; `as u8` gives the number.
#[derive(Clone, Copy, PartialEq, Eq, PartialOrd, Ord, Debug)]
pub enum Refusal {
    /// A direct call's only.
    NoCommand = 1,
    FlagByteHolds128 = 2,
    HandleNotLive = 3,
    NoSuchTerm = 4,
    NotGranted = 5,
    FlagMissing = 6,
    NotHeld = 7,
    WrongKind = 8,
    KeyInStpPlusEncrypt = 9,
    NoFreeHandle = 10,
    NoFreeTerm = 11,
}

/// The value of a command done, or why it is refused.
pub type Answer = Result<u16, Refusal>;

/// What a live handle stands for and carries.
#[derive(Clone, Copy, PartialEq, Eq, Debug)]
pub struct Handle {
    pub key: KeyNumber,
    pub flags: u8,
}

impl Handle {
    /// Whether all these flags are there.
    pub fn has(self, flags: u8) -> bool {
        self.flags & flags == flags
    }
}

/// The token together with its caller.
#[derive(Clone, Default, Debug)]
pub struct Token {
    terms: Terms,
    handles: BTreeMap<HandleNumber, Handle>,
    caller: Caller,
}

fn require(condition: bool, otherwise: Refusal) -> Result<(), Refusal> {
    condition.then_some(()).ok_or(otherwise)
}

/// Whether document 01 lets handle `a` wrap the key of handle `b`, by their flags.
pub fn may_wrap(a: Handle, b: Handle) -> bool {
    let trusted_enough = !b.has(policy::WRAP_WITH_TRUSTED_ONLY) || a.has(policy::TRUSTED);
    a.has(policy::WRAP) && b.has(policy::EXTRACTABLE) && trusted_enough
}

impl Token {
    pub fn new() -> Token {
        Token::default()
    }

    pub fn terms(&self) -> &Terms {
        &self.terms
    }

    pub fn handles(&self) -> &BTreeMap<HandleNumber, Handle> {
        &self.handles
    }

    pub fn caller(&self) -> &Caller {
        &self.caller
    }

    pub fn holds(&self, term: TermNumber) -> bool {
        self.caller.holds(term)
    }

    /// The keys the caller can work out, ascending.
    pub fn known_keys(&self) -> Vec<(KeyNumber, Origin)> {
        let held = self.terms.keys().filter(|&(_, term, _)| self.holds(term));
        held.map(|(key, _, origin)| (key, origin)).collect()
    }

    /// A direct call: answer 1 for what is no command or no policy, else the step.
    pub fn direct_call(&mut self, policy: u8, number: u8, body: &[u8]) -> Answer {
        let policy = Policy::from_byte(policy).ok_or(Refusal::NoCommand)?;
        let command = Command::decode(number, body).ok_or(Refusal::NoCommand)?;
        self.step(policy, &command)
    }

    /// One command. A refusal leaves the token as it was.
    pub fn step(&mut self, policy: Policy, command: &Command) -> Answer {
        match *command {
            Command::Generate { flags } => self.generate(policy, flags),
            Command::Wrap { a, b } => self.wrap(a, b),
            Command::Unwrap {
                handle,
                term,
                flags,
            } => self.unwrap(policy, handle, term, flags),
            Command::Encrypt { handle, term } => self.encrypt(policy, handle, term),
            Command::Decrypt { handle, term } => self.decrypt(handle, term),
            Command::Corrupt { handle } => self.corrupt(handle),
            Command::Destroy { handle } => self.destroy(handle),
            Command::OwnKey => self.own_key(),
            Command::OwnData => self.own_data(),
            Command::Seal { key, payload } => self.seal(key, payload),
        }
    }

    fn generate(&mut self, policy: Policy, flags: u8) -> Answer {
        require(flags & policy::ABSENT == 0, Refusal::FlagByteHolds128)?;
        require(policy.grants_generate(flags), Refusal::NotGranted)?;
        let number = self.free_handle()?;
        require(!self.terms.is_full(), Refusal::NoFreeTerm)?;
        let key = self.terms.enter_key(Origin::Generated);
        self.handles.insert(number, Handle { key, flags });
        Ok(u16::from(number.0))
    }

    fn wrap(&mut self, a: HandleNumber, b: HandleNumber) -> Answer {
        let a = self.live(a)?;
        let b = self.live(b)?;
        require(may_wrap(a, b), Refusal::FlagMissing)?;
        self.make_seal(a.key, self.terms.term_of(b.key))
    }

    fn unwrap(
        &mut self,
        policy: Policy,
        handle: HandleNumber,
        term: TermNumber,
        flags: u8,
    ) -> Answer {
        require(flags & policy::ABSENT == 0, Refusal::FlagByteHolds128)?;
        let handle = self.live(handle)?;
        let message = self.existing(term)?;
        require(policy.grants_unwrap(flags), Refusal::NotGranted)?;
        require(handle.has(policy::UNWRAP), Refusal::FlagMissing)?;
        require(self.holds(term), Refusal::NotHeld)?;
        let payload = payload_under(handle.key, message)?;
        let Some(Message::Key(key)) = self.terms.message(payload) else {
            return Err(Refusal::WrongKind);
        };
        let number = self.free_handle()?;
        self.handles.insert(number, Handle { key, flags });
        Ok(u16::from(number.0))
    }

    fn encrypt(&mut self, policy: Policy, handle: HandleNumber, term: TermNumber) -> Answer {
        let handle = self.live(handle)?;
        let message = self.existing(term)?;
        require(handle.has(policy::ENCRYPT), Refusal::FlagMissing)?;
        require(self.holds(term), Refusal::NotHeld)?;
        let key_in_stp_plus = policy == Policy::StpPlus && matches!(message, Message::Key(_));
        require(!key_in_stp_plus, Refusal::KeyInStpPlusEncrypt)?;
        self.make_seal(handle.key, term)
    }

    fn decrypt(&mut self, handle: HandleNumber, term: TermNumber) -> Answer {
        let handle = self.live(handle)?;
        let message = self.existing(term)?;
        require(handle.has(policy::DECRYPT), Refusal::FlagMissing)?;
        require(self.holds(term), Refusal::NotHeld)?;
        let payload = payload_under(handle.key, message)?;
        Ok(self.give(payload))
    }

    fn corrupt(&mut self, handle: HandleNumber) -> Answer {
        let handle = self.live(handle)?;
        Ok(self.give(self.terms.term_of(handle.key)))
    }

    fn destroy(&mut self, handle: HandleNumber) -> Answer {
        self.live(handle)?;
        self.handles.remove(&handle);
        Ok(u16::from(handle.0))
    }

    fn own_key(&mut self) -> Answer {
        require(!self.terms.is_full(), Refusal::NoFreeTerm)?;
        let key = self.terms.enter_key(Origin::Own);
        Ok(self.give(self.terms.term_of(key)))
    }

    fn own_data(&mut self) -> Answer {
        require(!self.terms.is_full(), Refusal::NoFreeTerm)?;
        let term = self.terms.enter_data();
        Ok(self.give(term))
    }

    fn seal(&mut self, key: TermNumber, payload: TermNumber) -> Answer {
        let message = self.existing(key)?;
        self.existing(payload)?;
        require(self.holds(key) && self.holds(payload), Refusal::NotHeld)?;
        let Message::Key(key) = message else {
            return Err(Refusal::WrongKind);
        };
        self.make_seal(key, payload)
    }

    /// The seal, given to the caller: the equal term first, then room for a new one.
    fn make_seal(&mut self, under: KeyNumber, payload: TermNumber) -> Answer {
        let seal = match self.terms.find(Message::Seal { under, payload }) {
            Some(seal) => seal,
            None => {
                require(!self.terms.is_full(), Refusal::NoFreeTerm)?;
                self.terms.enter_seal(under, payload)
            }
        };
        Ok(self.give(seal))
    }

    /// Every term answered is given to the caller.
    fn give(&mut self, term: TermNumber) -> u16 {
        self.caller.give(term, &self.terms);
        term.0
    }

    fn live(&self, number: HandleNumber) -> Result<Handle, Refusal> {
        let handle = self.handles.get(&number).copied();
        handle.ok_or(Refusal::HandleNotLive)
    }

    fn existing(&self, term: TermNumber) -> Result<Message, Refusal> {
        self.terms.message(term).ok_or(Refusal::NoSuchTerm)
    }

    /// The lowest number not live: the first that the live ones, ascending, leave out.
    fn free_handle(&self) -> Result<HandleNumber, Refusal> {
        require(self.handles.len() < MOST_HANDLES, Refusal::NoFreeHandle)?;
        let mut in_order = self.handles.keys().zip((0..=255).map(HandleNumber));
        let gap = in_order.find(|&(&live, number)| live != number);
        let last = HandleNumber(self.handles.len() as u8);
        Ok(gap.map_or(last, |(_, number)| number))
    }
}

/// The payload of a message that is a seal under this key.
fn payload_under(key: KeyNumber, message: Message) -> Result<TermNumber, Refusal> {
    match message {
        Message::Seal { under, payload } if under == key => Ok(payload),
        _ => Err(Refusal::WrongKind),
    }
}
