//! propose.rs: for the generator, a command of a wanted kind that the model will do,
//! if there is one (limits of handles and terms aside).

use crate::command::{Command, HandleNumber, KeyNumber, TermNumber};
use crate::engine::{may_wrap, Handle, Token};
use crate::policy::{self, Policy};
use crate::random::Random;
use crate::terms::Message;
use std::collections::BTreeSet;

/// The kinds of command, in document 01's order.
#[derive(Clone, Copy, PartialEq, Eq, Debug)]
pub enum Intent {
    Generate,
    Wrap,
    Unwrap,
    Encrypt,
    Decrypt,
    Corrupt,
    Destroy,
    OwnKey,
    OwnData,
    Seal,
}

/// Flag bytes that lead somewhere under the plain policy.
const PLAIN_FLAGS: [u8; 14] = [25, 16, 19, 3, 28, 12, 67, 51, 54, 22, 127, 31, 63, 95];

pub fn generate_flags(random: &mut Random, policy: Policy) -> u8 {
    let listed: &[u8] = match policy {
        Policy::Plain if random.once_in(2) => return random.byte() & 127,
        Policy::Plain => &PLAIN_FLAGS,
        Policy::Stp => &[12, 28, 3, 19, 19],
        Policy::StpPlus => &[67, 51, 28],
    };
    random.pick(listed).unwrap_or(0)
}

pub fn unwrap_flags(random: &mut Random, policy: Policy) -> u8 {
    match policy {
        Policy::Plain => generate_flags(random, policy),
        Policy::Stp => 22,
        Policy::StpPlus => 54,
    }
}

/// A command of this kind that is done in this state, if one is found.
pub fn propose(
    random: &mut Random,
    policy: Policy,
    model: &Token,
    intent: Intent,
) -> Option<Command> {
    match intent {
        Intent::Generate => Some(Command::Generate {
            flags: generate_flags(random, policy),
        }),
        Intent::Wrap => wrap(random, model),
        Intent::Unwrap => unwrap(random, policy, model),
        Intent::Encrypt => encrypt(random, policy, model),
        Intent::Decrypt => decrypt(random, model),
        Intent::Corrupt => corrupt(random, model),
        Intent::Destroy => destroy(random, model),
        Intent::OwnKey => Some(Command::OwnKey),
        Intent::OwnData => Some(Command::OwnData),
        Intent::Seal => seal(random, model),
    }
}

/// The live handles for which the test holds.
pub fn handles_where(model: &Token, test: impl Fn(Handle) -> bool) -> Vec<(HandleNumber, Handle)> {
    let live = model.handles().iter().map(|(&number, &h)| (number, h));
    live.filter(|&(_, handle)| test(handle)).collect()
}

/// The terms for which the test holds, ascending.
pub fn terms_where(model: &Token, test: impl Fn(TermNumber, Message) -> bool) -> Vec<TermNumber> {
    let all = model.terms().all();
    let chosen = all.filter(|&(term, message)| test(term, message));
    chosen.map(|(term, _)| term).collect()
}

/// One of these terms, rather a late one: by a few throws, since listing all is slow.
pub fn late_term_where(
    random: &mut Random,
    model: &Token,
    test: impl Fn(TermNumber, Message) -> bool,
) -> Option<TermNumber> {
    let count = model.terms().len();
    for _ in 0..if count == 0 { 0 } else { 12 } {
        let term = TermNumber(random.below_late(count) as u16);
        if model.terms().message(term).is_some_and(|m| test(term, m)) {
            return Some(term);
        }
    }
    random.pick(&terms_where(model, test))
}

pub fn handle_with(
    random: &mut Random,
    model: &Token,
    flags: u8,
) -> Option<(HandleNumber, Handle)> {
    random.pick(&handles_where(model, |handle| handle.has(flags)))
}

fn wrap(random: &mut Random, model: &Token) -> Option<Command> {
    let any = Some(handle_with(random, model, policy::WRAP)?);
    let next = match random.once_in(3) {
        true => wrapped_and_wrapping(random, model).or(any),
        false => any,
    };
    let (a, wrapping) = next?;
    let mut open = handles_where(model, |handle| may_wrap(wrapping, handle));
    // Rather a key that wraps itself, so that chains come about.
    if open.iter().any(|(_, h)| h.has(policy::WRAP)) && random.once_in(2) {
        open.retain(|(_, h)| h.has(policy::WRAP));
    }
    let (b, _) = random.pick(&open)?;
    Some(Command::Wrap { a, b })
}

/// A handle that can wrap and whose own key was sealed before, for the same reason.
fn wrapped_and_wrapping(random: &mut Random, model: &Token) -> Option<(HandleNumber, Handle)> {
    let sealed = sealed_keys(model, |_| true);
    let chosen = handles_where(model, |handle| {
        handle.has(policy::WRAP) && sealed.contains(&handle.key)
    });
    random.pick(&chosen)
}

/// The keys sealed under other keys for which the test holds.
fn sealed_keys(model: &Token, test: impl Fn(KeyNumber) -> bool) -> BTreeSet<KeyNumber> {
    let seals = model.terms().all();
    let parts = seals.filter_map(|(_, message)| sealed_key(model, message));
    let chosen = parts.filter(|&(under, key)| under != key && test(under));
    chosen.map(|(_, key)| key).collect()
}

/// For a seal of a key: the key it is under and the key sealed.
fn sealed_key(model: &Token, message: Message) -> Option<(KeyNumber, KeyNumber)> {
    let Message::Seal { under, payload } = message else {
        return None;
    };
    match model.terms().message(payload) {
        Some(Message::Key(key)) => Some((under, key)),
        _ => None,
    }
}

/// The keys that a live handle with these flags stands for.
fn keys_with(model: &Token, flags: u8) -> BTreeSet<KeyNumber> {
    let able = model.handles().values().filter(|handle| handle.has(flags));
    able.map(|handle| handle.key).collect()
}

/// Every second time any handle, else the one of four that lets most terms be held.
fn corrupt(random: &mut Random, model: &Token) -> Option<Command> {
    let throws = if random.once_in(2) { 1 } else { 4 };
    let mut best = None;
    for _ in 0..throws {
        let (number, handle) = handle_with(random, model, 0)?;
        let mut caller = model.caller().clone();
        caller.give(model.terms().term_of(handle.key), model.terms());
        best = best.max(Some((caller.count(), number)));
    }
    Some(Command::Corrupt { handle: best?.1 })
}

/// Every second time any handle, else one whose key can be imported again later.
fn destroy(random: &mut Random, model: &Token) -> Option<Command> {
    let any = Some(handle_with(random, model, 0)?);
    let unwrapping = keys_with(model, policy::UNWRAP);
    let sealed = sealed_keys(model, |under| unwrapping.contains(&under));
    let again = handles_where(model, |handle| sealed.contains(&handle.key));
    let chosen = match random.once_in(2) {
        true => random.pick(&again).or(any),
        false => any,
    };
    Some(Command::Destroy { handle: chosen?.0 })
}

/// The seals that some handle with U can unwrap, those of keys without a handle first.
fn unwrap(random: &mut Random, policy: Policy, model: &Token) -> Option<Command> {
    let (live, able) = (keys_with(model, 0), keys_with(model, policy::UNWRAP));
    let open = |message, only_new: bool| {
        sealed_key(model, message)
            .is_some_and(|(under, key)| able.contains(&under) && !(only_new && live.contains(&key)))
    };
    let only_new = !random.once_in(3);
    let imports = terms_where(model, |_, message| open(message, only_new));
    let term = match random.pick_late(&imports) {
        Some(term) => term,
        None => late_term_where(random, model, |_, message| open(message, false))?,
    };
    let (under, _) = sealed_key(model, model.terms().message(term)?)?;
    let able = handles_where(model, |h| h.key == under && h.has(policy::UNWRAP));
    Some(Command::Unwrap {
        handle: random.pick(&able)?.0,
        term,
        flags: unwrap_flags(random, policy),
    })
}

fn encrypt(random: &mut Random, policy: Policy, model: &Token) -> Option<Command> {
    let (handle, _) = handle_with(random, model, policy::ENCRYPT)?;
    let term = late_term_where(random, model, |term, message| {
        let barred = policy == Policy::StpPlus && matches!(message, Message::Key(_));
        model.holds(term) && !barred
    })?;
    Some(Command::Encrypt { handle, term })
}

fn decrypt(random: &mut Random, model: &Token) -> Option<Command> {
    let (handle, able) = handle_with(random, model, policy::DECRYPT)?;
    let term = late_term_where(
        random,
        model,
        |_, message| matches!(message, Message::Seal { under, .. } if under == able.key),
    )?;
    Some(Command::Decrypt { handle, term })
}

fn seal(random: &mut Random, model: &Token) -> Option<Command> {
    let known = model.known_keys();
    if random.once_in(3) {
        // A seal of one known key under another that the token can unwrap.
        let able = keys_with(model, policy::UNWRAP);
        let mut keys = known.clone();
        keys.retain(|(key, _)| able.contains(key));
        if let (Some(key), Some(inner)) = (random.pick(&keys), random.pick_late(&known)) {
            return Some(Command::Seal {
                key: model.terms().term_of(key.0),
                payload: model.terms().term_of(inner.0),
            });
        }
    }
    Some(Command::Seal {
        key: model.terms().term_of(random.pick(&known)?.0),
        payload: late_term_where(random, model, |term, _| model.holds(term))?,
    })
}
