//! provoke.rs: for the generator, commands that are meant to be refused, for each
//! answer 2 to 11, and commands made of random numbers.

use crate::command::{Command, HandleNumber, TermNumber};
use crate::engine::{may_wrap, Handle, Token, MOST_HANDLES};
use crate::policy::{self, Policy};
use crate::propose::{
    generate_flags, handle_with, handles_where, propose, terms_where, unwrap_flags, Intent,
};
use crate::random::Random;
use crate::terms::Message;

/// A command aimed at one of the answers 2 to 11, if the state allows it.
pub fn provoke(random: &mut Random, policy: Policy, model: &Token) -> Option<Command> {
    match 2 + random.below(10) {
        2 => holds_128(random, policy, model),
        3 => dead_handle(random, policy, model),
        4 => no_such_term(random, policy, model),
        5 => not_granted(random, policy, model),
        6 => flag_missing(random, policy, model),
        7 => not_held(random, policy, model),
        8 => wrong_kind(random, policy, model),
        9 => key_in_encrypt(random, policy, model),
        10 => no_free_handle(random, policy, model),
        _ => no_free_term(random, policy, model),
    }
}

/// A command whose numbers are random, most of them small.
pub fn noise(random: &mut Random, model: &Token) -> Command {
    let mut handle = || match random.below(4) {
        0 => HandleNumber(random.byte()),
        _ => HandleNumber(random.byte() % 8),
    };
    let (a, b) = (handle(), handle());
    let mut term = || match random.below(6) {
        0 => TermNumber(random.next_u64() as u16),
        _ => TermNumber(random.below(model.terms().len() + 1) as u16),
    };
    let (key, term) = (term(), term());
    let flags = random.byte();
    match random.below(8) {
        0 => Command::Generate { flags },
        1 => Command::Wrap { a, b },
        2 => Command::Unwrap {
            handle: a,
            term,
            flags,
        },
        3 => Command::Encrypt { handle: a, term },
        4 => Command::Decrypt { handle: a, term },
        5 => Command::Corrupt { handle: a },
        6 => Command::Destroy { handle: a },
        _ => Command::Seal { key, payload: term },
    }
}

/// A command that would be done, with one of its numbers changed.
pub fn spoilt(
    random: &mut Random,
    policy: Policy,
    model: &Token,
    intent: Intent,
) -> Option<Command> {
    let command = propose(random, policy, model, intent)?;
    let mut body = command.body();
    if body.is_empty() {
        return None;
    }
    let place = random.below(body.len());
    body[place] = match random.below(3) {
        0 => random.byte(),
        1 => body[place] ^ (1 << random.below(8)),
        _ => random.byte() % 8,
    };
    Command::decode(command.number(), &body)
}

fn any_handle(random: &mut Random, model: &Token) -> HandleNumber {
    let live = handle_with(random, model, 0).map(|(number, _)| number);
    live.unwrap_or(HandleNumber(random.byte()))
}

fn any_term(random: &mut Random, model: &Token) -> TermNumber {
    TermNumber(random.below(model.terms().len() + 1) as u16)
}

fn holds_128(random: &mut Random, policy: Policy, model: &Token) -> Option<Command> {
    if random.once_in(2) {
        let flags = generate_flags(random, policy) | policy::ABSENT;
        return Some(Command::Generate { flags });
    }
    Some(Command::Unwrap {
        handle: any_handle(random, model),
        term: any_term(random, model),
        flags: unwrap_flags(random, policy) | policy::ABSENT,
    })
}

fn dead_handle(random: &mut Random, policy: Policy, model: &Token) -> Option<Command> {
    let is_dead = |number: &HandleNumber| !model.handles().contains_key(number);
    let dead: Vec<HandleNumber> = (0..=255).map(HandleNumber).filter(is_dead).collect();
    let reach = if random.once_in(2) { 3 } else { 256 };
    let handle = random.pick(&dead[..dead.len().min(reach)])?;
    let term = any_term(random, model);
    let other = any_handle(random, model);
    Some(match random.below(7) {
        0 => Command::Wrap {
            a: handle,
            b: other,
        },
        1 => Command::Wrap {
            a: other,
            b: handle,
        },
        2 => Command::Unwrap {
            handle,
            term,
            flags: unwrap_flags(random, policy),
        },
        3 => Command::Encrypt { handle, term },
        4 => Command::Decrypt { handle, term },
        5 => Command::Corrupt { handle },
        _ => Command::Destroy { handle },
    })
}

fn no_such_term(random: &mut Random, policy: Policy, model: &Token) -> Option<Command> {
    let next = model.terms().len();
    let missing = TermNumber(match random.below(4) {
        0 => next + random.below(65_536 - next),
        _ => next + random.below(3),
    } as u16);
    let handle = any_handle(random, model);
    let there = any_term(random, model);
    Some(match random.below(5) {
        0 => Command::Unwrap {
            handle,
            term: missing,
            flags: unwrap_flags(random, policy),
        },
        1 => Command::Encrypt {
            handle,
            term: missing,
        },
        2 => Command::Decrypt {
            handle,
            term: missing,
        },
        3 => Command::Seal {
            key: missing,
            payload: there,
        },
        _ => Command::Seal {
            key: there,
            payload: missing,
        },
    })
}

fn not_granted(random: &mut Random, policy: Policy, model: &Token) -> Option<Command> {
    let flags = match random.below(3) {
        0 => random.byte() & 127,
        1 => generate_flags(random, policy) ^ (1 << random.below(7)),
        // Granted to the other command, or by the other policy.
        _ => random.pick(&[12, 28, 3, 19, 22, 67, 51, 54])?,
    };
    match propose(random, policy, model, Intent::Unwrap) {
        Some(Command::Unwrap { handle, term, .. }) if !policy.grants_unwrap(flags) => {
            Some(Command::Unwrap {
                handle,
                term,
                flags,
            })
        }
        _ if !policy.grants_generate(flags) => Some(Command::Generate { flags }),
        _ => None,
    }
}

fn flag_missing(random: &mut Random, policy: Policy, model: &Token) -> Option<Command> {
    let flag = random.pick(&[
        policy::WRAP,
        policy::UNWRAP,
        policy::ENCRYPT,
        policy::DECRYPT,
    ])?;
    let term = any_term(random, model);
    if flag == policy::WRAP {
        let (a, wrapping) = handle_with(random, model, 0)?;
        let barred = handles_where(model, |handle| !may_wrap(wrapping, handle));
        let (b, _) = random.pick(&barred)?;
        return Some(Command::Wrap { a, b });
    }
    let (handle, _) = random.pick(&handles_where(model, |handle| !handle.has(flag)))?;
    Some(match flag {
        policy::UNWRAP => Command::Unwrap {
            handle,
            term,
            flags: unwrap_flags(random, policy),
        },
        policy::ENCRYPT => Command::Encrypt { handle, term },
        _ => Command::Decrypt { handle, term },
    })
}

fn not_held(random: &mut Random, policy: Policy, model: &Token) -> Option<Command> {
    let secret = terms_where(model, |term, _| !model.holds(term));
    let term = random.pick(&secret)?;
    let mut handle = |flag| Some(handle_with(random, model, flag)?.0);
    Some(match term.0 % 5 {
        0 => Command::Unwrap {
            handle: handle(policy::UNWRAP)?,
            term,
            flags: unwrap_flags(random, policy),
        },
        1 => Command::Encrypt {
            handle: handle(policy::ENCRYPT)?,
            term,
        },
        2 => Command::Decrypt {
            handle: handle(policy::DECRYPT)?,
            term,
        },
        3 => Command::Seal {
            key: term,
            payload: any_term(random, model),
        },
        _ => Command::Seal {
            key: any_term(random, model),
            payload: term,
        },
    })
}

fn wrong_kind(random: &mut Random, policy: Policy, model: &Token) -> Option<Command> {
    let held = terms_where(model, |term, _| model.holds(term));
    let term = random.pick(&held)?;
    if random.once_in(3) {
        let no_key = |t, m| model.holds(t) && !matches!(m, Message::Key(_));
        return Some(Command::Seal {
            key: random.pick(&terms_where(model, no_key))?,
            payload: term,
        });
    }
    if random.once_in(2) {
        let (handle, _) = handle_with(random, model, policy::DECRYPT)?;
        return Some(Command::Decrypt { handle, term });
    }
    let (number, handle) = handle_with(random, model, policy::UNWRAP)?;
    Some(Command::Unwrap {
        handle: number,
        term: sealed_no_key(random, model, handle).unwrap_or(term),
        flags: unwrap_flags(random, policy),
    })
}

/// A seal under the handle's key whose payload is no key.
fn sealed_no_key(random: &mut Random, model: &Token, handle: Handle) -> Option<TermNumber> {
    random.pick(&terms_where(model, |_, message| match message {
        Message::Seal { under, payload } if under == handle.key => {
            !matches!(model.terms().message(payload), Some(Message::Key(_)))
        }
        _ => false,
    }))
}

fn key_in_encrypt(random: &mut Random, policy: Policy, model: &Token) -> Option<Command> {
    let keys = terms_where(model, |term, message| {
        matches!(message, Message::Key(_)) && model.holds(term)
    });
    let (handle, _) = handle_with(random, model, policy::ENCRYPT)?;
    let term = random.pick(&keys)?;
    (policy == Policy::StpPlus).then_some(Command::Encrypt { handle, term })
}

fn no_free_handle(random: &mut Random, policy: Policy, model: &Token) -> Option<Command> {
    if model.handles().len() < MOST_HANDLES {
        return None;
    }
    let intent = random.pick(&[Intent::Generate, Intent::Unwrap])?;
    propose(random, policy, model, intent)
}

fn no_free_term(random: &mut Random, policy: Policy, model: &Token) -> Option<Command> {
    if !model.terms().is_full() {
        return None;
    }
    let makers = [
        Intent::Generate,
        Intent::Wrap,
        Intent::Encrypt,
        Intent::OwnKey,
        Intent::OwnData,
        Intent::Seal,
    ];
    let intent = random.pick(&makers)?;
    propose(random, policy, model, intent)
}
