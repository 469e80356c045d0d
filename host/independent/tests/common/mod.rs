//! What the tests share: short names for the commands, and a sheet run through its
//! bytes to a report that is taken apart again.
#![allow(dead_code)]

use independent::command::{Command, HandleNumber, TermNumber};
use independent::policy::Policy;
use independent::report::report_for;
use independent::sheet::Sheet;

pub fn g(flags: u8) -> Command {
    Command::Generate { flags }
}

pub fn wrap(a: u8, b: u8) -> Command {
    Command::Wrap {
        a: HandleNumber(a),
        b: HandleNumber(b),
    }
}

pub fn unwrap(handle: u8, term: u16, flags: u8) -> Command {
    Command::Unwrap {
        handle: HandleNumber(handle),
        term: TermNumber(term),
        flags,
    }
}

pub fn encrypt(handle: u8, term: u16) -> Command {
    Command::Encrypt {
        handle: HandleNumber(handle),
        term: TermNumber(term),
    }
}

pub fn decrypt(handle: u8, term: u16) -> Command {
    Command::Decrypt {
        handle: HandleNumber(handle),
        term: TermNumber(term),
    }
}

pub fn corrupt(handle: u8) -> Command {
    Command::Corrupt {
        handle: HandleNumber(handle),
    }
}

pub fn destroy(handle: u8) -> Command {
    Command::Destroy {
        handle: HandleNumber(handle),
    }
}

pub fn seal(key: u16, payload: u16) -> Command {
    Command::Seal {
        key: TermNumber(key),
        payload: TermNumber(payload),
    }
}

pub const OWN_KEY: Command = Command::OwnKey;
pub const OWN_DATA: Command = Command::OwnData;

/// The same command so many times.
pub fn times(count: usize, command: Command) -> Vec<Command> {
    vec![command; count]
}

/// A report taken apart: (answer, value) of each command, and the known keys.
#[derive(Clone, PartialEq, Eq, Debug)]
pub struct Reply {
    pub answers: Vec<(u8, u16)>,
    pub known: Vec<u16>,
}

pub fn sheet_bytes(policy: u8, commands: &[Command]) -> Vec<u8> {
    let policy = Policy::from_byte(policy).expect("a policy");
    let commands = commands.to_vec();
    let sheet = Sheet { policy, commands };
    sheet.to_bytes().expect("a sheet can hold these commands")
}

pub fn take_apart(report: &[u8]) -> Reply {
    let two = |at: usize| u16::from_be_bytes([report[at], report[at + 1]]);
    let (n, m) = (usize::from(two(0)), usize::from(two(2)));
    assert_eq!(report.len(), 4 + 3 * n + 2 * m);
    let record = |index| (report[4 + 3 * index], two(5 + 3 * index));
    let key = |index| two(4 + 3 * n + 2 * index);
    Reply {
        answers: (0..n).map(record).collect(),
        known: (0..m).map(key).collect(),
    }
}

pub fn play(policy: u8, commands: &[Command]) -> Reply {
    let report = report_for(&sheet_bytes(policy, commands)).expect("a good sheet");
    take_apart(&report)
}

/// The whole reply, command by command, written by hand.
pub fn expect(policy: u8, script: &[(Command, u8, u16)], known: &[u16]) {
    let commands: Vec<Command> = script.iter().map(|line| line.0).collect();
    let answers: Vec<(u8, u16)> = script.iter().map(|line| (line.1, line.2)).collect();
    let known = known.to_vec();
    assert_eq!(play(policy, &commands), Reply { answers, known });
}

/// The answer and value of the last command after others that are all done.
pub fn last_after(policy: u8, before: &[Command], last: Command) -> (u8, u16) {
    let mut commands = before.to_vec();
    commands.push(last);
    let reply = play(policy, &commands);
    let (last, before) = reply.answers.split_last().expect("one command at least");
    assert!(before.iter().all(|answer| answer.0 == 0), "{before:?}");
    *last
}
