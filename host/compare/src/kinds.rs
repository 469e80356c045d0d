//! kinds.rs: the sheets of the benchmark, each of a kind that an engine could be slow on.

use independent::command::{Command, HandleNumber, TermNumber};
use independent::generate::generate;
use independent::policy::Policy;
use independent::random::Random;
use independent::sheet::Sheet;

/// A kind of sheet, and how to make one of so many commands.
pub struct Kind {
    pub name: &'static str,
    make: fn(usize) -> Sheet,
}

pub const KINDS: [Kind; 6] = [
    Kind {
        name: "random",
        make: random,
    },
    Kind {
        name: "dense-wraps",
        make: dense_wraps,
    },
    Kind {
        name: "repeated-seals",
        make: repeated_seals,
    },
    Kind {
        name: "long-chain",
        make: long_chain,
    },
    Kind {
        name: "same-bucket",
        make: same_bucket,
    },
    Kind {
        name: "corruptions",
        make: corruptions,
    },
];

impl Kind {
    pub fn named(name: &str) -> Option<&'static Kind> {
        KINDS.iter().find(|kind| kind.name == name)
    }

    /// A sheet of exactly so many commands, from 16 on.
    pub fn sheet(&self, commands: usize) -> Vec<u8> {
        let sheet = (self.make)(commands);
        assert_eq!(sheet.commands.len(), commands, "{}", self.name);
        sheet.to_bytes().expect("a sheet can hold these commands")
    }
}

/// The longest good sheet there is: 4,096 commands of four bytes, 28,675 bytes.
pub fn longest() -> Vec<u8> {
    let seal = Command::Seal {
        key: TermNumber(0),
        payload: TermNumber(0),
    };
    stp(vec![seal; 4_096])
        .to_bytes()
        .expect("a sheet can hold these commands")
}

fn stp(commands: Vec<Command>) -> Sheet {
    Sheet {
        policy: Policy::Stp,
        commands,
    }
}

/// A key that wraps, unwraps and can be wrapped.
const GENERATE: Command = Command::Generate { flags: 19 };

fn wrap(a: usize, b: usize) -> Command {
    Command::Wrap {
        a: HandleNumber(a as u8),
        b: HandleNumber(b as u8),
    }
}

fn seal(key: usize, payload: usize) -> Command {
    Command::Seal {
        key: TermNumber(key as u16),
        payload: TermNumber(payload as u16),
    }
}

fn corrupt(handle: usize) -> Command {
    Command::Corrupt {
        handle: HandleNumber(handle as u8),
    }
}

/// As the tests have them: the first seed whose sheet is this long.
fn random(commands: usize) -> Sheet {
    let mut seeds = 1..;
    let made = seeds.find_map(|seed| {
        let sheet = generate(&mut Random::new(seed), commands);
        (sheet.commands.len() == commands).then_some(sheet)
    });
    made.expect("every second sheet is this long")
}

/// 31 keys, each wrapped under each over and over, and a leak at the end.
fn dense_wraps(commands: usize) -> Sheet {
    let keys = 31.min(commands / 4);
    let mut list = vec![GENERATE; keys];
    let pairs = (0..keys * keys).map(|at| wrap(at / keys, at % keys));
    list.extend(pairs.cycle().take(commands - keys - 1));
    list.push(corrupt(0));
    stp(list)
}

/// One seal, made over and over.
fn repeated_seals(commands: usize) -> Sheet {
    let mut list = vec![Command::OwnKey, Command::OwnData];
    list.resize(commands, seal(0, 1));
    stp(list)
}

/// A chain of keys wrapped from its end to its beginning, as long as the terms allow (512 keys), and then the leak at the
/// beginning: every seal is older than the one that opens it. What is left of the sheet repeats the last wrap.
fn long_chain(commands: usize) -> Sheet {
    let keys = 512.min((commands - 2) / 3 + 1);
    // Handles 0 and 1 in turn: the older one is destroyed when it is wrapped, and its number taken again.
    let mut list = vec![GENERATE];
    for link in 1..keys {
        let (new, old) = (link % 2, (link + 1) % 2);
        list.extend([GENERATE, wrap(new, old)]);
        if link + 1 < keys {
            let handle = HandleNumber(old as u8);
            list.push(Command::Destroy { handle });
        }
    }
    let (first, second) = ((keys - 1) % 2, keys % 2);
    list.resize(commands - 1, wrap(first, second));
    list.push(corrupt(first));
    stp(list)
}

/// Seals whose key number and payload number have one sum, which share a bucket under any hash that adds them, and then all of
/// them again and again.
fn same_bucket(commands: usize) -> Sheet {
    let keys = 512.min(commands / 4);
    let mut list = vec![Command::OwnKey; keys];
    let seals = (0..keys).map(|key| seal(key, keys - 1 - key));
    list.extend(seals.cycle().take(commands - keys));
    stp(list)
}

/// Keys wrapped in a chain, and then each corrupted, over and over, from the end of the chain to its beginning.
fn corruptions(commands: usize) -> Sheet {
    let keys = 256.min(commands / 4);
    let mut list = vec![GENERATE; keys];
    list.extend((1..keys).map(|key| wrap(key - 1, key)));
    let handles = (0..keys).rev().map(corrupt);
    list.extend(handles.cycle().take(commands - list.len()));
    stp(list)
}
