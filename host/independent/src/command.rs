//! command.rs: the ten commands, the numbers they name, and their bodies as bytes.

/// A handle's number, 0 to 255.
#[derive(Clone, Copy, PartialEq, Eq, PartialOrd, Ord, Hash, Debug)]
pub struct HandleNumber(pub u8);

/// A term's number, in order of coming into being.
#[derive(Clone, Copy, PartialEq, Eq, PartialOrd, Ord, Hash, Debug)]
pub struct TermNumber(pub u16);

/// A key's number, token's and caller's keys together, in order of creation.
#[derive(Clone, Copy, PartialEq, Eq, PartialOrd, Ord, Hash, Debug)]
pub struct KeyNumber(pub u16);

#[derive(Clone, Copy, PartialEq, Eq, Debug)]
pub enum Command {
    Generate {
        flags: u8,
    },
    Wrap {
        a: HandleNumber,
        b: HandleNumber,
    },
    Unwrap {
        handle: HandleNumber,
        term: TermNumber,
        flags: u8,
    },
    Encrypt {
        handle: HandleNumber,
        term: TermNumber,
    },
    Decrypt {
        handle: HandleNumber,
        term: TermNumber,
    },
    Corrupt {
        handle: HandleNumber,
    },
    Destroy {
        handle: HandleNumber,
    },
    OwnKey,
    OwnData,
    Seal {
        key: TermNumber,
        payload: TermNumber,
    },
}

/// How many bytes the body of a command with this number takes; none if no
/// command has the number. A handle and a flag byte take one, a term two.
pub fn body_length(number: u8) -> Option<usize> {
    match number {
        1 => Some(1),
        2 => Some(1 + 1),
        3 => Some(1 + 2 + 1),
        4 | 5 => Some(1 + 2),
        6 | 7 => Some(1),
        8 | 9 => Some(0),
        10 => Some(2 + 2),
        _ => None,
    }
}

impl Command {
    /// The command with this number and body; none if the number is unknown or
    /// the body is not of that command's length.
    pub fn decode(number: u8, body: &[u8]) -> Option<Command> {
        let term = |high: u8, low: u8| TermNumber(u16::from_be_bytes([high, low]));
        let handle = HandleNumber;
        Some(match (number, body) {
            (1, &[flags]) => Command::Generate { flags },
            (2, &[a, b]) => Command::Wrap {
                a: handle(a),
                b: handle(b),
            },
            (3, &[h, t1, t0, flags]) => Command::Unwrap {
                handle: handle(h),
                term: term(t1, t0),
                flags,
            },
            (4, &[h, t1, t0]) => Command::Encrypt {
                handle: handle(h),
                term: term(t1, t0),
            },
            (5, &[h, t1, t0]) => Command::Decrypt {
                handle: handle(h),
                term: term(t1, t0),
            },
            (6, &[h]) => Command::Corrupt { handle: handle(h) },
            (7, &[h]) => Command::Destroy { handle: handle(h) },
            (8, &[]) => Command::OwnKey,
            (9, &[]) => Command::OwnData,
            (10, &[k1, k0, t1, t0]) => Command::Seal {
                key: term(k1, k0),
                payload: term(t1, t0),
            },
            _ => return None,
        })
    }

    pub fn number(&self) -> u8 {
        match self {
            Command::Generate { .. } => 1,
            Command::Wrap { .. } => 2,
            Command::Unwrap { .. } => 3,
            Command::Encrypt { .. } => 4,
            Command::Decrypt { .. } => 5,
            Command::Corrupt { .. } => 6,
            Command::Destroy { .. } => 7,
            Command::OwnKey => 8,
            Command::OwnData => 9,
            Command::Seal { .. } => 10,
        }
    }

    /// As `rounds` prints it, without the blank.
    pub fn name(&self) -> &'static str {
        match self {
            Command::Generate { .. } => "GENERATE",
            Command::Wrap { .. } => "WRAP",
            Command::Unwrap { .. } => "UNWRAP",
            Command::Encrypt { .. } => "ENCRYPT",
            Command::Decrypt { .. } => "DECRYPT",
            Command::Corrupt { .. } => "CORRUPT",
            Command::Destroy { .. } => "DESTROY",
            Command::OwnKey => "OWNKEY",
            Command::OwnData => "OWNDATA",
            Command::Seal { .. } => "SEAL",
        }
    }

    /// The body as it stands in a sheet.
    pub fn body(&self) -> Vec<u8> {
        let mut body = Vec::new();
        match *self {
            Command::Generate { flags } => body.push(flags),
            Command::Wrap { a, b } => body.extend([a.0, b.0]),
            Command::Unwrap {
                handle,
                term,
                flags,
            } => {
                body.push(handle.0);
                body.extend(term.0.to_be_bytes());
                body.push(flags);
            }
            Command::Encrypt { handle, term } | Command::Decrypt { handle, term } => {
                body.push(handle.0);
                body.extend(term.0.to_be_bytes());
            }
            Command::Corrupt { handle } | Command::Destroy { handle } => body.push(handle.0),
            Command::OwnKey | Command::OwnData => {}
            Command::Seal { key, payload } => {
                body.extend(key.0.to_be_bytes());
                body.extend(payload.0.to_be_bytes());
            }
        }
        body
    }
}
