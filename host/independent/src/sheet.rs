//! sheet.rs: reads a sheet (bytes to policy and commands, or the place of the
//! first fault) and writes one (policy and commands to bytes).

use crate::command::{body_length, Command};
use crate::policy::Policy;

/// At most this many commands in a sheet.
pub const MOST_COMMANDS: usize = 4096;

/// Bytes before the table of contents, and bytes of one of its entries.
const HEADER: usize = 3;
const ENTRY: usize = 3;

/// The place of a fault: 0 for the sheet's frame, i for entry i counted from 1,
/// n + 1 for bytes after the last body.
#[derive(Clone, Copy, PartialEq, Eq, Debug)]
pub struct Place(pub u16);

#[derive(Clone, PartialEq, Eq, Debug)]
pub struct Sheet {
    pub policy: Policy,
    pub commands: Vec<Command>,
}

/// A command handed to the writer: it may be one that no sheet can hold.
#[derive(Clone, PartialEq, Eq, Debug)]
pub struct RawCommand {
    pub number: u8,
    pub body: Vec<u8>,
}

/// Why the writer with a lent buffer refuses.
#[derive(Clone, Copy, PartialEq, Eq, Debug)]
pub enum WriteRefusal {
    /// Answer 12.
    Malformed(Place),
    /// Answer 13.
    TooShort,
}

pub fn read_sheet(bytes: &[u8]) -> Result<Sheet, Place> {
    let (policy, count) = read_frame(bytes).ok_or(Place(0))?;
    let mut commands = Vec::with_capacity(count);
    // The end of the bodies read so far: where the next one has to begin.
    let mut end = HEADER + ENTRY * count;
    for index in 0..count {
        let place = Place(index as u16 + 1);
        let (command, after) = read_entry(bytes, index, end).ok_or(place)?;
        commands.push(command);
        end = after;
    }
    if end != bytes.len() {
        return Err(Place(count as u16 + 1));
    }
    Ok(Sheet { policy, commands })
}

/// Policy and count, if these and the whole table are there and in bounds.
fn read_frame(bytes: &[u8]) -> Option<(Policy, usize)> {
    let header = bytes.get(..HEADER)?;
    let policy = Policy::from_byte(header[0])?;
    let count = usize::from(u16::from_be_bytes([header[1], header[2]]));
    let fits = count <= MOST_COMMANDS && bytes.len() >= HEADER + ENTRY * count;
    fits.then_some((policy, count))
}

/// The command of the entry with this index from 0, and where its body ends;
/// none if the entry is at fault. The bodies before it end at `end`.
fn read_entry(bytes: &[u8], index: usize, end: usize) -> Option<(Command, usize)> {
    let at = HEADER + ENTRY * index;
    let number = bytes[at];
    let offset = usize::from(u16::from_be_bytes([bytes[at + 1], bytes[at + 2]]));
    let length = body_length(number)?;
    if offset != end {
        return None;
    }
    let body = bytes.get(offset..offset + length)?;
    Some((Command::decode(number, body)?, offset + length))
}

/// The sheet's bytes, or the place the writer answers 12 with: 0 for policy or
/// count, i for a command i of an unknown number or with a body of a wrong length.
pub fn write_sheet(policy: u8, commands: &[RawCommand]) -> Result<Vec<u8>, Place> {
    if Policy::from_byte(policy).is_none() || commands.len() > MOST_COMMANDS {
        return Err(Place(0));
    }
    let mut table = Vec::new();
    let mut bodies: Vec<u8> = Vec::new();
    let start = HEADER + ENTRY * commands.len();
    for (index, command) in commands.iter().enumerate() {
        if body_length(command.number) != Some(command.body.len()) {
            return Err(Place(index as u16 + 1));
        }
        // At most 3 + 4,096 * 3 + 4,096 * 4 = 28,675, so two bytes hold it.
        let offset = (start + bodies.len()) as u16;
        table.push(command.number);
        table.extend(offset.to_be_bytes());
        bodies.extend(&command.body);
    }
    let mut sheet = vec![policy];
    sheet.extend((commands.len() as u16).to_be_bytes());
    sheet.extend(table);
    sheet.extend(bodies);
    Ok(sheet)
}

/// The writer with a lent buffer: the number of bytes written at its start. A
/// refusal writes nothing, and 12 comes before 13.
pub fn write_sheet_into(
    policy: u8,
    commands: &[RawCommand],
    buffer: &mut [u8],
) -> Result<usize, WriteRefusal> {
    let sheet = write_sheet(policy, commands).map_err(WriteRefusal::Malformed)?;
    let part = buffer.get_mut(..sheet.len());
    part.ok_or(WriteRefusal::TooShort)?.copy_from_slice(&sheet);
    Ok(sheet.len())
}

impl Sheet {
    /// The commands as the writer takes them.
    pub fn raw_commands(&self) -> Vec<RawCommand> {
        let raw = |command: &Command| RawCommand {
            number: command.number(),
            body: command.body(),
        };
        self.commands.iter().map(raw).collect()
    }

    /// The sheet's bytes; place 0 if there are more than 4,096 commands.
    pub fn to_bytes(&self) -> Result<Vec<u8>, Place> {
        write_sheet(self.policy.byte(), &self.raw_commands())
    }
}
