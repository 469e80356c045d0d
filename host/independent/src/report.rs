//! report.rs: a sheet run to its end, the report's bytes, the text `rounds` prints,
//! and the C call's number with what it does to the buffer.

use crate::command::{Command, KeyNumber};
use crate::engine::{Answer, Token};
use crate::policy::Policy;
use crate::sheet::{read_sheet, Place, Sheet};
use crate::terms::Origin;
use std::fmt::Write;

/// `rounds` reads at most this many bytes.
pub const ROUNDS_READS: usize = 32_768;

/// One command with its answer.
#[derive(Clone, Copy, PartialEq, Eq, Debug)]
pub struct Round {
    pub command: Command,
    pub answer: Answer,
}

/// All that a sheet comes to, with the token it leaves behind.
#[derive(Clone, Debug)]
pub struct Outcome {
    pub policy: Policy,
    pub rounds: Vec<Round>,
    pub known: Vec<(KeyNumber, Origin)>,
    pub token: Token,
}

/// The number and the value that stand for an answer; a refusal has value 0.
pub fn number_and_value(answer: Answer) -> (u8, u16) {
    match answer {
        Ok(value) => (0, value),
        Err(refusal) => (refusal as u8, 0),
    }
}

/// Runs a sheet on a fresh token.
pub fn run(sheet: &Sheet) -> Outcome {
    let mut token = Token::new();
    let step = |command: &Command| Round {
        command: *command,
        answer: token.step(sheet.policy, command),
    };
    let rounds = sheet.commands.iter().map(step).collect();
    Outcome {
        policy: sheet.policy,
        rounds,
        known: token.known_keys(),
        token,
    }
}

pub fn report_bytes(outcome: &Outcome) -> Vec<u8> {
    let mut report = Vec::new();
    report.extend((outcome.rounds.len() as u16).to_be_bytes());
    report.extend((outcome.known.len() as u16).to_be_bytes());
    for round in &outcome.rounds {
        let (number, value) = number_and_value(round.answer);
        report.push(number);
        report.extend(value.to_be_bytes());
    }
    for (key, _) in &outcome.known {
        report.extend(key.0.to_be_bytes());
    }
    report
}

/// The report for a sheet's bytes, or the place of the fault.
pub fn report_for(sheet: &[u8]) -> Result<Vec<u8>, Place> {
    Ok(report_bytes(&run(&read_sheet(sheet)?)))
}

/// What `rounds` prints for the bytes it has read.
pub fn rounds_text(sheet: &[u8]) -> String {
    match read_sheet(sheet) {
        Ok(sheet) => outcome_text(&run(&sheet)),
        Err(place) => format!("refused 12 place {}\n", place.0),
    }
}

fn outcome_text(outcome: &Outcome) -> String {
    let mut text = String::new();
    let count = outcome.rounds.len();
    let done = outcome.rounds.iter().filter(|r| r.answer.is_ok()).count();
    // Writing to a string cannot fail.
    let _ = writeln!(text, "policy {} commands {count}", outcome.policy.name());
    for (index, round) in outcome.rounds.iter().enumerate() {
        let (number, value) = number_and_value(round.answer);
        let name = round.command.name();
        let _ = writeln!(text, "{} {name} {number} {value}", index + 1);
    }
    let _ = writeln!(text, "done {done} refused {}", count - done);
    let _ = writeln!(text, "known {}", outcome.known.len());
    for (key, origin) in &outcome.known {
        let made = match origin {
            Origin::Generated => "generated",
            Origin::Own => "own",
        };
        let _ = writeln!(text, "key {} {made}", key.0);
    }
    text
}

/// The C call: the answer times 65,536, plus the report length for 0, the place
/// for 12, nothing for 13. For 12 and 13 the buffer stays as it is; for 0 the bytes
/// after the report do.
pub fn c_call(sheet: &[u8], buffer: &mut [u8]) -> u32 {
    let report = match report_for(sheet) {
        Ok(report) => report,
        Err(place) => return 12 * 65_536 + u32::from(place.0),
    };
    let Some(part) = buffer.get_mut(..report.len()) else {
        return 13 * 65_536;
    };
    part.copy_from_slice(&report);
    report.len() as u32
}
