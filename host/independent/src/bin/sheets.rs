//! sheets: SEED COUNT COMMANDS [damaged]. Prints COUNT sheets generated from SEED, each
//! of at most COMMANDS commands (every second one of exactly so many), one per line: the
//! sheet in hex, a blank, and the reply, which is `12 PLACE` or `0 ` and the report in
//! hex. With `damaged` each sheet is damaged before it is printed and replied to. A sheet
//! cut to nothing leaves a line that begins with the blank.

use independent::damage::damage;
use independent::generate::generate;
use independent::hex::to_hex;
use independent::random::Random;
use independent::report::report_for;
use independent::sheet::MOST_COMMANDS;
use std::io::{self, Write};
use std::process::ExitCode;

struct Wanted {
    seed: u64,
    count: u64,
    commands: usize,
    damaged: bool,
}

fn wanted(arguments: &[String]) -> Option<Wanted> {
    let (numbers, damaged) = match arguments {
        [numbers @ .., last] if last == "damaged" => (numbers, true),
        numbers => (numbers, false),
    };
    let [seed, count, commands] = numbers else {
        return None;
    };
    let commands: usize = commands.parse().ok()?;
    Some(Wanted {
        seed: seed.parse().ok()?,
        count: count.parse().ok()?,
        commands: Some(commands).filter(|&commands| commands <= MOST_COMMANDS)?,
        damaged,
    })
}

fn line(random: &mut Random, wanted: &Wanted) -> Option<String> {
    let mut sheet = generate(random, wanted.commands).to_bytes().ok()?;
    if wanted.damaged {
        sheet = damage(random, &sheet);
    }
    let reply = match report_for(&sheet) {
        Ok(report) => format!("0 {}", to_hex(&report)),
        Err(place) => format!("12 {}", place.0),
    };
    Some(format!("{} {reply}", to_hex(&sheet)))
}

fn main() -> ExitCode {
    let arguments: Vec<String> = std::env::args().skip(1).collect();
    let Some(wanted) = wanted(&arguments) else {
        eprintln!("use: sheets SEED COUNT COMMANDS [damaged], COMMANDS at most {MOST_COMMANDS}");
        return ExitCode::from(2);
    };
    let mut random = Random::new(wanted.seed);
    let mut output = io::BufWriter::new(io::stdout().lock());
    for _ in 0..wanted.count {
        let Some(line) = line(&mut random, &wanted) else {
            eprintln!("a generated sheet could not be written");
            return ExitCode::FAILURE;
        };
        if writeln!(output, "{line}").is_err() {
            return ExitCode::FAILURE;
        }
    }
    match output.flush() {
        Ok(()) => ExitCode::SUCCESS,
        Err(_) => ExitCode::FAILURE,
    }
}
