//! soak: SECONDS [SEED]. Both engines on the sheets and calls of one seed after another, from SEED on (without one, from the
//! clock), for so many seconds. Prints where it is every ten seconds; a difference ends it, with the seed to see it again.

use compare::seeds;
use std::process::ExitCode;
use std::time::{Duration, Instant, SystemTime, UNIX_EPOCH};

/// The direct calls of so many seeds go through one process, or a few.
const TOGETHER: u64 = 256;

/// All but the direct calls.
fn everything(seed: u64) -> Result<(), String> {
    seeds::generated(seed)?;
    seeds::damaged(seed)?;
    seeds::reader(seed)?;
    seeds::writer(seed)?;
    // Short sheets only: the work grows with the square of the length.
    if seed % 16 == 1 {
        seeds::all_lengths(seed)?;
        seeds::all_cuts(seed)?;
    }
    Ok(())
}

fn clock() -> u64 {
    let now = SystemTime::now().duration_since(UNIX_EPOCH);
    now.map_or(0, |time| time.as_secs() * 1_000_000)
}

fn main() -> ExitCode {
    let arguments: Vec<String> = std::env::args().skip(1).collect();
    let number = |at: usize| arguments.get(at).map(|word| word.parse::<u64>());
    let (seconds, first) = match (number(0), number(1), arguments.len()) {
        (Some(Ok(seconds)), None, 1) => (seconds, clock()),
        (Some(Ok(seconds)), Some(Ok(seed)), 2) => (seconds, seed),
        _ => {
            eprintln!("use: soak SECONDS [SEED]");
            return ExitCode::from(2);
        }
    };
    println!("from seed {first} on, for {seconds} s");
    let (start, end) = (Instant::now(), Duration::from_secs(seconds));
    let (mut seed, mut said, mut called) = (first, 0, first);
    // One seed at least, so that `soak 0 SEED` shows one.
    loop {
        let mut told = everything(seed);
        seed += 1;
        let passed = start.elapsed();
        if seed - called == TOGETHER || passed >= end {
            told = told.and(seeds::direct(called..seed).map(drop));
            called = seed;
        }
        if let Err(what) = told {
            println!("DIFFERENCE: {what}\n  again: soak 0 with that seed");
            return ExitCode::FAILURE;
        }
        if passed.as_secs() / 10 > said {
            said = passed.as_secs() / 10;
            println!("{} s, {} seeds, at {seed}", passed.as_secs(), seed - first);
        }
        if passed >= end {
            break;
        }
    }
    println!("no difference on {} seeds", seed - first);
    ExitCode::SUCCESS
}
