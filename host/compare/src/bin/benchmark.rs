//! benchmark: both engines on the same sheets in one process: microseconds a sheet, the least of many runs, and the ratio.
//! benchmark once KIND COMMANDS ENGINE runs one sheet once through one engine, for callgrind (see ../callgrind).

use compare::kinds::{longest, Kind, KINDS};
use harness::difference::LONGEST_REPORT;
use harness::plain;
use independent::report::c_call;
use std::hint::black_box;
use std::process::ExitCode;
use std::time::{Duration, Instant};

/// How long each sheet is run through the two engines.
const TIME: Duration = Duration::from_millis(400);

/// The independent engine under a name that callgrind can be told.
#[no_mangle]
#[inline(never)]
fn benchmark_independent(sheet: &[u8], report: &mut [u8]) -> u32 {
    c_call(sheet, report)
}

/// Microseconds of each, the runs in turn: the least of all in the time, since other load only adds.
fn microseconds(mut one: impl FnMut() -> u32, mut two: impl FnMut() -> u32) -> (f64, f64) {
    let timed = |run: &mut dyn FnMut() -> u32| {
        let before = Instant::now();
        black_box(run());
        before.elapsed().as_secs_f64() * 1e6
    };
    let (start, mut least) = (Instant::now(), (f64::MAX, f64::MAX));
    while start.elapsed() < TIME {
        least.0 = least.0.min(timed(&mut one));
        least.1 = least.1.min(timed(&mut two));
    }
    least
}

fn line(kind: &str, commands: usize, proved: f64, other: f64) {
    let ratio = proved / other;
    println!("{kind:<16} {commands:>8} {proved:>12.1} {other:>14.1} {ratio:>8.2}");
}

fn table() {
    println!(
        "{:<16} {:>8} {:>12} {:>14} {:>8}",
        "kind", "commands", "proved us", "independent us", "ratio"
    );
    let (mut one, mut two) = (vec![0; LONGEST_REPORT], vec![0; LONGEST_REPORT]);
    for kind in &KINDS {
        for commands in [512, 1_024, 2_048, 4_096] {
            let sheet = kind.sheet(commands);
            let (proved, other) = microseconds(
                || proved::report(black_box(&sheet), &mut one),
                || benchmark_independent(black_box(&sheet), &mut two),
            );
            line(kind.name, commands, proved, other);
        }
    }
    println!("\nreading alone, beside a few lines of plain Rust");
    let sheet = longest();
    let (proved, other) = microseconds(
        || proved::check(black_box(&sheet)),
        || plain::check(black_box(&sheet)),
    );
    line("28,675 bytes", 4_096, proved, other);
}

fn once(kind: &str, commands: &str, engine: &str) -> Option<u32> {
    let commands = commands.parse().ok().filter(|n| (16..=4_096).contains(n))?;
    let sheet = Kind::named(kind)?.sheet(commands);
    let mut report = vec![0; LONGEST_REPORT];
    match engine {
        "proved" => Some(proved::report(&sheet, &mut report)),
        "independent" => Some(benchmark_independent(&sheet, &mut report)),
        _ => None,
    }
}

fn main() -> ExitCode {
    let arguments: Vec<String> = std::env::args().skip(1).collect();
    let words: Vec<&str> = arguments.iter().map(String::as_str).collect();
    let number = match words[..] {
        [] => {
            table();
            return ExitCode::SUCCESS;
        }
        ["once", kind, commands, engine] => once(kind, commands, engine),
        _ => None,
    };
    match number {
        Some(number) => {
            println!("{number}");
            ExitCode::SUCCESS
        }
        None => {
            let kinds = KINDS.map(|kind| kind.name).join(", ");
            eprintln!("use: benchmark [once KIND COMMANDS proved|independent]\nkinds: {kinds}");
            ExitCode::from(2)
        }
    }
}
