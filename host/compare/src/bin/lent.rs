//! lent: SEEDS input|output. What c/lend reads for so many seeds, or what it has to write.

use compare::lent::{input, lent, output};
use std::io::{self, Write};
use std::process::ExitCode;

fn main() -> ExitCode {
    let arguments: Vec<String> = std::env::args().skip(1).collect();
    let bytes = match &arguments[..] {
        [seeds, way] => match (seeds.parse(), way.as_str()) {
            (Ok(seeds), "input") => Some(input(&lent(seeds))),
            (Ok(seeds), "output") => Some(output(&lent(seeds))),
            _ => None,
        },
        _ => None,
    };
    let Some(bytes) = bytes else {
        eprintln!("use: lent SEEDS input|output");
        return ExitCode::from(2);
    };
    match io::stdout().write_all(&bytes) {
        Ok(()) => ExitCode::SUCCESS,
        Err(_) => ExitCode::FAILURE,
    }
}
