//! exercise: [NAME [PART] [sheet]]. Without a name prints the names; with a name the note and the output of that exercise;
//! with `sheet` the bytes of its sheet, to be piped to `rounds`.

use exercises::Exercise;
use std::io::{self, Write};
use std::process::ExitCode;

/// What is to be printed for these words.
fn wanted(all: &[Exercise], words: &[&str]) -> Result<Vec<u8>, String> {
    let (name, part, sheet) = match *words {
        [] => {
            let names = all.iter().map(|e| format!("{} {}\n", e.name, e.part));
            return Ok(names.collect::<String>().into_bytes());
        }
        [name] => (name, "1", false),
        [name, "sheet"] => (name, "1", true),
        [name, part] => (name, part, false),
        [name, part, "sheet"] => (name, part, true),
        _ => return Err("use: exercise [NAME [PART] [sheet]]".to_string()),
    };
    let is_it = |e: &&Exercise| e.name == name && e.part.to_string() == part;
    let found = all.iter().find(is_it);
    let exercise = found.ok_or(format!("no exercise {name}, part {part}"))?;
    Ok(match sheet {
        true => exercise.sheet.clone(),
        false => format!("{}\n\n{}", exercise.note, exercise.output).into_bytes(),
    })
}

fn main() -> ExitCode {
    let arguments: Vec<String> = std::env::args().skip(1).collect();
    let words: Vec<&str> = arguments.iter().map(String::as_str).collect();
    match exercises::all().and_then(|all| wanted(&all, &words)) {
        Ok(bytes) if io::stdout().write_all(&bytes).is_ok() => ExitCode::SUCCESS,
        Ok(_) => ExitCode::FAILURE,
        Err(what) => {
            eprintln!("{what}");
            ExitCode::FAILURE
        }
    }
}
