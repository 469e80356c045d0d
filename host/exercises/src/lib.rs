//! The exercises of `data/`: notes, sheets and outputs, read from their files. README.md says
//! how a file is written.

mod brackets;
mod reply;

pub use reply::Reply;

use brackets::{spread, Ends};
use std::fs;
use std::path::{Path, PathBuf};

/// One sheet with the output that `rounds` has to print for it.
#[derive(Clone, PartialEq, Eq, Debug)]
pub struct Exercise {
    /// The file's name, and which sheet of the file it is, from 1.
    pub name: String,
    pub part: usize,
    pub note: String,
    pub sheet: Vec<u8>,
    pub output: String,
}

impl Exercise {
    /// An exercise of which the note alone was read yet.
    fn begun(name: &str, part: usize, note: &str) -> Exercise {
        Exercise {
            name: name.to_string(),
            part,
            note: note.trim().to_string(),
            sheet: Vec::new(),
            output: String::new(),
        }
    }

    /// What the C call has to give back, by the output.
    pub fn reply(&self) -> Result<Reply, String> {
        let place = |what| format!("{}, part {}: {what}", self.name, self.part);
        Reply::from_output(&self.output).map_err(place)
    }
}

/// Where the files are.
pub fn folder() -> PathBuf {
    Path::new(env!("CARGO_MANIFEST_DIR")).join("data")
}

/// Every exercise, by the names of the files; none at all is an error, so that no test goes through nothing.
pub fn all() -> Result<Vec<Exercise>, String> {
    let mut paths = Vec::new();
    for entry in fs::read_dir(folder()).map_err(|e| e.to_string())? {
        paths.push(entry.map_err(|e| e.to_string())?.path());
    }
    paths.sort();
    let mut exercises = Vec::new();
    for path in paths {
        let text = fs::read_to_string(&path).map_err(|e| format!("{}: {e}", path.display()))?;
        let name = path.file_stem().unwrap_or_default().to_string_lossy();
        exercises.extend(read(&name, &text)?);
    }
    match exercises.is_empty() {
        true => Err(format!("no exercise in {}", folder().display())),
        false => Ok(exercises),
    }
}

/// In which part of an exercise a line stands.
enum Part {
    Note,
    Sheet,
    Output,
}

/// The exercises of one file.
pub fn read(name: &str, text: &str) -> Result<Vec<Exercise>, String> {
    let mut found: Vec<Exercise> = Vec::new();
    let (mut part, mut note) = (Part::Note, String::new());
    for (index, line) in text.lines().enumerate() {
        let fault = |what: String| format!("{name}, line {}: {what}", index + 1);
        match (&part, line) {
            (Part::Note, "sheet") => {
                found.push(Exercise::begun(name, found.len() + 1, &note));
                (part, note) = (Part::Sheet, String::new());
            }
            (Part::Note, _) => note += &format!("{line}\n"),
            (Part::Sheet, "output") => part = Part::Output,
            (Part::Output, "") => part = Part::Note,
            (Part::Sheet, _) => {
                let hex = line.split('#').next().unwrap_or_default();
                let last = found.last_mut().ok_or_else(|| fault("no sheet".into()))?;
                for line in spread(hex, Ends::Hexadecimal).map_err(fault)? {
                    last.sheet.extend(bytes(&line).map_err(fault)?);
                }
            }
            (Part::Output, _) => {
                let last = found.last_mut().ok_or_else(|| fault("no sheet".into()))?;
                for line in spread(line, Ends::Decimal).map_err(fault)? {
                    last.output += &format!("{line}\n");
                }
            }
        }
    }
    match part {
        Part::Sheet => Err(format!("{name}: a sheet without an output")),
        _ if !note.trim().is_empty() => Err(format!("{name}: a note without a sheet")),
        _ if found.is_empty() => Err(format!("{name}: no exercise")),
        _ => Ok(found),
    }
}

/// The bytes of a line of hexadecimal digits, blanks aside.
fn bytes(line: &str) -> Result<Vec<u8>, String> {
    let digits: Vec<char> = line.chars().filter(|c| !c.is_whitespace()).collect();
    if !digits.len().is_multiple_of(2) {
        return Err(format!("'{line}' is not whole bytes"));
    }
    let byte = |pair: &[char]| {
        let text: String = pair.iter().collect();
        u8::from_str_radix(&text, 16).map_err(|_| format!("'{text}' is no byte"))
    };
    digits.chunks(2).map(byte).collect()
}
