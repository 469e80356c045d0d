//! calls.rs: direct calls, through the program `direct`: the library has no function for them that C can call, since a call wants
//! a token that comes from earlier ones.

use std::env;
use std::io::Write;
use std::path::{Path, PathBuf};
use std::process::{Command, Stdio};
use std::thread;

/// So many bytes does the program read at most.
pub const LONGEST_CALLS: usize = 65_536;

/// The program that VACHODIEN_DIRECT names, else the one that `./build` makes.
fn direct() -> Result<PathBuf, String> {
    let path = match env::var_os("VACHODIEN_DIRECT") {
        Some(path) => PathBuf::from(path),
        None => Path::new(env!("CARGO_MANIFEST_DIR")).join("../../target/bin/direct"),
    };
    if path.is_file() {
        Ok(path)
    } else {
        Err(format!(
            "there is no program direct at {}: run `./build direct` in the repository's root, or let VACHODIEN_DIRECT name it",
            path.display()
        ))
    }
}

/// What the direct calls of a row of sequences answer, in one process. A sequence: policy, two bytes that say how many calls, and so
/// many calls to a fresh token, each a number, a body length and a body. Three bytes a call are answered: the answer and a value
/// of two bytes. Where the row is cut off, or longer than is read, the calls that are wholly there are answered.
pub fn calls(row: &[u8]) -> Result<Vec<u8>, String> {
    let program = direct()?;
    let mut child = Command::new(&program)
        .stdin(Stdio::piped())
        .stdout(Stdio::piped())
        .spawn()
        .map_err(|e| format!("{}: {e}", program.display()))?;
    let mut pipe = child.stdin.take().ok_or("no pipe")?;
    let output = thread::scope(|scope| {
        // It may stop reading before the end: that is no fault.
        scope.spawn(move || pipe.write_all(row).unwrap_or(()));
        child.wait_with_output()
    });
    let output = output.map_err(|e| e.to_string())?;
    if !output.status.success() {
        return Err(format!("{}: {}", program.display(), output.status));
    }
    Ok(output.stdout)
}
