//! programs.rs: the program `rounds` found and run.

use std::env;
use std::io::Write;
use std::path::{Path, PathBuf};
use std::process::{Command, Stdio};

/// The program that VACHODIEN_ROUNDS names, else the one that `./build` makes.
pub fn rounds() -> Result<PathBuf, String> {
    let path = match env::var_os("VACHODIEN_ROUNDS") {
        Some(path) => PathBuf::from(path),
        None => Path::new(env!("CARGO_MANIFEST_DIR")).join("../../target/bin/rounds"),
    };
    if path.is_file() {
        Ok(path)
    } else {
        Err(format!(
            "there is no program rounds at {}: run `./build rounds` in the repository's root, or let VACHODIEN_ROUNDS name it",
            path.display()
        ))
    }
}

/// The program as a shell line has it, where `"$0"` is the program: for limits and for other streams.
pub fn by_shell(program: &Path, line: &str) -> Command {
    let mut command = Command::new("sh");
    command.arg("-c").arg(line).arg(program);
    command
}

/// What a program prints for this input, handed over in pieces of so many bytes.
pub fn printed(program: &mut Command, input: &[u8], piece: usize) -> Result<String, String> {
    let mut child = program
        .stdin(Stdio::piped())
        .stdout(Stdio::piped())
        .spawn()
        .map_err(|e| format!("{program:?}: {e}"))?;
    let mut pipe = child.stdin.take().ok_or("no pipe")?;
    for part in input.chunks(piece.max(1)) {
        // It may stop reading before the end: that is no fault.
        if pipe.write_all(part).is_err() {
            break;
        }
    }
    drop(pipe);
    let output = child.wait_with_output().map_err(|e| e.to_string())?;
    if !output.status.success() {
        return Err(format!("{program:?}: {}", output.status));
    }
    String::from_utf8(output.stdout).map_err(|e| e.to_string())
}
