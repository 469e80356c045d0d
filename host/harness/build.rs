//! Makes the broken copies of the independent engine that tests/broken.rs tries the comparison on: its source files as they
//! are, with one edit of `broken/` applied to each copy. An edit of another file, or whose old text does not stand in its file
//! exactly once, stops the build, so that no copy is right by accident.

use std::path::{Path, PathBuf};
use std::{env, fs};

/// The files that a report needs; the generator is not among them.
const FILES: [&str; 7] = [
    "policy", "command", "terms", "caller", "engine", "sheet", "report",
];

struct Change {
    file: String,
    old: String,
    new: String,
}

/// An edit: words, and then for each change `--- FILE`, the old text, `--- to`, the new text.
fn changes(text: &str) -> Vec<Change> {
    let mut changes: Vec<Change> = Vec::new();
    let mut new = false;
    for line in text.lines() {
        match (line.strip_prefix("--- "), changes.last_mut()) {
            (Some("to"), _) => new = true,
            (Some(file), _) => {
                new = false;
                changes.push(Change {
                    file: file.to_string(),
                    old: String::new(),
                    new: String::new(),
                });
            }
            (None, Some(change)) if new => change.new += &format!("{line}\n"),
            (None, Some(change)) => change.old += &format!("{line}\n"),
            (None, None) => {}
        }
    }
    changes
}

/// The engine's files as modules of one file, with the edit applied.
fn copy(source: &Path, edit: &str, changes: &[Change]) -> String {
    for Change { file, .. } in changes {
        let is_copied = FILES.iter().any(|name| format!("{name}.rs") == *file);
        assert!(is_copied, "{edit}: {file} is none of the engine's files");
    }
    let mut whole = String::new();
    for file in FILES {
        let path = source.join(format!("{file}.rs"));
        println!("cargo::rerun-if-changed={}", path.display());
        let mut text = fs::read_to_string(&path).expect("a file of the engine");
        for change in changes.iter().filter(|c| c.file == format!("{file}.rs")) {
            let times = text.matches(&change.old).count();
            assert!(
                times == 1,
                "{edit}: {file}.rs has the old text {times} times"
            );
            text = text.replace(&change.old, &change.new);
        }
        // The copy is a module beside others and no crate.
        let text = text.replace("crate::", "super::");
        whole += &format!("pub mod {file} {{\n{text}\n}}\n");
    }
    whole
}

fn main() {
    let here = PathBuf::from(env::var_os("CARGO_MANIFEST_DIR").expect("cargo says it"));
    let out = PathBuf::from(env::var_os("OUT_DIR").expect("cargo says it"));
    let edits = here.join("broken");
    println!("cargo::rerun-if-changed={}", edits.display());
    for entry in fs::read_dir(&edits).expect("the edits") {
        let path = entry.expect("an edit").path();
        println!("cargo::rerun-if-changed={}", path.display());
        let text = fs::read_to_string(&path).expect("an edit");
        let name = path.file_stem().expect("a name").to_string_lossy();
        let whole = copy(&here.join("../independent/src"), &name, &changes(&text));
        fs::write(out.join(format!("{name}.rs")), whole).expect("room for a copy");
    }
}
