//! The documents, held against what they name: every path leads somewhere, every name of docs/PROMISES.md stands in a file of its
//! row, every public function has its statement and a row with two wrong versions, and every wrong version has a row.

use std::collections::BTreeSet;
use std::fs;
use std::path::{Path, PathBuf};

fn root() -> PathBuf {
    Path::new(env!("CARGO_MANIFEST_DIR")).join("../..")
}

fn read(path: &Path) -> String {
    fs::read_to_string(path).unwrap_or_else(|what| panic!("{}: {what}", path.display()))
}

fn promises() -> String {
    read(&root().join("docs/PROMISES.md"))
}

/// What stands in a folder, in order; nothing where there is no such folder.
fn inside(folder: &Path) -> Vec<PathBuf> {
    let entries = fs::read_dir(folder).into_iter().flatten().flatten();
    let mut all: Vec<PathBuf> = entries.map(|entry| entry.path()).collect();
    all.sort();
    all
}

/// A file's name without its ending.
fn stem(path: &Path) -> &str {
    let stem = path.file_stem().expect("a name");
    stem.to_str().expect("a name in letters")
}

/// What stands in backticks.
fn quoted(text: &str) -> Vec<&str> {
    text.split('`').skip(1).step_by(2).collect()
}

fn is_path(word: &str) -> bool {
    let folders = ["crates/", "docs/", "host/"];
    folders.iter().any(|folder| word.starts_with(folder))
}

/// The paths of a text that lead nowhere.
fn lost(text: &str, root: &Path) -> Vec<String> {
    let paths = quoted(text).into_iter().filter(|word| is_path(word));
    let lost = paths.filter(|path| !root.join(path).exists());
    lost.map(|path| format!("there is no {path}")).collect()
}

/// A row of a table: the sentence, the names that settle it, and the files that have them.
struct Row<'a> {
    said: &'a str,
    names: Vec<&'a str>,
    paths: Vec<&'a str>,
}

/// A line of three columns, of which the last has a path.
fn row(line: &str) -> Option<Row<'_>> {
    let line = line.strip_prefix('|')?.strip_suffix('|')?;
    let columns: Vec<&str> = line.split('|').map(str::trim).collect();
    let [said, names, paths] = columns[..] else {
        return None;
    };
    let (names, mut paths) = (quoted(names), quoted(paths));
    paths.retain(|word| is_path(word));
    (!paths.is_empty()).then_some(Row { said, names, paths })
}

fn rows(text: &str) -> Vec<Row<'_>> {
    text.lines().filter_map(row).collect()
}

/// The name that a line of antt defines, as `pub name : ..`, `abbrev pub name : ..`, `pub record Name ..` or `data Name ..`.
fn stated(line: &str) -> Option<&str> {
    let mut words = line.split_whitespace();
    let first = words.find(|word| !["pub", "abbrev", "unfoldable"].contains(word))?;
    let second = words.next()?;
    match first {
        "record" | "data" => Some(second),
        _ => (second == ":").then_some(first),
    }
}

/// The name that a line of Rattle or Rust declares.
fn declared(line: &str) -> Option<&str> {
    if line.trim_start().starts_with("//") {
        return None;
    }
    let mut words = line.split_whitespace();
    words.find(|word| ["fn", "struct", "enum", "const"].contains(word))?;
    let ends = |letter: char| !letter.is_alphanumeric() && letter != '_';
    words.next()?.split(ends).next()
}

/// Is the name defined there? A wrong version is a file, and its name that of the file, in the folder that is given.
fn defines(path: &Path, name: &str) -> bool {
    let ending = path.extension().and_then(|ending| ending.to_str());
    let of_line = match ending {
        None => return path.join(name).with_extension("edit").is_file(),
        Some("edit") => return stem(path) == name,
        Some("antt") => stated,
        _ => declared,
    };
    let text = fs::read_to_string(path).unwrap_or_default();
    text.lines().any(|line| of_line(line) == Some(name))
}

/// The names of a text's rows that no file of their row defines.
fn unsettled(text: &str, root: &Path) -> Vec<String> {
    let mut faults = Vec::new();
    for Row { said, names, paths } in rows(text) {
        let found = |name| paths.iter().any(|path| defines(&root.join(path), name));
        let files = paths.join(", ");
        for name in names.into_iter().filter(|name| !found(name)) {
            faults.push(format!("{name} is not in {files}, in the row: {said}"));
        }
    }
    faults
}

/// How many wrong versions a row names.
fn wrong_versions(row: &Row, root: &Path) -> usize {
    let mut folders = row.paths.clone();
    folders.retain(|path| path.contains("/must-fail"));
    let found = |name| folders.iter().any(|path| defines(&root.join(path), name));
    let names: BTreeSet<&str> = row.names.iter().copied().collect();
    names.into_iter().filter(|name| found(name)).count()
}

/// A function that other crates can call: its path, and what stands before its body.
struct Public {
    path: String,
    head: String,
}

/// The public functions of a file.
fn public_in(module: &str, code: &str) -> Vec<Public> {
    let lines: Vec<&str> = code.lines().collect();
    let mut all = Vec::new();
    for (at, line) in lines.iter().enumerate() {
        let start = line.trim_start();
        if start.starts_with("pub fn ") || start.starts_with("pub extern \"C\" fn ") {
            let path = format!("{module}::{}", declared(line).expect("a name"));
            let head = lines[at..].iter().take_while(|line| !line.ends_with('{'));
            let head = head.copied().collect();
            all.push(Public { path, head });
        }
    }
    all
}

/// The public functions of every library: those of its lib.rt, and of the modules that it opens.
fn public() -> Vec<Public> {
    let mut all = Vec::new();
    for library in inside(&root().join("crates")) {
        let Ok(code) = fs::read_to_string(library.join("src/lib.rt")) else {
            continue;
        };
        all.extend(public_in(stem(&library), &code));
        let opened = code
            .lines()
            .filter_map(|line| line.strip_prefix("pub mod "));
        for module in opened.map(|rest| rest.trim_end_matches(';')) {
            let code = read(&library.join("src").join(module).with_extension("rt"));
            all.extend(public_in(&format!("{}::{module}", stem(&library)), &code));
        }
    }
    all
}

/// What the row of a public function lacks: itself, the name of what the contract cites, or two wrong versions.
fn lacks(function: &Public, rows: &[Row], root: &Path) -> Option<String> {
    let path = &function.path;
    let said = format!("`{path}`");
    let Some(row) = rows.iter().find(|row| row.said == said) else {
        return Some(format!("{path} has no row"));
    };
    if !row.names.iter().any(|name| function.head.contains(name)) {
        return Some(format!("the row of {path} names nothing of its contract"));
    }
    let found = wrong_versions(row, root);
    (found < 2).then(|| format!("the row of {path} has {found} wrong versions"))
}

fn none(faults: Vec<String>) {
    assert!(faults.is_empty(), "{}", faults.join("\n"));
}

#[test]
fn every_path_leads_somewhere() {
    let mut documents = inside(&root().join("docs"));
    documents.extend(inside(&root().join("docs/changes")));
    documents.extend(["README.md", "host/README.md"].map(|name| root().join(name)));
    documents.retain(|path| path.is_file());
    for document in documents {
        println!("{}", document.display());
        let text = read(&document);
        assert_eq!(text.matches('`').count() % 2, 0, "a backtick stands alone");
        none(lost(&text, &root()));
    }
}

#[test]
fn every_name_stands_in_a_file_of_its_row() {
    none(unsettled(&promises(), &root()));
}

/// A row with another number of columns, or with no path, would not be looked at.
#[test]
fn every_row_is_looked_at() {
    let text = promises();
    let lines = text.lines().filter(|line| line.starts_with('|'));
    let others: Vec<&str> = lines.filter(|line| row(line).is_none()).collect();
    for pair in others.chunks(2) {
        let is_head = pair.len() == 2 && pair[1].starts_with("|---");
        assert!(is_head, "no row of three columns with a path: {}", pair[0]);
    }
}

/// "No public function is without such a statement." The direct call alone asks for something: by value, and on a token that is lent.
#[test]
fn every_public_function_states_its_result() {
    let all = public();
    assert!(!all.is_empty());
    for function in all {
        assert!(function.head.contains("ensures {"), "{}", function.path);
        let asks = function.head.contains("requires {");
        let is_direct_call = ["running::call", "running::call_on"].contains(&function.path.as_str());
        assert_eq!(asks, is_direct_call, "{}", function.path);
    }
}

#[test]
fn every_public_function_has_a_row_with_two_wrong_versions() {
    let text = promises();
    let rows = rows(&text);
    let all = public();
    let told = all.iter().map(|function| lacks(function, &rows, &root()));
    none(told.flatten().collect());
}

#[test]
fn no_row_is_of_a_function_that_is_gone() {
    let text = promises();
    let public: BTreeSet<String> = public().into_iter().map(|one| one.path).collect();
    for Row { said, .. } in rows(&text) {
        let path = said.trim_matches('`');
        let is_function = path.contains("::") && !path.contains(' ');
        assert!(!is_function || public.contains(path), "{path}");
    }
}

#[test]
fn every_wrong_version_has_a_row() {
    let text = promises();
    let rows = rows(&text);
    let mut faults = Vec::new();
    for library in inside(&root().join("crates")) {
        let folder = format!("crates/{}/must-fail", stem(&library));
        for edit in inside(&root().join(&folder)) {
            let is_named = |row: &Row| {
                let here = row.paths.iter().any(|path| path.starts_with(&folder));
                here && row.names.contains(&stem(&edit))
            };
            if !rows.iter().any(is_named) {
                faults.push(format!("{folder}/{} has no row", stem(&edit)));
            }
        }
    }
    none(faults);
}

#[test]
fn a_wrong_link_is_seen() {
    let right = "| said | `Held`, `one_pass` | `crates/terms/specs/WorkingOut.antt`, `crates/terms/must-fail` |\n";
    assert_eq!(unsettled(right, &root()), [""; 0]);
    assert_eq!(lost(right, &root()), [""; 0]);
    let wrong = "| said | `Held`, `Holds`, `two_pass` | `crates/terms/specs/WorkingOut.antt`, `crates/terms/mustfail` |\n";
    let faults = unsettled(wrong, &root());
    assert_eq!(faults.len(), 2, "{faults:?}");
    assert!(faults[0].starts_with("Holds is not in crates/terms/specs/WorkingOut.antt"));
    assert!(faults[1].starts_with("two_pass is not in") && faults[1].ends_with("in the row: said"));
    assert_eq!(lost(wrong, &root()), ["there is no crates/terms/mustfail"]);
}

#[test]
fn a_function_without_a_statement_is_seen() {
    let code = "pub fn a(x: u8) -> u8\n    ensures { x }\n{\n    x\n}\n\npub fn b(x: u8) -> u8 {\n    x\n}\n\nfn c() {}\n";
    let all = public_in("m", code);
    let paths: Vec<&str> = all.iter().map(|function| function.path.as_str()).collect();
    assert_eq!(paths, ["m::a", "m::b"]);
    assert!(all[0].head.contains("ensures {") && !all[1].head.contains("ensures {"));
}

#[test]
fn a_wrong_row_of_a_function_is_seen() {
    let path = "terms::a".to_owned();
    let head = "ensures { Held }".to_owned();
    let function = Public { path, head };
    let told = |names: &str| {
        let text = format!("| `terms::a` | {names} | `crates/terms/must-fail` |");
        lacks(&function, &rows(&text), &root()).unwrap_or_default()
    };
    assert_eq!(told("`Held`; `one_pass`, `entered_twice`"), "");
    assert!(told("`Held`; `one_pass`, `one_pass`").ends_with("has 1 wrong versions"));
    assert!(told("`one_pass`, `entered_twice`").ends_with("nothing of its contract"));
    assert_eq!(
        lacks(&function, &[], &root()).as_deref(),
        Some("terms::a has no row")
    );
}
