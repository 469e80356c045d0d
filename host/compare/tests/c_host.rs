//! The proved library from C: the header, the example, buffers at the edges of mapped pages, a stack of 160 KB, and valgrind
//! where it is. The programs are those of host/c.

use compare::lent::{input, lent, output};
use std::fs::{self, File};
use std::path::{Path, PathBuf};
use std::process::{Command, Output};
use std::sync::OnceLock;

fn c() -> PathBuf {
    Path::new(env!("CARGO_MANIFEST_DIR")).join("../c")
}

/// The folder with the C programs, compiled once.
fn built() -> &'static Path {
    static FOLDER: OnceLock<PathBuf> = OnceLock::new();
    FOLDER.get_or_init(|| {
        let folder = Path::new(env!("CARGO_TARGET_TMPDIR")).join("c");
        fs::create_dir_all(&folder).expect("a folder");
        let archive = Path::new(proved::ARCHIVE).parent().expect("a folder");
        let mut build = Command::new(c().join("build"));
        good(build.arg(&folder).env("VACHODIEN_ARCHIVE", archive));
        folder
    })
}

/// Runs a command that has to end well; standard output may be bytes and is not shown.
fn good(command: &mut Command) -> Output {
    let output = command.output().expect("the program starts");
    let said = String::from_utf8_lossy(&output.stderr);
    assert!(output.status.success(), "{}: {said}", output.status);
    output
}

/// The program `lend` in a way, on the sheets of so many seeds: what it wrote has to be what the independent engine says.
fn lend(words: &[&str], seeds: u64) -> String {
    let all = lent(seeds);
    let file = built().join(format!("{}.in", words[0]));
    fs::write(&file, input(&all)).expect("room for the sheets");
    let mut command = Command::new(built().join("lend"));
    let run = good(
        command
            .args(words)
            .stdin(File::open(&file).expect("a file")),
    );
    assert!(run.stdout == output(&all), "lend {words:?} differs");
    String::from_utf8_lossy(&run.stderr).into_owned()
}

#[test]
fn the_example() {
    let run = good(&mut Command::new(built().join("example")));
    let wanted = fs::read(c().join("example.out")).expect("a file");
    assert_eq!(
        String::from_utf8_lossy(&run.stdout),
        String::from_utf8_lossy(&wanted)
    );
}

#[test]
fn buffers_of_their_own_blocks() {
    lend(&["heap"], 300);
}

#[test]
fn buffers_at_the_edges_of_mapped_pages() {
    lend(&["edge"], 300);
}

/// The numbers of the header: VACHODIEN_STACK for the thread, and what a call touches of it.
#[test]
fn a_stack_of_160_kb() {
    let header = fs::read_to_string(c().join("vachodien.h")).expect("a file");
    assert!(header.contains("#define VACHODIEN_STACK 163840u"));
    let said = lend(&["stack", "163840"], 100);
    print!("{said}");
    let words = said.split_whitespace().map(str::parse::<usize>);
    let numbers: Vec<usize> = words.filter_map(Result::ok).collect();
    let [touched, whole, idle] = numbers[..] else {
        panic!("three numbers expected: {said}");
    };
    assert_eq!(whole, 163_840);
    assert!(touched - idle < 72 * 1_024, "{said}");
}

#[test]
fn under_valgrind_where_it_is() {
    let found = Command::new("valgrind").arg("--version").output();
    if !found.is_ok_and(|output| output.status.success()) {
        println!("valgrind is not here: not run");
        return;
    }
    let all = lent(3);
    let file = built().join("valgrind.in");
    fs::write(&file, input(&all)).expect("room for the sheets");
    let mut command = Command::new("valgrind");
    command
        .args(["--quiet", "--error-exitcode=9"])
        .arg(built().join("lend"))
        .arg("heap");
    let run = good(command.stdin(File::open(&file).expect("a file")));
    assert!(run.stdout == output(&all), "under valgrind it differs");
}
