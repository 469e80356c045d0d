//! The program `rounds` on generated and damaged sheets, on more than it reads, on input that comes in small pieces, on a small
//! stack, and with streams that are closed or fail.

use compare::kinds::{longest, KINDS};
use compare::programs::{by_shell, printed, rounds};
use harness::sheets::{damaged, generated};
use independent::report::rounds_text;
use std::path::PathBuf;
use std::process::{Command, Stdio};

fn program() -> PathBuf {
    rounds().unwrap_or_else(|what| panic!("{what}"))
}

/// The whole text, by the independent engine; said without the text, which can be long.
fn right(program: &mut Command, sheet: &[u8], piece: usize) {
    let text = printed(program, sheet, piece).unwrap_or_else(|what| panic!("{what}"));
    assert!(text == rounds_text(sheet), "differs on {sheet:02x?}");
}

#[test]
fn generated_and_damaged_sheets() {
    let program = program();
    for sheet in (1..=400).flat_map(|seed| [generated(seed), damaged(seed)]) {
        right(&mut Command::new(&program), &sheet, usize::MAX);
    }
}

#[test]
fn the_largest_sheets_on_a_stack_of_1_mb() {
    let program = program();
    let large = KINDS.iter().map(|kind| kind.sheet(4_096));
    for sheet in large.chain([longest()]) {
        let mut limited = by_shell(&program, r#"ulimit -s 1024; exec "$0""#);
        right(&mut limited, &sheet, usize::MAX);
    }
}

#[test]
fn more_than_is_read() {
    let program = program();
    for length in [28_676, 32_767, 32_768, 32_769, 100_000] {
        let mut sheet = longest();
        sheet.resize(length, 0);
        let text = printed(&mut Command::new(&program), &sheet, usize::MAX);
        assert_eq!(text.as_deref(), Ok("refused 12 place 4097\n"));
    }
}

#[test]
fn input_in_small_pieces() {
    let program = program();
    for (seed, piece) in [(1, 1), (2, 2), (3, 3), (100, 7), (400, 1_000)] {
        right(&mut Command::new(&program), &generated(seed), piece);
    }
}

/// An input that can't be read is no sheet, so nothing is printed; an empty one is a sheet of no bytes. The program has to end by
/// itself.
#[test]
fn input_that_is_closed_or_fails() {
    let program = program();
    for line in [r#"exec "$0" <&-"#, r#"exec "$0" </"#] {
        let output = by_shell(&program, line).output().expect("it runs");
        assert!(output.status.code().is_some(), "{:?}", output.status);
        assert_eq!(String::from_utf8_lossy(&output.stdout), "");
    }
    let mut empty = Command::new(&program);
    let output = empty.stdin(Stdio::null()).output().expect("it runs");
    assert_eq!(String::from_utf8_lossy(&output.stdout), "refused 12 place 0\n");
}

#[test]
fn output_that_is_closed_or_full() {
    let program = program();
    for line in [r#"exec "$0" >&-"#, r#"exec "$0" >/dev/full"#] {
        let mut command = by_shell(&program, line);
        let output = command.stdin(Stdio::null()).output().expect("it runs");
        assert!(output.status.code().is_some(), "{:?}", output.status);
        assert!(output.stdout.is_empty());
    }
}
