//! The two programs, run as programs.

use independent::hex::{from_hex, to_hex};
use independent::report::report_for;
use std::io::Write;
use std::process::{Command, Output, Stdio};

fn rounds(input: &[u8]) -> String {
    let mut child = Command::new(env!("CARGO_BIN_EXE_rounds_independent"))
        .stdin(Stdio::piped())
        .stdout(Stdio::piped())
        .spawn()
        .expect("the program starts");
    let mut pipe = child.stdin.take().expect("a pipe");
    // It may stop reading before the end: that is no fault of the test's.
    let _ = pipe.write_all(input);
    drop(pipe);
    let output = child.wait_with_output().expect("the program ends");
    assert!(output.status.success());
    String::from_utf8(output.stdout).expect("text")
}

fn sheets(arguments: &[&str]) -> Output {
    Command::new(env!("CARGO_BIN_EXE_sheets"))
        .args(arguments)
        .output()
        .expect("the program runs")
}

#[test]
fn exercise_a_printed() {
    let sheet = from_hex("00 0004 01000F 010010 020011 050013 19 10 0001 000002");
    let wanted = "policy plain commands 4\n1 GENERATE 0 0\n2 GENERATE 0 1\n3 WRAP 0 2\n\
        4 DECRYPT 0 1\ndone 4 refused 0\nknown 1\nkey 1 generated\n";
    assert_eq!(rounds(&sheet.expect("hex")), wanted);
}

#[test]
fn malformed_sheets_printed() {
    assert_eq!(rounds(&[]), "refused 12 place 0\n");
    // Longer than what is read: bytes follow the empty sheet's header all the same.
    let mut long = vec![2, 0, 0];
    long.resize(70_000, 0);
    assert_eq!(rounds(&long), "refused 12 place 1\n");
}

#[test]
fn sheets_prints_sheets_with_their_replies() {
    for arguments in [&["5", "40", "30"][..], &["5", "40", "30", "damaged"]] {
        let output = sheets(arguments);
        assert!(output.status.success());
        let text = String::from_utf8(output.stdout.clone()).expect("text");
        assert_eq!(text.lines().count(), 40);
        for line in text.lines() {
            let (sheet, reply) = line.split_once(' ').expect("a blank");
            let wanted = match report_for(&from_hex(sheet).expect("hex")) {
                Ok(report) => format!("0 {}", to_hex(&report)),
                Err(place) => format!("12 {}", place.0),
            };
            assert_eq!(reply, wanted);
        }
        assert_eq!(sheets(arguments).stdout, output.stdout);
    }
}

#[test]
fn sheets_refuses_other_arguments() {
    let wrong: [&[&str]; 5] = [
        &[],
        &["1", "2"],
        &["1", "2", "x"],
        &["1", "2", "4097"],
        &["1", "2", "3", "broken"],
    ];
    for arguments in wrong {
        let output = sheets(arguments);
        assert_eq!(output.status.code(), Some(2));
        assert!(output.stdout.is_empty());
    }
}
