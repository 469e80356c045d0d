//! The text `rounds` prints, to the letter, and the C call's number and buffer.

mod common;

use common::*;
use independent::hex::from_hex;
use independent::report::{c_call, rounds_text};

const SHEET_A: &str = "00 0004 01000F 010010 020011 050013 19 10 0001 000002";

fn sheet_a() -> Vec<u8> {
    from_hex(SHEET_A).expect("hex")
}

#[test]
fn exercise_a_to_the_letter() {
    let wanted = "policy plain commands 4
1 GENERATE 0 0
2 GENERATE 0 1
3 WRAP 0 2
4 DECRYPT 0 1
done 4 refused 0
known 1
key 1 generated
";
    assert_eq!(rounds_text(&sheet_a()), wanted);
}

#[test]
fn exercise_b_has_refusals_and_no_key_line() {
    let mut sheet = sheet_a();
    sheet[0] = 1;
    let wanted = "policy stp commands 4
1 GENERATE 5 0
2 GENERATE 5 0
3 WRAP 3 0
4 DECRYPT 3 0
done 0 refused 4
known 0
";
    assert_eq!(rounds_text(&sheet), wanted);
}

#[test]
fn every_command_name_and_both_makers() {
    let commands = [
        g(28),
        OWN_KEY,
        OWN_DATA,
        seal(1, 2),
        encrypt(0, 3),
        decrypt(0, 4),
        corrupt(0),
        unwrap(0, 4, 54),
        wrap(0, 0),
        destroy(0),
    ];
    let wanted = "policy stp+ commands 10
1 GENERATE 0 0
2 OWNKEY 0 1
3 OWNDATA 0 2
4 SEAL 0 3
5 ENCRYPT 0 4
6 DECRYPT 0 3
7 CORRUPT 0 0
8 UNWRAP 6 0
9 WRAP 6 0
10 DESTROY 0 0
done 8 refused 2
known 2
key 0 generated
key 1 own
";
    assert_eq!(rounds_text(&sheet_bytes(2, &commands)), wanted);
}

#[test]
fn exercise_j_the_empty_sheet_and_a_malformed_one() {
    let wanted = "policy stp+ commands 0\ndone 0 refused 0\nknown 0\n";
    assert_eq!(rounds_text(&[2, 0, 0]), wanted);
    assert_eq!(rounds_text(&[2, 0]), "refused 12 place 0\n");
    assert_eq!(rounds_text(&[2, 0, 0, 0]), "refused 12 place 1\n");
}

#[test]
fn c_call_done_writes_the_report_and_nothing_after_it() {
    // 4 + 3 * 4 + 2 * 1 = 18 bytes.
    let report = from_hex("00040001 000000 000001 000002 000001 0001").expect("hex");
    let mut buffer = [0xAA; 24];
    assert_eq!(c_call(&sheet_a(), &mut buffer), 18);
    assert_eq!(buffer[..18], report);
    assert_eq!(buffer[18..], [0xAA; 6]);
    let mut just_enough = [0xAA; 18];
    assert_eq!(c_call(&sheet_a(), &mut just_enough), 18);
    assert_eq!(just_enough[..], report);
}

#[test]
fn c_call_13_buffer_too_short() {
    for length in [0, 4, 17] {
        let mut buffer = vec![0xAA; length];
        assert_eq!(c_call(&sheet_a(), &mut buffer), 851_968);
        assert_eq!(buffer, vec![0xAA; length]);
    }
}

#[test]
fn c_call_12_comes_before_13_and_writes_nothing() {
    // Place 5: a byte after the last body. 12 * 65,536 = 786,432.
    let mut sheet = sheet_a();
    sheet.push(0);
    for length in [0, 24] {
        let mut buffer = vec![0xAA; length];
        assert_eq!(c_call(&sheet, &mut buffer), 786_432 + 5);
        assert_eq!(buffer, vec![0xAA; length]);
    }
    assert_eq!(c_call(&[], &mut [0xAA; 4]), 786_432);
}

#[test]
fn c_call_takes_the_whole_sheet_however_long() {
    let mut sheet = sheet_a();
    sheet.resize(100_000, 0);
    assert_eq!(c_call(&sheet, &mut [0; 32]), 786_432 + 5);
}
