//! Every exercise of document 01, starred and not, with the values written by hand.

mod common;

use common::*;
use independent::hex::{from_hex, to_hex};
use independent::report::report_for;
use independent::sheet::Place;

const SHEET_A: &str = "00 0004 01000F 010010 020011 050013 19 10 0001 000002";

fn report_of_hex(sheet: &str) -> Result<String, Place> {
    report_for(&from_hex(sheet).expect("hex")).map(|report| to_hex(&report))
}

#[test]
fn exercise_a_the_sheet_of_the_document() {
    // n 4, m 1; handles 0 and 1, the seal is term 2, the payload term 1; key 1 known.
    let report = "00040001 000000 000001 000002 000001 0001".replace(' ', "");
    assert_eq!(report_of_hex(SHEET_A), Ok(report));
    let same = [
        (g(25), 0, 0),
        (g(16), 0, 1),
        (wrap(0, 1), 0, 2),
        (decrypt(0, 2), 0, 1),
    ];
    expect(0, &same, &[1]);
}

#[test]
fn exercise_b_the_same_with_policy_1() {
    // Answers 5, 5, 3, 3; nothing known.
    let sheet = "01 0004 01000F 010010 020011 050013 19 10 0001 000002";
    let report = "00040000 050000 050000 030000 030000".replace(' ', "");
    assert_eq!(report_of_hex(sheet), Ok(report));
}

#[test]
fn exercise_c_wraps_are_not_followed_in_sheet_order() {
    let script = [
        (g(19), 0, 0),
        (g(19), 0, 1),
        (g(28), 0, 2),
        (wrap(1, 2), 0, 3),
        (wrap(0, 1), 0, 4),
        (corrupt(0), 0, 0),
    ];
    expect(1, &script, &[0, 1, 2]);
}

#[test]
fn exercise_d_import_of_an_own_key_under_stp() {
    let script = [
        (g(3), 0, 0),
        (g(19), 0, 1),
        (wrap(0, 1), 0, 2),
        (unwrap(0, 2, 22), 0, 2),
        (OWN_KEY, 0, 3),
        (encrypt(2, 3), 0, 4),
        (unwrap(2, 4, 22), 0, 3),
    ];
    expect(1, &script, &[2]);
}

#[test]
fn exercise_e_d_under_stp_plus() {
    // The ENCRYPT answers 9, so term 4 does not exist for the last UNWRAP: 4.
    let script = [
        (g(67), 0, 0),
        (g(51), 0, 1),
        (wrap(0, 1), 0, 2),
        (unwrap(0, 2, 54), 0, 2),
        (OWN_KEY, 0, 3),
        (encrypt(2, 3), 9, 0),
        (unwrap(2, 4, 54), 4, 0),
    ];
    expect(2, &script, &[2]);
}

#[test]
fn exercise_f_a_trusted_key_is_wrapped_after_corruption() {
    let script = [
        (g(67), 0, 0),
        (corrupt(0), 0, 0),
        (seal(0, 0), 0, 1),
        (unwrap(0, 1, 54), 0, 1),
        (wrap(0, 1), 0, 1),
    ];
    expect(2, &script, &[0]);
}

#[test]
fn exercise_g_wrap_with_trusted_only() {
    let script = [(g(51), 0, 0), (g(51), 0, 1), (wrap(0, 1), 6, 0)];
    expect(2, &script, &[]);
}

#[test]
fn exercise_h_a_key_wrapped_under_itself() {
    let script = [(g(19), 0, 0), (wrap(0, 0), 0, 1)];
    expect(1, &script, &[]);
}

#[test]
fn exercise_i_a_term_of_the_table_is_not_thereby_held() {
    let script = [(g(28), 0, 0), (encrypt(0, 0), 7, 0)];
    expect(1, &script, &[]);
}

#[test]
fn exercise_j_the_empty_sheet_and_two_bytes() {
    assert_eq!(report_of_hex("020000"), Ok("00000000".to_string()));
    assert_eq!(report_of_hex("0200"), Err(Place(0)));
}

#[test]
fn exercise_the_257th_generate() {
    for (policy, flags) in [(0, 0), (1, 12), (2, 28)] {
        let reply = play(policy, &times(257, g(flags)));
        for (position, answer) in reply.answers[..256].iter().enumerate() {
            assert_eq!(*answer, (0, position as u16));
        }
        assert_eq!(reply.answers[256], (10, 0));
        assert_eq!(reply.known, []);
    }
}

#[test]
fn exercise_the_1024_terms() {
    for policy in 0..3 {
        let mut commands = vec![OWN_KEY, OWN_DATA, seal(0, 1)];
        commands.extend(times(1_021, OWN_DATA));
        commands.extend([OWN_DATA, seal(0, 1)]);
        let reply = play(policy, &commands);
        // The first 1,024 commands each make the term of their own order.
        for (position, answer) in reply.answers[..1_024].iter().enumerate() {
            assert_eq!(*answer, (0, position as u16));
        }
        assert_eq!(reply.answers[1_024..], [(11, 0), (0, 2)]);
        assert_eq!(reply.known, [0]);
    }
}
