//! What commands do besides answering: numbers reused, aliases, what is held and known,
//! refusals without effect, and the direct call. Expectations are written by hand.

mod common;

use common::*;
use independent::engine::{Refusal, Token};

#[test]
fn the_lowest_number_not_live_is_taken() {
    let script = [
        (g(0), 0, 0),
        (g(0), 0, 1),
        (g(0), 0, 2),
        (destroy(2), 0, 2),
        (destroy(0), 0, 0),
        (g(0), 0, 0),
        (g(0), 0, 2),
        (g(0), 0, 3),
    ];
    expect(0, &script, &[]);
}

#[test]
fn three_separate_counts() {
    // OWN DATA is term 0, OWN KEY key 0 and term 1, GENERATE key 1, term 2, handle 0.
    let script = [
        (OWN_DATA, 0, 0),
        (OWN_KEY, 0, 1),
        (g(0), 0, 0),
        (corrupt(0), 0, 2),
        (seal(2, 1), 0, 3),
    ];
    expect(0, &script, &[0, 1]);
}

#[test]
fn the_values_of_generate_unwrap_and_destroy_give_nothing() {
    // Their values are the numbers of the two keys' terms, which stay unheld.
    let script = [
        (g(19), 0, 0),
        (g(19), 0, 1),
        (wrap(0, 1), 0, 2),
        (destroy(1), 0, 1),
        (unwrap(0, 2, 22), 0, 1),
        (seal(0, 0), 7, 0),
        (seal(1, 1), 7, 0),
    ];
    expect(1, &script, &[]);
}

#[test]
fn an_alias_does_not_escape() {
    // Handle 2 is another handle for key 1. Corrupting it corrupts key 1, which
    // handle 1 used to wrap key 2.
    let script = [
        (g(19), 0, 0),
        (g(19), 0, 1),
        (wrap(0, 1), 0, 2),
        (unwrap(0, 2, 22), 0, 2),
        (g(28), 0, 3),
        (wrap(1, 3), 0, 4),
        (corrupt(2), 0, 1),
    ];
    expect(1, &script, &[1, 2]);
}

#[test]
fn a_destroyed_handle_takes_nothing_back() {
    // The wrap was done by handle 0 before it was destroyed; the alias is corrupted.
    let script = [
        (g(19), 0, 0),
        (g(28), 0, 1),
        (wrap(0, 0), 0, 2),
        (wrap(0, 1), 0, 3),
        (unwrap(0, 2, 22), 0, 2),
        (destroy(0), 0, 0),
        (destroy(1), 0, 1),
        (corrupt(2), 0, 0),
        (destroy(2), 0, 2),
    ];
    expect(1, &script, &[0, 1]);
}

#[test]
fn a_wrap_after_the_corruption_counts_too() {
    let script = [
        (g(3), 0, 0),
        (g(28), 0, 1),
        (corrupt(0), 0, 0),
        (wrap(0, 1), 0, 2),
        (encrypt(1, 1), 0, 3),
    ];
    expect(1, &script, &[0, 1]);
}

#[test]
fn a_wrap_whose_seal_exists_already_answers_its_number() {
    let script = [(g(19), 0, 0), (wrap(0, 0), 0, 1), (wrap(0, 0), 0, 1)];
    expect(1, &script, &[]);
}

#[test]
fn a_wrap_and_an_encryption_are_the_same_symbol() {
    // Plain: the key wrapped is held, so it can be encrypted too, to the same seal.
    let script = [
        (g(5), 0, 0),
        (g(16), 0, 1),
        (corrupt(1), 0, 1),
        (wrap(0, 1), 0, 2),
        (encrypt(0, 1), 0, 2),
        (corrupt(0), 0, 0),
        (seal(0, 1), 0, 2),
    ];
    expect(0, &script, &[0, 1]);
}

#[test]
fn keys_deep_in_seals_are_worked_out() {
    // Key 0 wraps key 1 (term 2); the seal is encrypted under key 2 (term 4) and that
    // once more (term 5); nothing is known until key 0 is corrupted: the inner seal was
    // given when it was made. Key 2 stays unknown.
    let start = [
        (g(1), 0, 0),
        (g(16), 0, 1),
        (wrap(0, 1), 0, 2),
        (g(12), 0, 2),
        (encrypt(2, 2), 0, 4),
        (encrypt(2, 4), 0, 5),
    ];
    expect(0, &start, &[]);
    let mut more = start.to_vec();
    more.extend([
        (decrypt(2, 5), 0, 4),
        (decrypt(2, 4), 0, 2),
        (corrupt(0), 0, 0),
        (seal(1, 5), 0, 6),
        (decrypt(2, 6), 8, 0),
    ]);
    expect(0, &more, &[0, 1]);
}

#[test]
fn refused_commands_leave_no_trace() {
    // The refused ones in between: no handle, key or term number is used up.
    let script = [
        (g(128), 2, 0),
        (g(0), 5, 0),
        (g(19), 0, 0),
        (wrap(0, 1), 3, 0),
        (encrypt(0, 0), 6, 0),
        (seal(0, 0), 7, 0),
        (OWN_DATA, 0, 1),
        (seal(1, 1), 8, 0),
        (unwrap(0, 1, 22), 8, 0),
        (g(12), 0, 1),
        (corrupt(2), 3, 0),
        (OWN_KEY, 0, 3),
    ];
    expect(1, &script, &[2]);
}

#[test]
fn a_direct_call_answers_1_for_what_is_no_command() {
    let mut token = Token::new();
    let no_command = Err(Refusal::NoCommand);
    assert_eq!(token.direct_call(3, 1, &[0]), no_command);
    assert_eq!(token.direct_call(0, 0, &[]), no_command);
    assert_eq!(token.direct_call(0, 11, &[]), no_command);
    assert_eq!(token.direct_call(0, 1, &[]), no_command);
    assert_eq!(token.direct_call(0, 1, &[128, 0]), no_command);
    assert_eq!(token.direct_call(0, 8, &[0]), no_command);
    // 1 before 2, and 255 as a policy before all.
    assert_eq!(token.direct_call(255, 1, &[128]), no_command);
    assert_eq!(token.direct_call(0, 1, &[0]), Ok(0));
    assert_eq!(token.direct_call(0, 7, &[0]), Ok(0));
    assert_eq!(Refusal::NoCommand as u8, 1);
}
