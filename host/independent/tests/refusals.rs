//! Each answer 2 to 11 of each command that can meet it, by short sheets made by hand;
//! the comments say why document 01 wants the answer. All commands before the last one
//! are done (`last_after` sees to it). Where two refusals apply the smaller is wanted.

mod common;

use common::*;
use independent::command::Command;

/// The last command's answer; a refusal has value 0.
fn refused(policy: u8, before: &[Command], last: Command, answer: u8) {
    assert_eq!(last_after(policy, before, last), (answer, 0), "{last:?}");
}

/// `before`, and then OWN DATA until 1,024 terms exist; every command so far made one.
fn filled(before: &[Command]) -> Vec<Command> {
    let mut commands = before.to_vec();
    commands.resize(1_024, OWN_DATA);
    commands
}

#[test]
fn generate_2_flag_byte_holds_128() {
    refused(0, &[], g(128), 2);
    // 128 + 12 is not granted under STP either (5): 2 is smaller.
    refused(1, &[], g(140), 2);
    refused(2, &times(256, g(28)), g(255), 2);
}

#[test]
fn generate_5_not_granted() {
    // STP grants 12, 28, 3, 19 and nothing else; 22 is UNWRAP's.
    for flags in 0..128 {
        let granted = [12, 28, 3, 19].contains(&flags);
        let answer = last_after(1, &[], g(flags)).0;
        assert_eq!(answer, if granted { 0 } else { 5 }, "{flags}");
    }
    // STP+ grants 67, 51, 28; 54 is UNWRAP's.
    for flags in 0..128 {
        let granted = [67, 51, 28].contains(&flags);
        let answer = last_after(2, &[], g(flags)).0;
        assert_eq!(answer, if granted { 0 } else { 5 }, "{flags}");
    }
    // Plain grants every flag byte 0 to 127.
    for flags in 0..128 {
        assert_eq!(last_after(0, &[], g(flags)), (0, 0));
    }
    // 5 before 10.
    refused(1, &times(256, g(12)), g(22), 5);
}

#[test]
fn generate_10_no_free_handle() {
    refused(0, &times(256, g(0)), g(0), 10);
    // 256 live and 1,024 terms: 10 before 11.
    refused(0, &filled(&times(256, g(0))), g(0), 10);
}

#[test]
fn generate_11_no_free_term() {
    // A handle is free but the new key's term would be the 1,025th.
    refused(0, &filled(&[]), g(0), 11);
    refused(0, &filled(&times(255, g(0))), g(0), 11);
}

#[test]
fn wrap_3_handle_not_live() {
    refused(0, &[], wrap(0, 0), 3);
    // One of the two is not live; the flags (none) would be 6.
    refused(0, &[g(0)], wrap(0, 1), 3);
    refused(0, &[g(0)], wrap(1, 0), 3);
    // A destroyed handle is not live.
    refused(0, &[g(19), destroy(0)], wrap(0, 0), 3);
}

#[test]
fn wrap_6_flag_missing() {
    // Handle 0 has all but W, handle 1 has X.
    refused(0, &[g(126), g(16)], wrap(0, 1), 6);
    // Handle 0 has W, handle 1 all but X.
    refused(0, &[g(65), g(111)], wrap(0, 1), 6);
    // Handle 1 has N and handle 0 has W but not T.
    refused(0, &[g(1), g(48)], wrap(0, 1), 6);
    // T on the wrapped handle is of no help.
    refused(0, &[g(1), g(112)], wrap(0, 1), 6);
    // With T on handle 0 it is done: the seal is term 2.
    assert_eq!(last_after(0, &[g(65), g(48)], wrap(0, 1)), (0, 2));
    // N on the wrapping handle asks for nothing.
    assert_eq!(last_after(0, &[g(33), g(16)], wrap(0, 1)), (0, 2));
    // 6 before 11.
    refused(0, &filled(&[g(0)]), wrap(0, 0), 6);
}

#[test]
fn wrap_11_no_free_term() {
    refused(0, &filled(&[g(17)]), wrap(0, 0), 11);
    // The equal seal is looked for first: term 1 again.
    let full = filled(&[g(17), wrap(0, 0)]);
    assert_eq!(last_after(0, &full, wrap(0, 0)), (0, 1));
}

#[test]
fn unwrap_2_flag_byte_holds_128() {
    // The handle is not live (3) and the term does not exist (4) either.
    refused(0, &[], unwrap(9, 9, 128), 2);
    refused(1, &[g(3)], unwrap(0, 0, 150), 2);
}

#[test]
fn unwrap_3_handle_not_live() {
    // The term does not exist (4) and STP does not grant 5 (5).
    refused(1, &[], unwrap(0, 0, 5), 3);
    refused(0, &[OWN_KEY], unwrap(0, 0, 0), 3);
}

#[test]
fn unwrap_4_no_such_term() {
    // One term exists, term 0; STP does not grant 0 (5).
    refused(1, &[g(3)], unwrap(0, 1, 0), 4);
    // Nor does the handle have U (6).
    refused(1, &[g(12)], unwrap(0, 65_535, 22), 4);
}

#[test]
fn unwrap_5_not_granted() {
    // Handle 0 (28) has no U (6) and the term is no seal (8).
    refused(1, &[g(28), OWN_DATA], unwrap(0, 1, 19), 5);
    // STP grants 22 alone, STP+ 54 alone: for a wrap of handle 1 under handle 0.
    for (policy, flags, granted) in [(1, [3, 19], 22), (2, [67, 51], 54)] {
        let before = [g(flags[0]), g(flags[1]), wrap(0, 1)];
        for flags in 0..128 {
            let answer = last_after(policy, &before, unwrap(0, 2, flags));
            let wanted = if flags == granted { (0, 2) } else { (5, 0) };
            assert_eq!(answer, wanted, "{flags}");
        }
    }
}

#[test]
fn unwrap_6_flag_missing() {
    // Handle 0 (28) has no U; its key, term 0, is not held (7).
    refused(1, &[g(28)], unwrap(0, 0, 22), 6);
    // A good seal under key 0, but handle 0 has no U (125 is all but U).
    refused(0, &[g(125), wrap(0, 0)], unwrap(0, 1, 0), 6);
}

#[test]
fn unwrap_7_not_held() {
    // Term 0 is a key that is not held; it is no seal either (8).
    refused(1, &[g(3)], unwrap(0, 0, 22), 7);
    refused(0, &[g(2), g(0)], unwrap(0, 1, 0), 7);
}

#[test]
fn unwrap_8_not_a_key_sealed_under_this_key() {
    // A data item; a held key; a seal under another key; a seal of data under this key;
    // a seal of a seal under this key.
    refused(0, &[g(2), OWN_DATA], unwrap(0, 1, 0), 8);
    refused(0, &[g(2), OWN_KEY], unwrap(0, 1, 0), 8);
    refused(0, &[g(2), OWN_KEY, seal(1, 1)], unwrap(0, 2, 0), 8);
    refused(0, &[g(6), OWN_DATA, encrypt(0, 1)], unwrap(0, 2, 0), 8);
    refused(0, &[g(23), wrap(0, 0), encrypt(0, 1)], unwrap(0, 2, 0), 8);
    // 8 before 10.
    let mut full = times(256, g(2));
    full.push(OWN_DATA);
    refused(0, &full, unwrap(0, 256, 0), 8);
}

#[test]
fn unwrap_10_no_free_handle() {
    // Term 2 is key 1 under key 0; 254 further handles make 256.
    let mut before = vec![g(3), g(19), wrap(0, 1)];
    before.extend(times(254, g(12)));
    refused(1, &before, unwrap(0, 2, 22), 10);
    // After a DESTROY the number is used again.
    before.push(destroy(77));
    assert_eq!(last_after(1, &before, unwrap(0, 2, 22)), (0, 77));
}

#[test]
fn unwrap_never_11() {
    // It needs no new term, so it is done with 1,024 of them.
    let full = filled(&[g(19), wrap(0, 0)]);
    assert_eq!(last_after(1, &full, unwrap(0, 1, 22)), (0, 1));
}

#[test]
fn encrypt_3_handle_not_live() {
    // The term does not exist either (4).
    refused(0, &[], encrypt(0, 0), 3);
    refused(0, &[g(4), OWN_DATA, destroy(0)], encrypt(0, 1), 3);
}

#[test]
fn encrypt_4_no_such_term() {
    // Handle 0 has no E either (6).
    refused(0, &[g(0)], encrypt(0, 1), 4);
    refused(2, &[g(28)], encrypt(0, 1_024), 4);
}

#[test]
fn encrypt_6_flag_missing() {
    // 123 is all but E.
    refused(0, &[g(123), OWN_DATA], encrypt(0, 1), 6);
    // Under STP+ the term is a key (9) and not held (7).
    refused(2, &[g(67)], encrypt(0, 0), 6);
}

#[test]
fn encrypt_7_not_held() {
    refused(1, &[g(28)], encrypt(0, 0), 7);
    // Under STP+ the term is a key as well (9).
    refused(2, &[g(28), g(67)], encrypt(0, 1), 7);
    // And the terms are full (11).
    refused(2, &filled(&[g(28)]), encrypt(0, 0), 7);
}

#[test]
fn encrypt_9_key_under_stp_plus() {
    refused(2, &[g(28), OWN_KEY], encrypt(0, 1), 9);
    refused(2, &[g(28), corrupt(0)], encrypt(0, 0), 9);
    // 9 before 11.
    refused(2, &filled(&[g(28), OWN_KEY]), encrypt(0, 1), 9);
    // Even if the equal seal exists: the caller made it (term 1).
    refused(2, &[g(28), corrupt(0), seal(0, 0)], encrypt(0, 0), 9);
    // A data item and a seal of a key are no keys; other policies do not ask.
    assert_eq!(last_after(2, &[g(28), OWN_DATA], encrypt(0, 1)), (0, 2));
    let sealed = [g(28), OWN_KEY, seal(1, 1)];
    assert_eq!(last_after(2, &sealed, encrypt(0, 2)), (0, 3));
    assert_eq!(last_after(1, &[g(28), OWN_KEY], encrypt(0, 1)), (0, 2));
    assert_eq!(last_after(0, &[g(28), OWN_KEY], encrypt(0, 1)), (0, 2));
}

#[test]
fn encrypt_11_no_free_term() {
    refused(1, &filled(&[g(12), OWN_DATA]), encrypt(0, 1), 11);
    // The equal seal is looked for first: term 2 again.
    let full = filled(&[g(12), OWN_DATA, encrypt(0, 1)]);
    assert_eq!(last_after(1, &full, encrypt(0, 1)), (0, 2));
}

#[test]
fn decrypt_3_handle_not_live() {
    refused(0, &[], decrypt(0, 0), 3);
    refused(0, &[OWN_DATA], decrypt(255, 0), 3);
}

#[test]
fn decrypt_4_no_such_term() {
    // Handle 0 has no D either (6).
    refused(0, &[g(0)], decrypt(0, 1), 4);
    refused(0, &[g(8)], decrypt(0, 256), 4);
}

#[test]
fn decrypt_6_flag_missing() {
    // 119 is all but D; the seal is one under this key.
    refused(0, &[g(119), wrap(0, 0)], decrypt(0, 1), 6);
    // Key 0 is not held either (7).
    refused(1, &[g(3)], decrypt(0, 0), 6);
}

#[test]
fn decrypt_7_not_held() {
    // A key, not held; no seal either (8).
    refused(1, &[g(12)], decrypt(0, 0), 7);
    refused(1, &[g(12), g(3)], decrypt(0, 1), 7);
}

#[test]
fn decrypt_8_not_sealed_under_this_key() {
    refused(1, &[g(12), OWN_DATA], decrypt(0, 1), 8);
    refused(1, &[g(12), OWN_KEY], decrypt(0, 1), 8);
    refused(1, &[g(12), OWN_KEY, seal(1, 1)], decrypt(0, 2), 8);
    // A handle number is no key number: handle 0 is key 1 here, key 0 the caller's.
    refused(1, &[OWN_KEY, g(12), seal(0, 0)], decrypt(0, 2), 8);
}

#[test]
fn corrupt_3_handle_not_live() {
    refused(0, &[], corrupt(0), 3);
    refused(2, &[g(67), destroy(0)], corrupt(0), 3);
}

#[test]
fn destroy_3_handle_not_live() {
    refused(0, &[], destroy(0), 3);
    refused(1, &[g(3), destroy(0)], destroy(0), 3);
}

#[test]
fn own_key_11_no_free_term() {
    refused(0, &filled(&[]), OWN_KEY, 11);
}

#[test]
fn own_data_11_no_free_term() {
    refused(1, &filled(&[OWN_KEY]), OWN_DATA, 11);
}

#[test]
fn seal_4_no_such_term() {
    refused(0, &[], seal(0, 0), 4);
    // Term 0 is a key not held (7), and the other term does not exist.
    refused(0, &[g(0)], seal(0, 1), 4);
    refused(0, &[g(0)], seal(1, 0), 4);
}

#[test]
fn seal_7_not_held() {
    // Either term may be the key not held.
    refused(0, &[g(0), OWN_KEY], seal(0, 1), 7);
    refused(0, &[g(0), OWN_KEY], seal(1, 0), 7);
    // The first is no key (8) but the second is not held.
    refused(0, &[g(0), OWN_DATA], seal(1, 0), 7);
}

#[test]
fn seal_8_first_term_not_a_key() {
    refused(0, &[OWN_DATA, OWN_KEY], seal(0, 1), 8);
    // A seal is no key.
    refused(0, &[OWN_KEY, seal(0, 0)], seal(1, 0), 8);
    // 8 before 11.
    refused(0, &filled(&[]), seal(0, 1), 8);
}

#[test]
fn seal_11_no_free_term() {
    refused(2, &filled(&[OWN_KEY]), seal(0, 0), 11);
}
