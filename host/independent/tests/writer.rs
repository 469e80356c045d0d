//! The writer: its refusals 12 and 13, and what it does to the buffer.

mod common;

use common::*;
use independent::hex::from_hex;
use independent::sheet::{write_sheet, write_sheet_into, Place, RawCommand, WriteRefusal};

fn raw(number: u8, body: &[u8]) -> RawCommand {
    let body = body.to_vec();
    RawCommand { number, body }
}

#[test]
fn exercise_a_is_written() {
    let commands = [
        raw(1, &[0x19]),
        raw(1, &[0x10]),
        raw(2, &[0, 1]),
        raw(5, &[0, 0, 2]),
    ];
    let wanted = from_hex("00 0004 01000F 010010 020011 050013 19 10 0001 000002");
    assert_eq!(write_sheet(0, &commands).ok(), wanted);
    assert_eq!(write_sheet(2, &[]), Ok(vec![2, 0, 0]));
}

#[test]
fn place_0_for_policy_or_count() {
    assert_eq!(write_sheet(3, &[]), Err(Place(0)));
    let many = vec![raw(8, &[]); 4_097];
    assert_eq!(write_sheet(0, &many), Err(Place(0)));
    assert!(write_sheet(0, &many[1..]).is_ok());
    // Before place 1, where a command is wrong too.
    assert_eq!(write_sheet(3, &[raw(0, &[])]), Err(Place(0)));
}

#[test]
fn place_i_for_a_command_no_sheet_can_hold() {
    let good = raw(8, &[]);
    assert_eq!(write_sheet(0, &[raw(0, &[])]), Err(Place(1)));
    assert_eq!(write_sheet(0, &[good.clone(), raw(11, &[])]), Err(Place(2)));
    // Bodies too short and too long.
    let lengths = [1, 2, 4, 3, 3, 1, 1, 0, 0, 4];
    for (number, length) in (1..=10).zip(lengths) {
        for wrong in (0..6).filter(|&wrong| wrong != length) {
            let commands = [good.clone(), raw(number, &vec![0; wrong]), raw(0, &[])];
            assert_eq!(write_sheet(0, &commands), Err(Place(2)));
        }
    }
    // Any byte may stand in a body: it is the token that refuses.
    assert!(write_sheet(0, &[raw(1, &[255])]).is_ok());
}

#[test]
fn the_buffer_too_short_13_after_12_and_nothing_written() {
    let commands = [raw(1, &[28]), raw(8, &[])];
    let wanted = sheet_bytes(1, &[g(28), OWN_KEY]);
    assert_eq!(wanted.len(), 10);
    for length in 0..14 {
        let mut buffer = vec![0xAA; length];
        let reply = write_sheet_into(1, &commands, &mut buffer);
        if length < 10 {
            assert_eq!(reply, Err(WriteRefusal::TooShort));
            assert_eq!(buffer, vec![0xAA; length]);
        } else {
            assert_eq!(reply, Ok(10));
            assert_eq!(buffer[..10], wanted);
            assert_eq!(buffer[10..], vec![0xAA; length - 10]);
        }
    }
    let mut none: [u8; 0] = [];
    let reply = write_sheet_into(9, &commands, &mut none);
    assert_eq!(reply, Err(WriteRefusal::Malformed(Place(0))));
}
