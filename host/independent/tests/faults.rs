//! Malformed sheets: a fault at every kind of place, and the smallest place named.
//! The good sheet is that of exercise A: 22 bytes, bodies from 15 on.

mod common;

use common::*;
use independent::command::{body_length, Command};
use independent::hex::from_hex;
use independent::report::report_for;
use independent::sheet::{read_sheet, Place};

fn fault(hex: &str) -> Option<u16> {
    read_sheet(&from_hex(hex).expect("hex"))
        .err()
        .map(|place| place.0)
}

#[test]
fn place_0_under_three_bytes() {
    assert_eq!(fault(""), Some(0));
    assert_eq!(fault("00"), Some(0));
    assert_eq!(fault("0000"), Some(0));
    assert_eq!(fault("000000"), None);
}

#[test]
fn place_0_policy_above_2() {
    assert_eq!(fault("020000"), None);
    assert_eq!(fault("030000"), Some(0));
    assert_eq!(fault("FF0000"), Some(0));
    // Also where the entry is at fault (its number is 0), or bytes follow.
    assert_eq!(fault("03 0001 000006"), Some(0));
    assert_eq!(fault("03 0000 00"), Some(0));
}

#[test]
fn place_0_more_than_4096_commands() {
    // OWN KEY has no body, so each offset is the end of the table.
    let sheet = |count: u16| {
        let end = (3 + 3 * count).to_be_bytes();
        let mut bytes = vec![0];
        bytes.extend(count.to_be_bytes());
        for _ in 0..count {
            bytes.extend([8, end[0], end[1]]);
        }
        bytes
    };
    assert!(read_sheet(&sheet(4_096)).is_ok());
    assert_eq!(read_sheet(&sheet(4_097)), Err(Place(0)));
}

#[test]
fn place_0_table_not_wholly_inside() {
    assert_eq!(fault("00 0001"), Some(0));
    assert_eq!(fault("00 0001 0800"), Some(0));
    assert_eq!(fault("00 0001 080006"), None);
    // The first entry is at fault too, but the table of two is not whole.
    assert_eq!(fault("00 0002 000000 0800"), Some(0));
    assert_eq!(fault("00 1000 080003"), Some(0));
}

#[test]
fn place_i_number_not_1_to_10() {
    assert_eq!(fault("00 0001 000006"), Some(1));
    assert_eq!(fault("00 0001 0B0006"), Some(1));
    assert_eq!(fault("00 0001 FF0006"), Some(1));
    assert_eq!(
        fault("00 0004 01000F 010010 0B0011 050013 19 10 0001 000002"),
        Some(3)
    );
    // The lengths of all ten are known, by the sizes of their parts.
    let lengths = [1, 2, 4, 3, 3, 1, 1, 0, 0, 4];
    for (number, length) in (1..=10).zip(lengths) {
        assert_eq!(body_length(number), Some(length));
    }
    assert_eq!((body_length(0), body_length(11)), (None, None));
}

#[test]
fn place_i_offset_not_where_the_bodies_before_it_end() {
    // The first body has to begin right after the table.
    assert_eq!(fault("00 0001 010005 19 19"), Some(1));
    assert_eq!(fault("00 0001 010007 19 19"), Some(1));
    // A gap, an overlap, and bodies out of order.
    assert_eq!(fault("00 0002 010009 01000B 19 00 10"), Some(2));
    assert_eq!(fault("00 0002 010009 010009 19"), Some(2));
    assert_eq!(fault("00 0002 01000A 010009 19 10"), Some(1));
    // Without a body the offset has to be right all the same.
    assert_eq!(fault("00 0001 080000"), Some(1));
    assert_eq!(fault("00 0002 080009 090008"), Some(2));
}

#[test]
fn place_i_body_passes_the_end() {
    assert_eq!(fault("00 0001 010006"), Some(1));
    assert_eq!(fault("00 0001 030006 000000"), Some(1));
    assert_eq!(
        fault("00 0004 01000F 010010 020011 050013 19 10 0001 0000"),
        Some(4)
    );
    assert_eq!(
        fault("00 0004 01000F 010010 020011 050013 19 10 00"),
        Some(3)
    );
    assert_eq!(fault("00 0004 01000F 010010 020011 050013"), Some(1));
    // An offset beyond the end of the sheet that is the right one.
    assert_eq!(fault("00 0002 030009 08000D 000000"), Some(1));
}

#[test]
fn place_n_plus_1_bytes_follow_the_last_body() {
    assert_eq!(fault("00 0000 00"), Some(1));
    assert_eq!(fault("00 0001 080006 00"), Some(2));
    assert_eq!(
        fault("00 0004 01000F 010010 020011 050013 19 10 0001 000002 00"),
        Some(5)
    );
    // With 4,096 commands the place is 4,097.
    let mut sheet = sheet_bytes(0, &times(4_096, seal(0, 0)));
    assert_eq!(sheet.len(), 28_675);
    sheet.push(0);
    assert_eq!(read_sheet(&sheet), Err(Place(4_097)));
}

#[test]
fn the_smallest_place_is_named() {
    // Entry 2 has a wrong number, entry 3 a wrong offset, and bytes follow.
    assert_eq!(
        fault("00 0003 01000C 00000D 010000 19 00 00 00 00"),
        Some(2)
    );
    // Entry 1 has a wrong offset, entry 2 a wrong number.
    assert_eq!(fault("00 0002 010000 00000A 19"), Some(1));
}

#[test]
fn a_malformed_sheet_runs_nothing() {
    let bytes = from_hex("00 0002 080009 000009").expect("hex");
    assert_eq!(report_for(&bytes), Err(Place(2)));
}

#[test]
fn every_prefix_of_the_good_sheet() {
    // 3 to 14 bytes: the table is not whole. 15: no first body. 16: no second. 17 and
    // 18: the third is not whole. 19 to 21: the fourth is not.
    let good = "00 0004 01000F 010010 020011 050013 19 10 0001 000002";
    let bytes = from_hex(good).expect("hex");
    for length in 0..22 {
        let place = match length {
            0..=14 => 0,
            15 => 1,
            16 => 2,
            17 | 18 => 3,
            _ => 4,
        };
        assert_eq!(read_sheet(&bytes[..length]), Err(Place(place)), "{length}");
    }
    assert!(read_sheet(&bytes).is_ok());
}

#[test]
fn a_sheet_of_all_ten_commands_is_read() {
    // Table of 10: bodies from 33 (0x21) on.
    let hex = "02 000A 010021 020022 030024 040028 05002B 06002E 07002F 080030 090030 0A0030
        43 0102 03 0405 36 06 0708 09 0A0B 0C 0D 0E0F 1011";
    let commands = [
        g(0x43),
        wrap(1, 2),
        unwrap(3, 0x0405, 0x36),
        encrypt(6, 0x0708),
        decrypt(9, 0x0A0B),
        corrupt(0x0C),
        destroy(0x0D),
        Command::OwnKey,
        Command::OwnData,
        seal(0x0E0F, 0x1011),
    ];
    let bytes = from_hex(hex).expect("hex");
    let sheet = read_sheet(&bytes).expect("a good sheet");
    assert_eq!(sheet.policy.byte(), 2);
    assert_eq!(sheet.commands, commands);
    assert_eq!(sheet_bytes(2, &commands), bytes);
}
