//! Damaged sheets, each with its place, and no byte written: ten by hand; 50,000 by fixed seeds; sheets cut short at every byte.

use compare::seeds;
use harness::difference::{holds, Expected};
use harness::plain;
use independent::hex::from_hex;
use independent::report::c_call;
use std::collections::BTreeMap;

/// By document 01, "Place of a fault". A table of n entries ends at 3 + 3n: 3, 6 or 9 here.
const BY_HAND: [(&str, u32); 10] = [
    // A policy above 2.
    ("03 0000", 0),
    // n is hex 1001, which is 4,097.
    ("00 1001", 0),
    // Two entries, of which the second is not there: the table is not wholly inside.
    ("00 0002 080009", 0),
    // Number 11.
    ("00 0001 0B0006", 1),
    // No body is before entry 1, so its offset has to be 9, the table's end, and is 10. Entry 2 is good.
    ("00 0002 08000A 080009", 1),
    // The two bytes of WRAP begin at 6, and the sheet ends at 7.
    ("00 0001 020006 00", 1),
    // n + 1 for n = 0: a byte follows the header, which is all of a sheet without a command.
    ("00 0000 00", 1),
    // OWN KEY is good, with no body at 9; entry 2 has number 0.
    ("00 0002 080009 000009", 2),
    // Entry 2 has number 11; a byte follows besides, which would be 3, and the smallest is named.
    ("00 0002 080009 0B0009 00", 2),
    // OWN KEY and OWN DATA are good, both with no body at 9: the byte that follows is at n + 1.
    ("00 0002 080009 090009 00", 3),
];

#[test]
fn by_hand() {
    for (hex, place) in BY_HAND {
        let sheet = from_hex(hex).expect("hex");
        let expected = Expected {
            number: 12 * 65_536 + place,
            report: vec![],
        };
        // 12 comes before 13, so it is the same with no buffer at all.
        for length in [0, 4, 64] {
            for engine in [c_call, proved::report] {
                let told = holds(engine, &sheet, &expected, length, 0xA5);
                assert_eq!(told, Ok(()), "{hex}");
            }
        }
        for reader in [plain::check, proved::check] {
            assert_eq!(reader(&sheet), expected.number, "{hex}");
        }
    }
}

#[test]
fn fifty_thousand() {
    let mut answers: BTreeMap<u32, usize> = BTreeMap::new();
    for seed in 1..=50_000 {
        let expected = seeds::damaged(seed).unwrap_or_else(|what| panic!("{what}"));
        // Good ones, place 0, place 1 and so on.
        let place = (expected.number >= 65_536).then_some(expected.number % 65_536 + 1);
        *answers.entry(place.unwrap_or(0).min(12)).or_default() += 1;
    }
    println!("good all the same, place 0, place 1 .. place 11 and above: {answers:?}");
    assert!(answers.len() == 13 && answers.values().all(|&count| count > 200));
}

#[test]
fn cut_short_at_every_byte() {
    for seed in (1..=400).filter(|seed| seed % 100 != 0) {
        seeds::all_cuts(seed).unwrap_or_else(|what| panic!("{what}"));
    }
}
