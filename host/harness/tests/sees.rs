//! That the comparison sees what it is for: engines that are right but for one byte or one number.

use harness::difference::{compare, compare_all_lengths, Engine};
use harness::sheets::{damaged, generated};
use independent::report::c_call;

/// One byte behind the report.
fn writes_behind(sheet: &[u8], buffer: &mut [u8]) -> u32 {
    let number = c_call(sheet, buffer);
    if let Some(byte) = buffer.get_mut(number as usize) {
        *byte ^= 1;
    }
    number
}

/// 13 with a part of the report.
fn writes_before_13(sheet: &[u8], buffer: &mut [u8]) -> u32 {
    let number = c_call(sheet, buffer);
    if number == 13 * 65_536 {
        if let Some(byte) = buffer.first_mut() {
            *byte ^= 1;
        }
    }
    number
}

/// 13 before 12.
fn short_first(sheet: &[u8], buffer: &mut [u8]) -> u32 {
    match buffer.len() {
        0..4 => 13 * 65_536,
        _ => c_call(sheet, buffer),
    }
}

/// Places counted from 0.
fn places_from_0(sheet: &[u8], buffer: &mut [u8]) -> u32 {
    let number = c_call(sheet, buffer);
    number - u32::from(number > 12 * 65_536 && number < 13 * 65_536)
}

/// One byte more asked for than is needed.
fn wants_one_more(sheet: &[u8], buffer: &mut [u8]) -> u32 {
    let number = c_call(sheet, &mut buffer.to_vec());
    if number as usize == buffer.len() {
        return 13 * 65_536;
    }
    c_call(sheet, buffer)
}

fn seen(engine: Engine, sheets: impl Iterator<Item = Vec<u8>>) -> bool {
    let mut sheets = sheets;
    sheets.any(|sheet| compare(c_call, engine, &sheet).is_err())
}

#[test]
fn a_wrong_byte_or_number_is_seen() {
    let good = || (1..=20).map(generated);
    let bad = || (1..=20).map(damaged);
    assert!(!seen(c_call, good()) && !seen(c_call, bad()));
    assert!(seen(writes_behind, good()));
    assert!(seen(writes_before_13, good()));
    assert!(seen(wants_one_more, good()));
    assert!(seen(short_first, bad()));
    assert!(seen(places_from_0, bad()));
}

#[test]
fn every_length_of_the_buffer_is_tried() {
    let sheet = generated(7);
    assert!(compare_all_lengths(c_call, c_call, &sheet).is_ok());
    assert!(compare_all_lengths(c_call, wants_one_more, &sheet).is_err());
    assert!(compare_all_lengths(c_call, writes_before_13, &sheet).is_err());
}
