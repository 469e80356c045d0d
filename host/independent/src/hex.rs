//! hex.rs: bytes as hexadecimal digits and back, for the programs and the tests.

use std::fmt::Write;

pub fn to_hex(bytes: &[u8]) -> String {
    let mut text = String::with_capacity(2 * bytes.len());
    for byte in bytes {
        // Writing to a string cannot fail.
        let _ = write!(text, "{byte:02x}");
    }
    text
}

/// The bytes of a run of digits, white space aside; none if it is not whole bytes.
pub fn from_hex(text: &str) -> Option<Vec<u8>> {
    let digits: Option<Vec<u8>> = text
        .chars()
        .filter(|c| !c.is_whitespace())
        .map(|c| c.to_digit(16).map(|digit| digit as u8))
        .collect();
    let digits = digits?;
    if digits.len() % 2 != 0 {
        return None;
    }
    let byte = |pair: &[u8]| 16 * pair[0] + pair[1];
    Some(digits.chunks(2).map(byte).collect())
}
