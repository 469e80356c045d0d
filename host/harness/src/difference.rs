//! difference.rs: one sheet through two engines: the number, every byte of the report, and every byte that has to stay.

/// An engine as the C call shows it: a sheet, a lent buffer, one number.
pub type Engine = fn(&[u8], &mut [u8]) -> u32;

/// Bytes that are kept before and behind every lent buffer.
const GUARD: usize = 16;

/// 4 + 3 * 4,096 + 2 * 1,024: no report is longer.
pub const LONGEST_REPORT: usize = 14_340;

/// What an engine answers to a sheet if there is room.
#[derive(Clone, PartialEq, Eq, Debug)]
pub struct Expected {
    pub number: u32,
    /// Empty where the answer is not 0.
    pub report: Vec<u8>,
}

impl Expected {
    /// What this engine says.
    pub fn of(engine: Engine, sheet: &[u8]) -> Expected {
        let mut buffer = vec![0; LONGEST_REPORT];
        let number = engine(sheet, &mut buffer);
        let length = if number < 65_536 { number as usize } else { 0 };
        buffer.truncate(length);
        Expected {
            number,
            report: buffer,
        }
    }

    /// The number that a buffer of this length has to meet: 12 comes before 13.
    fn number_for(&self, length: usize) -> u32 {
        if self.number < 65_536 && length < self.report.len() {
            13 * 65_536
        } else {
            self.number
        }
    }
}

/// Whether the engine answers as expected where it is lent so many bytes, each `fill` before.
pub fn holds(
    engine: Engine,
    sheet: &[u8],
    expected: &Expected,
    length: usize,
    fill: u8,
) -> Result<(), String> {
    let mut lent = vec![fill; GUARD + length + GUARD];
    let number = engine(sheet, &mut lent[GUARD..GUARD + length]);
    let wanted = expected.number_for(length);
    if number != wanted {
        let (is, was) = (named(number), named(wanted));
        return Err(format!("with {length} bytes lent: {is}, expected {was}"));
    }
    let mut untouched = vec![fill; GUARD + length + GUARD];
    if wanted < 65_536 {
        untouched[GUARD..GUARD + expected.report.len()].copy_from_slice(&expected.report);
    }
    match lent.iter().zip(&untouched).position(|(is, was)| is != was) {
        None => Ok(()),
        Some(at) => Err(format!(
            "with {length} bytes lent: byte {} is {:02x}, expected {:02x}",
            at as isize - GUARD as isize,
            lent[at],
            untouched[at]
        )),
    }
}

/// The number in words.
fn named(number: u32) -> String {
    match (number / 65_536, number % 65_536) {
        (0, length) => format!("report of {length} bytes"),
        (answer, low) => format!("{answer} with {low}"),
    }
}

/// Compares at the buffer lengths that matter: none, one too few, just enough, eight more. Gives what was expected.
pub fn compare(expected: Engine, engine: Engine, sheet: &[u8]) -> Result<Expected, String> {
    let expected = Expected::of(expected, sheet);
    let needed = expected.report.len();
    let fill = if sheet.len().is_multiple_of(2) {
        0xA5
    } else {
        0x00
    };
    for length in [needed + 8, needed, needed.saturating_sub(1), 0] {
        holds(engine, sheet, &expected, length, fill)?;
    }
    Ok(expected)
}

/// Compares at every buffer length from 0 to the needed one plus 8.
pub fn compare_all_lengths(
    expected: Engine,
    engine: Engine,
    sheet: &[u8],
) -> Result<Expected, String> {
    let expected = Expected::of(expected, sheet);
    for length in 0..=expected.report.len() + 8 {
        holds(engine, sheet, &expected, length, length as u8)?;
    }
    Ok(expected)
}
