//! The proved library from Rust: the functions of its static archive as safe functions on slices. Each call is pure but for
//! the lent buffer: nothing is allocated, no state is kept, so any two calls can run at once. The direct call is reached through
//! the program `direct` (calls.rs).

mod calls;

pub use calls::{calls, LONGEST_CALLS};

/// The archive that is linked, for tests that link it into C programs.
pub const ARCHIVE: &str = env!("VACHODIEN_ARCHIVE_FILE");

/// 4 + 3 * 4,096 + 2 * 1,024: a buffer of this length is never too short for a report.
pub const LONGEST_REPORT: usize = 14_340;

/// 3 + 4,096 * (3 + 4): no good sheet is longer.
pub const LONGEST_SHEET: usize = 28_675;

extern "C" {
    fn vachodien_report(
        sheet: *const u8,
        sheet_length: usize,
        report: *mut u8,
        report_length: usize,
    ) -> u32;
    fn vachodien_check(sheet: *const u8, sheet_length: usize) -> u32;
    fn vachodien_write(
        policy: u8,
        count: u16,
        commands: *const u8,
        commands_length: usize,
        sheet: *mut u8,
        sheet_length: usize,
    ) -> u32;
}

/// A number of the C calls, taken apart.
#[derive(Clone, Copy, PartialEq, Eq, Debug)]
pub enum Reply {
    /// Answer 0, with the length of what was written, or what the call says of 0.
    Done(u16),
    /// Answer 12, with the place.
    Malformed(u16),
    /// Answer 13.
    TooShort,
}

impl Reply {
    /// None for a number that no call gives.
    pub fn from_number(number: u32) -> Option<Reply> {
        match (number / 65_536, (number % 65_536) as u16) {
            (0, low) => Some(Reply::Done(low)),
            (12, place) => Some(Reply::Malformed(place)),
            (13, 0) => Some(Reply::TooShort),
            _ => None,
        }
    }
}

/// Runs a sheet and writes its report: the answer times 65,536, plus the report's length for 0, the place for 12, nothing for
/// 13. Only for 0 is the buffer written, and only so many bytes of it.
pub fn report(sheet: &[u8], report: &mut [u8]) -> u32 {
    // SAFETY: both pointers go with the lengths of live slices, and the lent buffer is no part of the sheet.
    unsafe {
        vachodien_report(
            sheet.as_ptr(),
            sheet.len(),
            report.as_mut_ptr(),
            report.len(),
        )
    }
}

/// The count of a good sheet, or 12 times 65,536 plus the first fault's place.
pub fn check(sheet: &[u8]) -> u32 {
    // SAFETY: the pointer goes with the length of a live slice.
    unsafe { vachodien_check(sheet.as_ptr(), sheet.len()) }
}

/// Writes the sheet of the first `count` commands, records of six bytes: number, body length, four bytes of which the first so
/// many are the body. 12 with place 0 for policy or count, 12 with place i for a record i that is not wholly there or
/// that no sheet can hold, then 13; 0 with the sheet's length.
pub fn write(policy: u8, count: u16, commands: &[u8], sheet: &mut [u8]) -> u32 {
    // SAFETY: both pointers go with the lengths of live slices, and the lent buffer is no part of the commands.
    unsafe {
        vachodien_write(
            policy,
            count,
            commands.as_ptr(),
            commands.len(),
            sheet.as_mut_ptr(),
            sheet.len(),
        )
    }
}

/// The report of a sheet, or why there is none; the buffer is made long enough.
pub fn report_of(sheet: &[u8]) -> Result<Vec<u8>, Reply> {
    let mut buffer = vec![0; LONGEST_REPORT];
    match Reply::from_number(report(sheet, &mut buffer)) {
        Some(Reply::Done(length)) => {
            buffer.truncate(usize::from(length));
            Ok(buffer)
        }
        Some(reply) => Err(reply),
        None => unreachable!("a number that no call gives"),
    }
}
