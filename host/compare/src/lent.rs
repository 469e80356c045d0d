//! lent.rs: sheets with buffers of several lengths, as c/lend.c reads them from standard input, and what it has to write if the
//! engine is right.

use crate::kinds::{longest, KINDS};
use harness::difference::LONGEST_REPORT;
use harness::sheets::{damaged, generated};
use independent::report::c_call;

/// A sheet and how many bytes of report buffer are lent with it.
pub struct Lent {
    sheet: Vec<u8>,
    report_length: usize,
}

/// The sheets of the seeds 1 to `seeds`, good and damaged, with buffers just long enough, one too short and none; the largest
/// sheets of each kind; and the ends of what can be handed over.
pub fn lent(seeds: u64) -> Vec<Lent> {
    let small = (1..=seeds).flat_map(|seed| [generated(seed), damaged(seed)]);
    let large = KINDS.iter().map(|kind| kind.sheet(4_096));
    let ends = [vec![], vec![2], vec![2, 0], vec![2, 0, 0], longest()];
    let mut all = Vec::new();
    for sheet in small.chain(large).chain(ends) {
        let number = c_call(&sheet, &mut vec![0; LONGEST_REPORT]);
        let needed = if number < 65_536 { number as usize } else { 8 };
        for report_length in [needed, needed - 1, 0] {
            let sheet = sheet.clone();
            all.push(Lent {
                sheet,
                report_length,
            });
        }
    }
    all
}

/// What `lend` reads.
pub fn input(all: &[Lent]) -> Vec<u8> {
    let mut bytes = Vec::new();
    for lent in all {
        bytes.extend((lent.sheet.len() as u32).to_be_bytes());
        bytes.extend((lent.report_length as u32).to_be_bytes());
        bytes.extend(&lent.sheet);
    }
    bytes
}

/// What `lend` has to write, by the independent engine.
pub fn output(all: &[Lent]) -> Vec<u8> {
    let mut bytes = Vec::new();
    for lent in all {
        let mut report = vec![0xA5; lent.report_length];
        let number = c_call(&lent.sheet, &mut report);
        bytes.extend(number.to_be_bytes());
        bytes.extend(report);
    }
    bytes
}
