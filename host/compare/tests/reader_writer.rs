//! The reader and the writer beside a few lines of plain Rust: 100,000 byte strings through the one, three by each seed (a good
//! sheet, a damaged one, noise); 100,000 lists of commands through the other, five by each seed, into buffers of five lengths.

use compare::kinds::longest;
use compare::seeds;
use harness::plain;
use std::collections::BTreeMap;

/// What one seed comes to: each answer there was.
type OfSeed = fn(u64) -> Result<Vec<u32>, String>;

/// How often each answer came, all seeds together.
fn answers(seeds: std::ops::RangeInclusive<u64>, of_seed: OfSeed) -> BTreeMap<u32, usize> {
    let mut answers = BTreeMap::new();
    for seed in seeds {
        for answer in of_seed(seed).unwrap_or_else(|what| panic!("{what}")) {
            *answers.entry(answer).or_default() += 1;
        }
    }
    println!("{answers:?}");
    answers
}

#[test]
fn a_hundred_thousand_byte_strings_read() {
    let seen = answers(1..=33_334, seeds::reader);
    assert!(seen.keys().eq(&[0, 12]) && seen.values().all(|&count| count > 10_000));
}

#[test]
fn a_hundred_thousand_lists_written() {
    let seen = answers(1..=20_000, seeds::writer);
    assert!(seen.keys().eq(&[0, 12, 13]) && seen.values().all(|&count| count > 10_000));
}

#[test]
fn the_longest_sheet_read_and_written_again() {
    let sheet = longest();
    assert_eq!((sheet.len(), proved::check(&sheet)), (28_675, 4_096));
    let mut longer = sheet.clone();
    longer.push(0);
    assert_eq!(proved::check(&longer), 12 * 65_536 + 4_097);
    let commands = [10, 4, 0, 0, 0, 0].repeat(4_096);
    let (mut is, mut was) = (vec![0xA5; 28_680], vec![0xA5; 28_680]);
    assert_eq!(proved::write(1, 4_096, &commands, &mut is), 28_675);
    assert_eq!(plain::write(1, 4_096, &commands, &mut was), 28_675);
    assert_eq!((&is, &is[..28_675]), (&was, &sheet[..]));
    assert_eq!(proved::write(1, 4_097, &commands, &mut is), 12 * 65_536);
}
