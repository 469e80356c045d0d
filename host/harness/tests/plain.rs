//! The plain reader and writer against the independent engine's, which were written apart from them.

use harness::plain;
use harness::sheets::{damaged, generated, noise};
use independent::random::Random;
use independent::sheet::{read_sheet, write_sheet_into, Place, RawCommand, WriteRefusal};

fn check(sheet: &[u8]) -> u32 {
    match read_sheet(sheet) {
        Ok(sheet) => sheet.commands.len() as u32,
        Err(place) => 12 * 65_536 + u32::from(place.0),
    }
}

/// Of the answers 0, 12 and 13 each comes often.
fn often(answers: &[u32], wanted: &[u32]) {
    for answer in wanted {
        let count = answers.iter().filter(|&is| is == answer).count();
        assert!(count > 100, "{answer}: {count} times");
    }
}

#[test]
fn the_same_faults() {
    let mut answers = Vec::new();
    let sheets = (1..=2_000).flat_map(|seed| [generated(seed), damaged(seed), noise(seed)]);
    for sheet in sheets {
        assert_eq!(plain::check(&sheet), check(&sheet), "{sheet:?}");
        answers.push(check(&sheet) / 65_536);
    }
    often(&answers, &[0, 12]);
}

#[test]
fn the_same_sheets_written() {
    let mut random = Random::new(1);
    let mut answers = Vec::new();
    for seed in 1..=2_000 {
        let bytes = generated(seed);
        let sheet = read_sheet(&bytes).expect("a good sheet");
        let mut raw = sheet.raw_commands();
        if random.once_in(4) && !raw.is_empty() {
            let at = random.below(raw.len());
            raw[at] = RawCommand {
                number: random.byte() % 12,
                body: vec![0; random.below(5)],
            };
        }
        let policy = random.byte() % 4;
        let length = random.below(2 * bytes.len());
        let (mut one, mut two) = (vec![0xA5; length], vec![0xA5; length]);
        let number = match write_sheet_into(policy, &raw, &mut one) {
            Ok(length) => length as u32,
            Err(WriteRefusal::Malformed(Place(place))) => 12 * 65_536 + u32::from(place),
            Err(WriteRefusal::TooShort) => 13 * 65_536,
        };
        let mut records = Vec::new();
        for command in &raw {
            let mut body = command.body.clone();
            body.resize(4, random.byte());
            records.extend([command.number, command.body.len() as u8]);
            records.extend(body);
        }
        let count = raw.len() as u16;
        assert_eq!(plain::write(policy, count, &records, &mut two), number);
        assert_eq!(one, two);
        answers.push(number / 65_536);
    }
    often(&answers, &[0, 12, 13]);
}
