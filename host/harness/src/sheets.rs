//! sheets.rs: one sheet for one seed, so that a seed is all that is needed to see a difference again.

use independent::damage::damage;
use independent::generate::generate;
use independent::random::Random;

/// How long the sheet of a seed can be: most are short; some can fill 256 handles, some 1,024 terms.
fn most_commands(seed: u64) -> usize {
    match seed {
        seed if seed.is_multiple_of(2_000) => 4_096,
        seed if seed.is_multiple_of(400) => 1_500,
        seed if seed.is_multiple_of(100) => 420,
        _ => 40,
    }
}

/// A good sheet, most of whose commands are done.
pub fn generated(seed: u64) -> Vec<u8> {
    let mut random = Random::new(seed);
    let sheet = generate(&mut random, most_commands(seed));
    sheet.to_bytes().expect("a generated sheet can be written")
}

/// A sheet that came back damaged; a few are good all the same.
pub fn damaged(seed: u64) -> Vec<u8> {
    // Not the sheets of `generated` again.
    let mut random = Random::new(!seed);
    let most = if seed.is_multiple_of(200) { 300 } else { 24 };
    let sheet = generate(&mut random, most);
    let bytes = sheet.to_bytes().expect("a generated sheet can be written");
    damage(&mut random, &bytes)
}

/// Bytes with no plan, of which some begin like a sheet.
pub fn noise(seed: u64) -> Vec<u8> {
    let mut random = Random::new(seed ^ 0x5EED_0000_0000);
    let length = random.below(64);
    let mut bytes: Vec<u8> = (0..length).map(|_| random.byte()).collect();
    if random.once_in(2) {
        let count = random.below(8) as u8;
        for (byte, start) in bytes.iter_mut().zip([random.byte() % 3, 0, count]) {
            *byte = start;
        }
    }
    bytes
}
