//! damage.rs: a good sheet's bytes made bad (as a rule): cut short, bits flipped, the
//! table of contents spliced, a wrong count, bytes appended, an unknown policy.

use crate::random::Random;

pub fn damage(random: &mut Random, sheet: &[u8]) -> Vec<u8> {
    let mut bytes = sheet.to_vec();
    damage_once(random, &mut bytes);
    if random.once_in(4) {
        damage_once(random, &mut bytes);
    }
    bytes
}

fn damage_once(random: &mut Random, bytes: &mut Vec<u8>) {
    match random.below(12) {
        0 => bytes.truncate(random.below(bytes.len() + 1)),
        1 => drop_last(random, bytes),
        2 | 3 => flip_bits(random, bytes),
        4..=7 => splice_table(random, bytes),
        8 | 9 => wrong_count(random, bytes),
        10 => append(random, bytes),
        _ => wrong_policy(random, bytes),
    }
}

fn drop_last(random: &mut Random, bytes: &mut Vec<u8>) {
    let left = bytes.len().saturating_sub(1 + random.below(4));
    bytes.truncate(left);
}

fn flip_bits(random: &mut Random, bytes: &mut [u8]) {
    if bytes.is_empty() {
        return;
    }
    for _ in 0..1 + random.below(4) {
        let place = random.below(bytes.len());
        bytes[place] ^= 1 << random.below(8);
    }
}

/// Where the table's entries begin, those of them that are there.
fn entries(bytes: &[u8]) -> Vec<usize> {
    let count = match bytes {
        [_, high, low, ..] => usize::from(u16::from_be_bytes([*high, *low])),
        _ => 0,
    };
    let there = bytes.len().saturating_sub(3) / 3;
    (0..count.min(there)).map(|index| 3 + 3 * index).collect()
}

fn splice_table(random: &mut Random, bytes: &mut Vec<u8>) {
    let entries = entries(bytes);
    let (Some(one), Some(two)) = (random.pick(&entries), random.pick(&entries)) else {
        return append(random, bytes);
    };
    match random.below(6) {
        // One entry over another.
        0 => bytes.copy_within(two..two + 3, one),
        // Two entries change places.
        1 => (0..3).for_each(|byte| bytes.swap(one + byte, two + byte)),
        // An entry taken out or put in twice, the count left as it is.
        2 => drop(bytes.drain(one..one + 3)),
        3 => {
            let entry = [bytes[one], bytes[one + 1], bytes[one + 2]];
            drop(bytes.splice(two..two, entry));
        }
        4 => bytes[one] = [0, 11, 255, 1 + random.byte() % 10][random.below(4)],
        _ => shift_offset(random, &mut bytes[one + 1..one + 3]),
    }
}

fn shift_offset(random: &mut Random, offset: &mut [u8]) {
    let old = u16::from_be_bytes([offset[0], offset[1]]);
    let new = match random.below(4) {
        0 => old.wrapping_add(1),
        1 => old.wrapping_sub(1),
        2 => old.swap_bytes(),
        _ => random.next_u64() as u16,
    };
    offset.copy_from_slice(&new.to_be_bytes());
}

fn wrong_count(random: &mut Random, bytes: &mut [u8]) {
    let [_, high, low, ..] = bytes else { return };
    let old = u16::from_be_bytes([*high, *low]);
    let new = match random.below(8) {
        0 | 1 => old.wrapping_add(1),
        2 | 3 => old.wrapping_sub(1),
        4 => 0,
        5 => [4096, 4097, 65_535][random.below(3)],
        6 => old.swap_bytes(),
        _ => random.next_u64() as u16,
    };
    [*high, *low] = new.to_be_bytes();
}

fn append(random: &mut Random, bytes: &mut Vec<u8>) {
    for _ in 0..1 + random.below(6) {
        bytes.push(random.byte());
    }
}

fn wrong_policy(random: &mut Random, bytes: &mut [u8]) {
    if let Some(policy) = bytes.first_mut() {
        *policy = match random.below(3) {
            0 => 3,
            1 => 255,
            _ => 3 + random.byte() % 253,
        };
    }
}
