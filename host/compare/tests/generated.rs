//! 20,000 generated sheets, by fixed seeds: every report byte, every byte behind the report, buffers just long enough, one too
//! short, and none.

use compare::seeds;

/// Runs the seeds; counts reports, their bytes and the known keys in them.
fn run(seeds: std::ops::RangeInclusive<u64>) {
    let (mut sheets, mut bytes, mut keys) = (0, 0, 0);
    for seed in seeds {
        let expected = seeds::generated(seed).unwrap_or_else(|what| panic!("{what}"));
        assert!(expected.number < 65_536, "a generated sheet is good");
        sheets += 1;
        bytes += expected.report.len();
        keys += usize::from(u16::from_be_bytes([expected.report[2], expected.report[3]]));
    }
    println!("{sheets} sheets, {bytes} bytes of reports, {keys} known keys");
    assert!(keys > sheets);
}

#[test]
fn the_first_ten_thousand() {
    run(1..=10_000);
}

#[test]
fn the_second_ten_thousand() {
    run(10_001..=20_000);
}

#[test]
fn every_length_of_the_buffer_for_short_sheets() {
    for seed in (1..=2_000).filter(|seed| seed % 100 != 0) {
        seeds::all_lengths(seed).unwrap_or_else(|what| panic!("{what}"));
    }
}
