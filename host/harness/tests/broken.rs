//! Copies of the independent engine, each with one of document 01's "Readings that come easily and are wrong" put in (the
//! edits in `broken/`): the gate's own generated sheets have to tell each from the right one, and soon. The seed written
//! here is the first that does. The exercises of document 01 that are named for a reading tell it too.

use harness::difference::{compare, Engine};
use harness::sheets::generated;
use harness::shrink::shrink;
use independent::hex::to_hex;
use independent::report::c_call;
use independent::sheet::read_sheet;
use std::time::Instant;

macro_rules! broken {
    ($name:ident) => {
        #[allow(dead_code)]
        mod $name {
            include!(concat!(env!("OUT_DIR"), "/", stringify!($name), ".rs"));
        }
    };
}

broken!(one_pass);
broken!(per_handle);
broken!(eleven_first);
broken!(table_held);
broken!(trusted_never_wrapped);
broken!(none);

/// The first seed of the gate's 20,000 on whose sheet the engine differs.
fn first_seed(engine: Engine) -> Option<u64> {
    (1..=20_000).find(|&seed| compare(c_call, engine, &generated(seed)).is_err())
}

/// Finds the seed, says how long that took, and shows the sheet at its shortest.
fn caught(name: &str, engine: Engine, seed: u64) {
    let start = Instant::now();
    let found = first_seed(engine);
    let seconds = start.elapsed().as_secs_f64();
    assert_eq!(found, Some(seed), "{name}");
    let differs = |sheet: &[u8]| compare(c_call, engine, sheet).is_err();
    let short = shrink(&generated(seed), differs);
    let commands = read_sheet(&short).expect("a good sheet").commands.len();
    println!("{name}: seed {seed}, {seconds:.2} s, {commands} commands are enough");
    if short.len() < 100 {
        println!("    {}", to_hex(&short));
    }
    assert!(differs(&short) && seconds < 60.0);
}

#[test]
fn one_pass_over_the_wraps() {
    caught("one pass", one_pass::report::c_call, 604);
}

#[test]
fn compromise_kept_per_handle() {
    caught("per handle", per_handle::report::c_call, 9);
}

#[test]
fn eleven_before_the_equal_term() {
    caught("11 first", eleven_first::report::c_call, 3_200);
}

#[test]
fn every_term_of_the_table_held() {
    caught("table held", table_held::report::c_call, 17);
}

#[test]
fn a_trusted_key_never_wrapped() {
    let engine = trusted_never_wrapped::report::c_call;
    caught("trusted never wrapped", engine, 158);
}

#[test]
fn an_unchanged_copy_does_not_differ() {
    for seed in 1..=2_000 {
        let told = compare(c_call, none::report::c_call, &generated(seed));
        assert!(told.is_ok(), "seed {seed}: {told:?}");
    }
}
