//! Every exercise through the C call and through the program `rounds`: what was worked out by hand, to the byte.

use compare::programs::{printed, rounds};
use harness::difference::{holds, Expected};
use std::process::Command;

#[test]
fn through_the_c_call() {
    for exercise in exercises::all().expect("every file can be read") {
        let reply = exercise.reply().expect("an output");
        let expected = Expected {
            number: reply.number,
            report: reply.report,
        };
        let needed = expected.report.len();
        for length in [needed + 8, needed, needed.saturating_sub(1), 0] {
            let told = holds(proved::report, &exercise.sheet, &expected, length, 0xA5);
            assert_eq!(told, Ok(()), "{} part {}", exercise.name, exercise.part);
        }
    }
}

#[test]
fn through_rounds() {
    let program = rounds().unwrap_or_else(|what| panic!("{what}"));
    for exercise in exercises::all().expect("every file can be read") {
        let text = printed(&mut Command::new(&program), &exercise.sheet, usize::MAX);
        let wanted = Ok(exercise.output);
        assert_eq!(text, wanted, "{} part {}", exercise.name, exercise.part);
    }
}
