//! Every exercise through the independent engine: the text of `rounds`, and the C call's number and bytes.

use independent::report::{c_call, rounds_text};

#[test]
fn the_text_is_the_one_worked_out_by_hand() {
    for exercise in exercises::all().expect("every file can be read") {
        let text = rounds_text(&exercise.sheet);
        assert_eq!(
            text, exercise.output,
            "{} part {}",
            exercise.name, exercise.part
        );
    }
}

#[test]
fn the_c_call_gives_the_same_in_bytes() {
    for exercise in exercises::all().expect("every file can be read") {
        let reply = exercise.reply().expect("an output");
        let mut buffer = vec![0xA5; reply.report.len() + 8];
        let number = c_call(&exercise.sheet, &mut buffer);
        assert_eq!(number, reply.number, "{}", exercise.name);
        assert_eq!(buffer[..reply.report.len()], reply.report);
        assert_eq!(buffer[reply.report.len()..], [0xA5; 8]);
    }
}
