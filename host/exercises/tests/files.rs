//! How a file of exercises is read, and that those of the folder are all there.

use exercises::{all, read, Reply};
use std::collections::BTreeSet;

#[test]
fn brackets_count() {
    let text = "note\nsheet\n00 0003 # remark\n01 [000A..000C]\n[13*2] [02..00 by 2]\noutput\n[1..2] X [7..6]\nend\n";
    let read = read("x", text).expect("an exercise");
    assert_eq!(read.len(), 1);
    assert_eq!((read[0].note.as_str(), read[0].part), ("note", 1));
    let sheet = [0, 0, 3, 1, 0, 10, 1, 0, 11, 1, 0, 12, 0x13, 2, 0x13, 0];
    assert_eq!(read[0].sheet, sheet);
    assert_eq!(read[0].output, "1 X 7\n2 X 6\nend\n");
}

#[test]
fn what_is_no_exercise() {
    let wrong = [
        "sheet\n0\noutput\n",
        "sheet\n0G\noutput\n",
        "sheet\n[00..02 by 3]\noutput\n",
        "sheet\n[00..02][00..01]\noutput\n",
        "sheet\n[00..02\noutput\n",
        "sheet\n00\n",
        "a note alone\n",
        "",
    ];
    for text in wrong {
        assert!(read("x", text).is_err(), "{text}");
    }
}

#[test]
fn an_output_stands_for_a_report() {
    let output = "policy plain commands 1\n1 WRAP 6 0\ndone 0 refused 1\nknown 1\nkey 258 own\n";
    let reply = Reply::from_output(output).expect("an output");
    assert_eq!(reply.number, 9);
    assert_eq!(reply.report, [0, 1, 0, 1, 6, 0, 0, 1, 2]);
    let reply = Reply::from_output("refused 12 place 7\n").expect("an output");
    assert_eq!((reply.number, reply.report), (786_439, vec![]));
    for wrong in ["known 0\n", "policy plain commands 1\nknown 0\n", "x\n"] {
        assert!(Reply::from_output(wrong).is_err());
    }
}

#[test]
fn the_exercises_of_document_01_and_at_least_ten_more() {
    let all = all().expect("every file can be read");
    let names: BTreeSet<String> = all.iter().map(|e| e.name.clone()).collect();
    for letter in 'A'..='L' {
        assert!(names.contains(&letter.to_string()));
    }
    assert!(names.len() >= 12 + 10, "{names:?}");
    for exercise in all {
        assert!(!exercise.note.is_empty(), "{}", exercise.name);
        assert!(exercise.part > 1 || exercise.note.contains("From: document"));
    }
}
