//! That the exercises, all together, come to each thing that `rounds` prints, so that nothing is left to a comparison of two
//! engines alone: every word and answer, numbers of one to four digits wherever a number stands, every kind of place.

use exercises::{all, Exercise};
use std::collections::{BTreeMap, BTreeSet};

fn exercises() -> Vec<Exercise> {
    all().expect("every file can be read")
}

/// What stands in each field of the output, by the field's name.
fn fields(output: &str) -> Vec<(&'static str, &str)> {
    let mut fields = Vec::new();
    for line in output.lines() {
        let words: Vec<&str> = line.split(' ').collect();
        fields.extend(match words[..] {
            ["policy", policy, "commands", n] => vec![("policy", policy), ("commands", n)],
            ["done", done, "refused", refused] => vec![("done", done), ("refused", refused)],
            ["refused", "12", "place", place] => vec![("place", place)],
            ["known", m] => vec![("known", m)],
            ["key", key, maker] => vec![("key", key), ("maker", maker)],
            [position, command, answer, value] => vec![
                ("position", position),
                ("command", command),
                ("answer", answer),
                ("value", value),
            ],
            _ => panic!("'{line}' is no line of an output"),
        });
    }
    fields
}

fn seen() -> BTreeMap<&'static str, BTreeSet<String>> {
    let mut seen: BTreeMap<_, BTreeSet<String>> = BTreeMap::new();
    for exercise in exercises() {
        for (field, word) in fields(&exercise.output) {
            seen.entry(field).or_default().insert(word.to_string());
        }
    }
    seen
}

#[test]
fn every_word_and_every_answer() {
    let seen = seen();
    let commands = "GENERATE WRAP UNWRAP ENCRYPT DECRYPT CORRUPT DESTROY OWNKEY OWNDATA SEAL";
    for (field, words) in [
        ("policy", "plain stp stp+"),
        ("command", commands),
        ("answer", "0 2 3 4 5 6 7 8 9 10 11"),
        ("maker", "generated own"),
    ] {
        let words: BTreeSet<String> = words.split(' ').map(str::to_string).collect();
        assert_eq!(seen[field], words, "{field}");
    }
}

#[test]
fn numbers_of_one_to_four_digits() {
    let seen = seen();
    for field in [
        "commands", "position", "value", "done", "refused", "known", "key", "place",
    ] {
        let lengths: BTreeSet<usize> = seen[field].iter().map(String::len).collect();
        assert!(lengths.into_iter().eq(1..=4), "{field}: {:?}", seen[field]);
    }
}

/// By the count that stands in the sheet: n and n + 1 where they are not 1 by chance.
#[test]
fn places_0_1_n_and_the_one_behind() {
    let mut kinds = BTreeSet::new();
    for exercise in exercises() {
        let [_, high, low, ..] = exercise.sheet[..] else {
            continue;
        };
        let n = u16::from_be_bytes([high, low]);
        if let [("place", place)] = fields(&exercise.output)[..] {
            kinds.insert(match place {
                "0" => "0",
                "1" => "1",
                _ if place == n.to_string() => "n",
                _ if place == (n + 1).to_string() => "n + 1",
                _ => "another",
            });
        }
    }
    assert!(kinds.into_iter().eq(["0", "1", "another", "n", "n + 1"]));
}
