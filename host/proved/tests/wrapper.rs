//! The safe functions on exercise A of document 01 and on its neighbours.

use proved::{calls, check, report, report_of, write, Reply};

const SHEET: [u8; 22] = [
    0, 0, 4, 1, 0, 15, 1, 0, 16, 2, 0, 17, 5, 0, 19, 0x19, 0x10, 0, 1, 0, 0, 2,
];
const REPORT: [u8; 18] = [0, 4, 0, 1, 0, 0, 0, 0, 0, 1, 0, 0, 2, 0, 0, 1, 0, 1];

#[test]
fn exercise_a() {
    assert_eq!(check(&SHEET), 4);
    assert_eq!(report_of(&SHEET), Ok(REPORT.to_vec()));
    let mut buffer = [0xA5; 20];
    assert_eq!(report(&SHEET, &mut buffer), 18);
    assert_eq!(
        (&buffer[..18], &buffer[18..]),
        (&REPORT[..], &[0xA5; 2][..])
    );
    assert_eq!(report(&SHEET, &mut [0; 17]), 13 * 65_536);
}

#[test]
fn exercise_a_written() {
    let commands = [
        [1, 1, 0x19, 0, 0, 0],
        [1, 1, 0x10, 9, 9, 9],
        [2, 2, 0, 1, 0, 0],
        [5, 3, 0, 0, 2, 0],
    ];
    let mut sheet = [0xA5; 24];
    assert_eq!(write(0, 4, commands.as_flattened(), &mut sheet), 22);
    assert_eq!((&sheet[..22], &sheet[22..]), (&SHEET[..], &[0xA5; 2][..]));
}

#[test]
fn malformed_and_empty() {
    assert_eq!(report_of(&SHEET[..21]), Err(Reply::Malformed(4)));
    assert_eq!(report_of(&[]), Err(Reply::Malformed(0)));
    assert_eq!(check(&[]), 12 * 65_536);
    assert_eq!(write(3, 0, &[], &mut []), 12 * 65_536);
    assert_eq!(write(2, 0, &[], &mut []), 13 * 65_536);
    assert_eq!(write(2, 0, &[], &mut [0; 3]), 3);
}

#[test]
fn numbers_taken_apart() {
    assert_eq!(Reply::from_number(18), Some(Reply::Done(18)));
    assert_eq!(Reply::from_number(786_437), Some(Reply::Malformed(5)));
    assert_eq!(Reply::from_number(851_968), Some(Reply::TooShort));
    assert_eq!(Reply::from_number(851_969), None);
    assert_eq!(Reply::from_number(65_536), None);
}

/// GENERATE 25, GENERATE 16, WRAP 0 1, DECRYPT 0 2 by direct calls, under the policies 0 and 3.
#[test]
fn exercise_a_by_direct_calls() {
    let four = [1, 1, 25, 1, 1, 16, 2, 2, 0, 1, 5, 3, 0, 0, 2];
    let row = [&[0, 0, 4][..], &four, &[3, 0, 4], &four].concat();
    let wanted = [&REPORT[4..16], &[1, 0, 0].repeat(4)].concat();
    assert_eq!(calls(&row), Ok(wanted));
}
