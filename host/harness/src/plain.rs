//! plain.rs: the sheet's reader and writer in a few lines, from document 01's section "Sheet and report" alone and with no
//! help from either engine. The C calls `vachodien_check` and `vachodien_write` are compared with these.

/// Body lengths of the commands 1 to 10.
const BODY: [usize; 10] = [1, 2, 4, 3, 3, 1, 1, 0, 0, 4];

fn body_length(number: u8) -> Option<usize> {
    let index = usize::from(number).checked_sub(1)?;
    BODY.get(index).copied()
}

/// The count of a good sheet, or 12 times 65,536 plus the first fault's place.
pub fn check(sheet: &[u8]) -> u32 {
    match first_fault(sheet) {
        Some(place) => 12 * 65_536 + place as u32,
        None => u32::from(sheet[1]) * 256 + u32::from(sheet[2]),
    }
}

fn first_fault(sheet: &[u8]) -> Option<usize> {
    if sheet.len() < 3 || sheet[0] > 2 {
        return Some(0);
    }
    let two = |at: usize| usize::from(sheet[at]) * 256 + usize::from(sheet[at + 1]);
    let n = two(1);
    if n > 4_096 || 3 + 3 * n > sheet.len() {
        return Some(0);
    }
    let mut end = 3 + 3 * n;
    for i in 1..=n {
        let entry = 3 * i;
        match body_length(sheet[entry]) {
            Some(length) if two(entry + 1) == end && end + length <= sheet.len() => end += length,
            _ => return Some(i),
        }
    }
    (end < sheet.len()).then_some(n + 1)
}

/// The writer on records of six bytes: number, body length, and four bytes of which the first so many are the body. Gives
/// the number of the C call and leaves in `sheet` what has to be there after it.
pub fn write(policy: u8, count: u16, commands: &[u8], sheet: &mut [u8]) -> u32 {
    if policy > 2 || count > 4_096 {
        return 12 * 65_536;
    }
    let n = usize::from(count);
    let (mut table, mut bodies) = (vec![], vec![]);
    for i in 0..n {
        let record = commands.get(6 * i..6 * i + 6);
        let right = |r: &&[u8]| body_length(r[0]) == Some(usize::from(r[1]));
        let Some(record) = record.filter(right) else {
            return 12 * 65_536 + i as u32 + 1;
        };
        let offset = 3 + 3 * n + bodies.len();
        table.extend([record[0], (offset / 256) as u8, (offset % 256) as u8]);
        bodies.extend(&record[2..2 + usize::from(record[1])]);
    }
    let header = [policy, (n / 256) as u8, (n % 256) as u8];
    let whole = [&header[..], &table, &bodies].concat();
    if whole.len() > sheet.len() {
        return 13 * 65_536;
    }
    sheet[..whole.len()].copy_from_slice(&whole);
    whole.len() as u32
}
