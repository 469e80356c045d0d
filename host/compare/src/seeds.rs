//! seeds.rs: for one seed, both engines on what comes of it. An error says what differs and how to see it again.

use harness::calls::{answers, calls, Calls};
use harness::difference::{self, Expected};
use harness::shrink::shrink;
use harness::{plain, sheets};
use independent::hex::to_hex;
use independent::random::Random;
use independent::report::c_call;
use independent::sheet::read_sheet;

/// A difference, with what is needed to look at it.
fn said(kind: &str, seed: u64, what: &str, bytes: &[u8]) -> String {
    let hex = to_hex(&bytes[..bytes.len().min(400)]);
    let dots = if bytes.len() > 400 { ".." } else { "" };
    format!("{kind}, seed {seed}: {what}\n  bytes {hex}{dots}")
}

/// The C call on a sheet, at the lengths of the buffer that matter.
fn report(kind: &str, seed: u64, sheet: &[u8]) -> Result<Expected, String> {
    let differs = |sheet: &[u8]| difference::compare(c_call, proved::report, sheet).is_err();
    let told = difference::compare(c_call, proved::report, sheet);
    told.map_err(|what| said(kind, seed, &what, &shrink(sheet, differs)))
}

/// A good sheet of this seed.
pub fn generated(seed: u64) -> Result<Expected, String> {
    report("generated", seed, &sheets::generated(seed))
}

/// A damaged sheet of this seed.
pub fn damaged(seed: u64) -> Result<Expected, String> {
    report("damaged", seed, &sheets::damaged(seed))
}

/// A good sheet of this seed, at every length of the buffer from 0 to what it needs and 8 more.
pub fn all_lengths(seed: u64) -> Result<(), String> {
    let sheet = sheets::generated(seed);
    let told = difference::compare_all_lengths(c_call, proved::report, &sheet);
    told.map(drop)
        .map_err(|what| said("every length", seed, &what, &sheet))
}

/// A good sheet of this seed, cut short at every byte: whatever is left out, the table or a body is not wholly there.
pub fn all_cuts(seed: u64) -> Result<(), String> {
    let sheet = sheets::generated(seed);
    for length in 0..sheet.len() {
        let cut = &sheet[..length];
        if report("cut short", seed, cut)?.number < 12 * 65_536 {
            return Err(said("cut short", seed, "good all the same", cut));
        }
    }
    Ok(())
}

/// Direct calls of these seeds, many lists to a process, all compared; gives how often each answer 0 to 11 came.
pub fn direct(seeds: impl IntoIterator<Item = u64>) -> Result<[usize; 12], String> {
    let mut seen = [0; 12];
    let (mut row, mut of) = (Vec::new(), Vec::new());
    for seed in seeds {
        let bytes = calls(seed).bytes();
        if row.len() + bytes.len() > proved::LONGEST_CALLS {
            direct_row(&row, &of, &mut seen)?;
            row.clear();
            of.clear();
        }
        row.extend(bytes);
        of.push(seed);
    }
    direct_row(&row, &of, &mut seen)?;
    Ok(seen)
}

/// One row of lists; where it differs, the first seed that differs alone, with its list at its shortest.
fn direct_row(row: &[u8], of: &[u64], seen: &mut [usize; 12]) -> Result<(), String> {
    let (is, was) = (proved::calls(row)?, answers(row));
    for record in was.chunks(3) {
        seen[usize::from(record[0])] += 1;
    }
    if is == was {
        return Ok(());
    }
    let differs = |list: &Calls| proved::calls(&list.bytes()) != Ok(answers(&list.bytes()));
    let Some(&seed) = of.iter().find(|&&seed| differs(&calls(seed))) else {
        let (first, last) = (of.first(), of.last());
        return Err(format!(
            "direct calls, seeds {first:?} to {last:?}: only all together"
        ));
    };
    let bytes = calls(seed).shrink(differs).bytes();
    let (is, was) = (proved::calls(&bytes)?, answers(&bytes));
    let what = format!("{is:?}, expected {was:?}");
    Err(said("direct calls", seed, &what, &bytes))
}

/// Three byte strings of this seed through the reader: a good sheet, a damaged one, and noise. Gives each answer, 0 or 12.
pub fn reader(seed: u64) -> Result<Vec<u32>, String> {
    let mut answers = Vec::new();
    for bytes in [
        sheets::generated(seed),
        sheets::damaged(seed),
        sheets::noise(seed),
    ] {
        let (is, was) = (proved::check(&bytes), plain::check(&bytes));
        if is != was {
            let what = format!("{is}, expected {was}");
            return Err(said("reader", seed, &what, &bytes));
        }
        answers.push(was / 65_536);
    }
    Ok(answers)
}

/// What the writer is handed: less than half of it can be written.
struct Handed {
    policy: u8,
    count: u16,
    commands: Vec<u8>,
}

/// The commands of a good sheet as records, then something wrong with them, or nothing.
fn handed(random: &mut Random, sheet: &[u8]) -> Handed {
    let sheet = read_sheet(sheet).expect("a generated sheet is good");
    let mut commands = Vec::new();
    for command in sheet.raw_commands() {
        // What stands behind the body is not looked at.
        let mut record = [random.byte(); 6];
        record[0] = command.number;
        record[1] = command.body.len() as u8;
        record[2..2 + command.body.len()].copy_from_slice(&command.body);
        commands.extend(record);
    }
    let count = sheet.commands.len() as u16;
    let mut handed = Handed {
        policy: sheet.policy.byte(),
        count,
        commands,
    };
    match random.below(8) {
        0 => handed.policy = random.byte(),
        1 => handed.count = handed.count.wrapping_add(random.byte() as u16 % 3),
        2 => handed.count = [0, 4_096, 4_097, 65_535][random.below(4)],
        3 | 4 if !handed.commands.is_empty() => {
            let at = random.below(handed.commands.len());
            handed.commands[at] = random.byte() % 13;
        }
        5 => {
            let left = random.below(handed.commands.len() + 1);
            handed.commands.truncate(left);
        }
        _ => {}
    }
    handed
}

/// Records without a plan.
fn noise(random: &mut Random, seed: u64) -> Handed {
    Handed {
        policy: random.byte() % 4,
        count: random.below(10) as u16,
        commands: sheets::noise(seed),
    }
}

/// Five lists of commands of this seed through the writer, each into buffers of several lengths. Gives each answer, 0, 12 or 13.
pub fn writer(seed: u64) -> Result<Vec<u32>, String> {
    let mut random = Random::new(seed);
    let sheet = sheets::generated(seed);
    let mut answers = Vec::new();
    for list in 0..5 {
        let handed = match list {
            0 => noise(&mut random, seed),
            _ => handed(&mut random, &sheet),
        };
        let told = written(&mut random, &handed);
        answers.extend(told.map_err(|what| said("writer", seed, &what, &handed.commands))?);
    }
    Ok(answers)
}

fn written(random: &mut Random, handed: &Handed) -> Result<Vec<u32>, String> {
    let (policy, count, commands) = (handed.policy, handed.count, &handed.commands);
    let mut room = vec![0; proved::LONGEST_SHEET];
    let needed = match plain::write(policy, count, commands, &mut room) {
        number if number < 65_536 => number as usize,
        _ => 40,
    };
    let mut answers = Vec::new();
    for length in [needed + 8, needed, needed - 1, random.below(needed), 0] {
        let mut is = vec![0xA5; length + 16];
        let mut was = is.clone();
        let number = proved::write(policy, count, commands, &mut is[8..length + 8]);
        let wanted = plain::write(policy, count, commands, &mut was[8..length + 8]);
        if number != wanted || is != was {
            let how = format!("policy {policy}, count {count}, {length} bytes lent");
            return Err(format!("{how}: {number}, expected {wanted}"));
        }
        answers.push(wanted / 65_536);
    }
    Ok(answers)
}
