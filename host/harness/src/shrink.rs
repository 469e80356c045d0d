//! shrink.rs: a sheet on which two engines differ, made as short as it gets by leaving out commands.

use independent::sheet::{read_sheet, Sheet};

/// Leaves out commands, many at first and then one by one, as long as the sheet still differs. A malformed sheet stays.
pub fn shrink(bytes: &[u8], differs: impl Fn(&[u8]) -> bool) -> Vec<u8> {
    let Ok(mut sheet) = read_sheet(bytes) else {
        return bytes.to_vec();
    };
    let mut step = sheet.commands.len().max(1);
    while step >= 1 {
        let mut at = 0;
        while at < sheet.commands.len() {
            let mut commands = sheet.commands.clone();
            commands.drain(at..(at + step).min(sheet.commands.len()));
            let shorter = Sheet { commands, ..sheet };
            match shorter.to_bytes() {
                Ok(bytes) if differs(&bytes) => sheet = shorter,
                _ => at += step,
            }
        }
        step /= 2;
    }
    sheet.to_bytes().unwrap_or_else(|_| bytes.to_vec())
}
