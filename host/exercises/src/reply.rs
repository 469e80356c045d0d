//! reply.rs: the C call's number and report bytes that an output of `rounds` stands for. The output has all that a report
//! has, so one text, worked out by hand, serves both.

/// What the C call has to give back for a sheet, where the buffer is long enough.
#[derive(Clone, PartialEq, Eq, Debug)]
pub struct Reply {
    /// Answer times 65,536, plus the report's length or the place.
    pub number: u32,
    /// Empty for a malformed sheet.
    pub report: Vec<u8>,
}

impl Reply {
    pub fn from_output(output: &str) -> Result<Reply, String> {
        if let Some(place) = output.strip_prefix("refused 12 place ") {
            let place = u32::from(number(place.trim_end())?);
            return Ok(Reply {
                number: 12 * 65_536 + place,
                report: Vec::new(),
            });
        }
        let report = report(output)?;
        Ok(Reply {
            number: report.len() as u32,
            report,
        })
    }
}

fn number(word: &str) -> Result<u16, String> {
    word.parse().map_err(|_| format!("'{word}' is no number"))
}

/// n, m, a record for each line of a command, the number of each line of a key.
fn report(output: &str) -> Result<Vec<u8>, String> {
    let (mut records, mut keys) = (Vec::new(), Vec::new());
    let (mut count, mut known) = (None, None);
    for line in output.lines() {
        let words: Vec<&str> = line.split(' ').collect();
        match words[..] {
            ["policy", _, "commands", n] => count = Some(number(n)?),
            ["done", _, "refused", _] => {}
            ["known", m] => known = Some(number(m)?),
            ["key", key, _] => keys.extend(number(key)?.to_be_bytes()),
            [_, _, answer, value] => {
                let answer = u8::try_from(number(answer)?).map_err(|_| "an answer above 255")?;
                records.push(answer);
                records.extend(number(value)?.to_be_bytes());
            }
            _ => return Err(format!("'{line}' is no line of an output")),
        }
    }
    let (n, m) = (count.ok_or("no line 'policy'")?, known.ok_or("no 'known'")?);
    if records.len() != 3 * usize::from(n) || keys.len() != 2 * usize::from(m) {
        return Err("lines are missing, or too many".to_string());
    }
    Ok([&n.to_be_bytes()[..], &m.to_be_bytes(), &records, &keys].concat())
}
