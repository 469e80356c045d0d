//! brackets.rs: a line with brackets, each of which counts, spread to the lines it stands for.

/// How the ends of a bracket are written, and so the numbers it gives.
#[derive(Clone, Copy, PartialEq, Eq)]
pub enum Ends {
    Decimal,
    /// As many digits as the first end has.
    Hexadecimal,
}

/// The lines that a line stands for: itself if it has no bracket.
pub fn spread(line: &str, ends: Ends) -> Result<Vec<String>, String> {
    let mut lines: Option<Vec<String>> = None;
    let mut plain = vec![String::new()];
    let mut rest = line;
    while let Some((before, behind)) = rest.split_once('[') {
        let (inside, after) = behind.split_once(']').ok_or("a bracket is not closed")?;
        let numbers = count(inside, ends)?;
        let so_far = lines.unwrap_or_else(|| vec![plain[0].clone(); numbers.len()]);
        if so_far.len() != numbers.len() {
            return Err(format!("{} and {} numbers", so_far.len(), numbers.len()));
        }
        let join = |(line, number): (String, String)| line + before + &number;
        lines = Some(so_far.into_iter().zip(numbers).map(join).collect());
        rest = after;
    }
    let all = lines.as_mut().unwrap_or(&mut plain);
    all.iter_mut().for_each(|line| line.push_str(rest));
    Ok(all.clone())
}

/// The numbers of one bracket: `a..b`, `a..b by c` or `a*n`.
fn count(inside: &str, ends: Ends) -> Result<Vec<String>, String> {
    let no = || format!("'[{inside}]' is no bracket");
    if let Some((number, times)) = inside.split_once('*') {
        let times: usize = times.parse().map_err(|_| no())?;
        return Ok(vec![number.to_string(); times]);
    }
    let (first, rest) = inside.split_once("..").ok_or_else(no)?;
    let (last, step) = rest.split_once(" by ").unwrap_or((rest, "1"));
    let radix = if ends == Ends::Decimal { 10 } else { 16 };
    let number = |text: &str| u32::from_str_radix(text, radix).map_err(|_| no());
    let (from, to) = (number(first)?, number(last)?);
    let step: usize = step.parse().map_err(|_| no())?;
    if step == 0 || !(from.abs_diff(to) as usize).is_multiple_of(step) {
        return Err(no());
    }
    let numbers: Vec<u32> = match from <= to {
        true => (from..=to).step_by(step).collect(),
        false => (to..=from).rev().step_by(step).collect(),
    };
    let show = |number: u32| match ends {
        Ends::Decimal => number.to_string(),
        Ends::Hexadecimal => format!("{number:0width$X}", width = first.len()),
    };
    Ok(numbers.into_iter().map(show).collect())
}
