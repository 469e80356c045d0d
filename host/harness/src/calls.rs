//! calls.rs: lists of direct calls from a seed, right and wrong ones, in the bytes that the program `direct` takes, and
//! the answers of the independent engine to them.

use independent::engine::Token;
use independent::generate::generate;
use independent::random::Random;
use independent::report::number_and_value;

/// A direct call: a command number and a body of any length.
#[derive(Clone, PartialEq, Eq, Debug)]
pub struct Call {
    pub number: u8,
    pub body: Vec<u8>,
}

/// Calls to a fresh token, all under one policy.
#[derive(Clone, PartialEq, Eq, Debug)]
pub struct Calls {
    pub policy: u8,
    pub calls: Vec<Call>,
}

/// The calls of a seed: a generated sheet's commands with wrong calls among them.
pub fn calls(seed: u64) -> Calls {
    let mut random = Random::new(seed ^ 0xCA11_0000_0000);
    let most = match seed {
        seed if seed.is_multiple_of(400) => 1_500,
        seed if seed.is_multiple_of(100) => 420,
        _ => 40,
    };
    let sheet = generate(&mut random, most);
    let mut policy = sheet.policy.byte();
    if random.once_in(40) {
        policy = 3 + random.byte() % 253;
    }
    let mut calls = Vec::new();
    for command in sheet.raw_commands() {
        if random.once_in(12) {
            calls.push(wrong(&mut random, command.number, &command.body));
        }
        calls.push(Call {
            number: command.number,
            body: command.body,
        });
    }
    Calls { policy, calls }
}

/// A call that is no command: a number of none, or a body too long or too short.
fn wrong(random: &mut Random, number: u8, body: &[u8]) -> Call {
    let mut call = Call {
        number,
        body: body.to_vec(),
    };
    match random.below(4) {
        0 => call.number = [0, 11, 255][random.below(3)],
        1 => call.number = 11 + random.byte() % 245,
        2 if !call.body.is_empty() => call.body.truncate(random.below(body.len())),
        _ => {
            let more = if random.once_in(8) { 255 } else { 5 };
            let longer = body.len() + 1 + random.below(more - body.len());
            call.body.resize(longer, random.byte());
        }
    }
    call
}

impl Calls {
    /// Policy, how many calls in two bytes, then for each its number, body length and body.
    pub fn bytes(&self) -> Vec<u8> {
        let count = u16::try_from(self.calls.len()).expect("few enough for two bytes");
        let mut bytes = vec![self.policy];
        bytes.extend(count.to_be_bytes());
        for call in &self.calls {
            bytes.push(call.number);
            bytes.push(call.body.len() as u8);
            bytes.extend(&call.body);
        }
        bytes
    }

    /// Leaves out calls, as long as the list still `differs`.
    pub fn shrink(mut self, differs: impl Fn(&Calls) -> bool) -> Calls {
        let mut step = self.calls.len().max(1);
        while step >= 1 {
            let mut at = 0;
            while at < self.calls.len() {
                let mut shorter = self.clone();
                shorter.calls.drain(at..(at + step).min(self.calls.len()));
                if differs(&shorter) {
                    self = shorter;
                } else {
                    at += step;
                }
            }
            step /= 2;
        }
        self
    }
}

/// What the independent engine answers to a row of such lists, three bytes a call: the answer, and the value in two. A row that is
/// cut off ends with its last whole call.
pub fn answers(row: &[u8]) -> Vec<u8> {
    let mut answers = Vec::new();
    let mut rest = row;
    while let [policy, high, low, calls @ ..] = rest {
        rest = calls;
        let mut token = Token::new();
        for _ in 0..u16::from_be_bytes([*high, *low]) {
            let [number, length, behind @ ..] = rest else {
                return answers;
            };
            let Some((body, behind)) = behind.split_at_checked(usize::from(*length)) else {
                return answers;
            };
            rest = behind;
            let (answer, value) = number_and_value(token.direct_call(*policy, *number, body));
            answers.push(answer);
            answers.extend(value.to_be_bytes());
        }
    }
    answers
}
