//! generate.rs: sheets from a seed. A model (the engine itself) is run along, so that
//! most commands are done; some are meant to be refused, in every way.

use crate::command::Command;
use crate::engine::{Token, MOST_HANDLES};
use crate::policy::Policy;
use crate::propose::{propose, Intent};
use crate::provoke::{noise, provoke, spoilt};
use crate::random::Random;
use crate::sheet::Sheet;

/// What a sheet dwells on.
#[derive(Clone, Copy, PartialEq, Eq, Debug)]
enum Style {
    Mixed,
    /// Wraps first, corruption in the last quarter only.
    LateCorruption,
    /// Handles destroyed, their numbers used again, keys imported again.
    Churn,
    /// Seals in seals, sealed, encrypted and decrypted.
    Nested,
    /// All 256 handles live, then mixed.
    ManyHandles,
    /// All 1,024 terms, then mixed.
    ManyTerms,
}

/// From how many commands on a sheet can fill up the one or the other, and go on.
const MANY_HANDLES_FROM: usize = 400;
const MANY_TERMS_FROM: usize = 1_400;

const INTENTS: [Intent; 10] = [
    Intent::Generate,
    Intent::Wrap,
    Intent::Unwrap,
    Intent::Encrypt,
    Intent::Decrypt,
    Intent::Corrupt,
    Intent::Destroy,
    Intent::OwnKey,
    Intent::OwnData,
    Intent::Seal,
];

/// What the next command depends on.
struct Course {
    policy: Policy,
    style: Style,
    commands: usize,
    model: Token,
    so_far: Vec<Command>,
}

/// A sheet of at most so many commands: every second one has exactly so many.
pub fn generate(random: &mut Random, most_commands: usize) -> Sheet {
    let policy = Policy::ALL[random.below(3)];
    let style = pick_style(random, most_commands);
    let filling = matches!(style, Style::ManyHandles | Style::ManyTerms);
    let commands = match filling || random.once_in(2) {
        true => most_commands,
        false => random.below(most_commands + 1),
    };
    let mut course = Course {
        policy,
        style,
        commands,
        model: Token::new(),
        so_far: Vec::new(),
    };
    while course.so_far.len() < commands {
        let command = course.next(random);
        // Done or refused, the command stays in the sheet.
        let _ = course.model.step(policy, &command);
        course.so_far.push(command);
    }
    Sheet {
        policy,
        commands: course.so_far,
    }
}

fn pick_style(random: &mut Random, most_commands: usize) -> Style {
    if most_commands >= MANY_TERMS_FROM && random.once_in(3) {
        return Style::ManyTerms;
    }
    if most_commands >= MANY_HANDLES_FROM && random.once_in(3) {
        return Style::ManyHandles;
    }
    match random.below(5) {
        0 => Style::LateCorruption,
        1 => Style::Churn,
        2 => Style::Nested,
        _ => Style::Mixed,
    }
}

impl Course {
    /// Whether the sheet is still on its way to 256 handles or 1,024 terms.
    fn filling(&self) -> bool {
        match self.style {
            Style::ManyHandles => self.model.handles().len() < MOST_HANDLES,
            Style::ManyTerms => !self.model.terms().is_full(),
            _ => false,
        }
    }

    fn next(&self, random: &mut Random) -> Command {
        let choices = if self.filling() { 72 } else { 24 };
        let aside = match random.below(choices) {
            0 | 1 => provoke(random, self.policy, &self.model),
            2 => {
                let intent = self.intent(random);
                spoilt(random, self.policy, &self.model, intent)
            }
            3 if random.once_in(2) => Some(noise(random, &self.model)),
            4 => random.pick_late(&self.so_far),
            _ => None,
        };
        aside.unwrap_or_else(|| self.done(random))
    }

    /// A command that is done, as the style wants it.
    fn done(&self, random: &mut Random) -> Command {
        for _ in 0..6 {
            let intent = self.intent(random);
            if let Some(command) = propose(random, self.policy, &self.model, intent) {
                return command;
            }
        }
        let start = propose(random, self.policy, &self.model, Intent::Generate);
        start.unwrap_or(Command::OwnData)
    }

    fn intent(&self, random: &mut Random) -> Intent {
        let weights = self.weights();
        let mut left = random.below(weights.iter().sum());
        for (intent, weight) in INTENTS.into_iter().zip(weights) {
            if left < weight {
                return intent;
            }
            left -= weight;
        }
        Intent::OwnData
    }

    /// How often each kind comes, in the order of `INTENTS`.
    fn weights(&self) -> [usize; 10] {
        let mixed = [5, 8, 5, 4, 4, 2, 4, 1, 1, 3];
        let late = 4 * self.so_far.len() >= 3 * self.commands;
        match self.style {
            Style::LateCorruption if late => [1, 2, 2, 2, 2, 6, 1, 1, 1, 2],
            Style::LateCorruption => [6, 12, 6, 3, 1, 0, 3, 0, 1, 0],
            Style::Churn => [8, 5, 8, 2, 2, 1, 10, 1, 1, 2],
            Style::Nested => [3, 3, 2, 9, 8, 1, 1, 1, 1, 9],
            Style::ManyHandles if self.filling() => [36, 4, 10, 2, 1, 0, 0, 1, 0, 1],
            Style::ManyTerms if self.filling() => [4, 6, 1, 10, 1, 1, 3, 3, 36, 14],
            _ => mixed,
        }
    }
}
