//! Runs: a start and then calls of step, each with its numbers and its output's length. The
//! caller makes the calls, on any implementation, and hands the words back.

use crate::calls::{transition, Answer, Numbers};
use crate::configuration::Configuration;
use crate::generate::random::Random;
use crate::generate::{growth, running, start, steps};
use crate::limits::{Limits, STANDARD};
use crate::{readable, write};

/// What a run starts from.
#[derive(Clone, Copy, Debug, PartialEq, Eq)]
pub enum Origin {
    Fresh,
    /// Fresh, and grows until a result is too deep or too long.
    Growing,
    /// Readable, mostly not reachable.
    Readable,
    /// A fresh start's run with its serials changed.
    Renumbered,
}

pub const ORIGINS: &[Origin] =
    &[Origin::Fresh, Origin::Growing, Origin::Readable, Origin::Renumbered];

#[derive(Clone, Debug)]
pub struct Run {
    pub random: Random,
    /// The start's words, then those of the last accepted step.
    pub words: Vec<u16>,
    /// Of the cabinet that takes the steps.
    pub limits: Limits,
}

/// One call of step.
#[derive(Clone, Copy, Debug)]
pub struct Call {
    pub numbers: Numbers,
    pub room: usize,
}

impl Run {
    pub fn new(seed: u64, origin: Origin) -> Run {
        Run::within(&STANDARD, seed, origin)
    }

    /// A run in a cabinet with these limits; its start, made for any, may be beyond them.
    pub fn within(limits: &Limits, seed: u64, origin: Origin) -> Run {
        let mut random = Random::new(seed);
        let configuration = match origin {
            Origin::Fresh => start::fresh(&mut random),
            Origin::Growing if random.percent(50) => growth::deepening(&mut random),
            Origin::Growing => growth::lengthening(&mut random),
            Origin::Readable => running::readable(&mut random),
            Origin::Renumbered => {
                let walked = walked(&mut random);
                running::renumbered(&mut random, &walked)
            }
        };
        Run { random, words: write::configuration(&configuration), limits: *limits }
    }

    pub fn configuration(&self) -> Option<Configuration> {
        readable::read(&self.limits, &self.words)
    }

    /// The next call; None some calls after nothing fits any more, or if the words are not readable,
    /// which only a start beyond the limits is.
    pub fn call(&mut self) -> Option<Call> {
        let before = self.configuration()?;
        if steps::fitting(&before).is_empty() && self.random.percent(30) {
            return None;
        }
        let numbers = steps::choose(&mut self.random, &before);
        let length = match transition(&before, numbers) {
            Ok(result) => result.configuration.size(),
            Err(_) => self.words.len(),
        };
        let most = self.limits.words;
        let room = steps::room(&mut self.random, most, length.min(most));
        Some(Call { numbers, room })
    }

    /// Goes on with what the call answered and wrote.
    pub fn take(&mut self, answer: &Answer, output: &[u16]) {
        if answer.number == 0 {
            self.words = output.iter().take(usize::from(answer.length)).copied().collect();
        }
    }
}

/// What a few likely steps make of a fresh start.
fn walked(random: &mut Random) -> Configuration {
    let mut configuration = start::fresh(random);
    for _ in 0..random.below(30) {
        let numbers = steps::likely(random, &configuration);
        if let Ok(result) = transition(&configuration, numbers) {
            configuration = within(configuration, result.configuration);
        }
    }
    configuration
}

/// The later configuration if it is within the limits, else the earlier one.
fn within(earlier: Configuration, later: Configuration) -> Configuration {
    match later.depth() <= STANDARD.depth && later.size() <= STANDARD.words {
        true => later,
        false => earlier,
    }
}
