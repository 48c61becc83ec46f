//! The two cabinets of document 02, i: the calls that each exports for itself, and its limits. A test
//! over such a call is made for either.

use crate::exported;
use crate::memory::Lent;
use reference::journal::journal_enough;
use reference::{Limits, Numbers, SMALL, STANDARD};

#[derive(Clone, Copy, Debug, PartialEq, Eq)]
pub enum Cabinet {
    Large,
    /// The swing bridge's.
    Small,
}

pub const CABINETS: [Cabinet; 2] = [Cabinet::Large, Cabinet::Small];

impl Cabinet {
    pub fn limits(self) -> Limits {
        match self {
            Cabinet::Large => STANDARD,
            Cabinet::Small => SMALL,
        }
    }

    /// The bytes of the longest configuration.
    pub fn longest(self) -> usize {
        2 * self.limits().words
    }

    /// The bytes of a journal that is enough for every step.
    pub fn journal(self) -> usize {
        2 * journal_enough(&self.limits())
    }

    /// The test's name with the cabinet's, if that is not the large one.
    pub fn named(self, test: &str) -> String {
        match self {
            Cabinet::Large => test.to_string(),
            Cabinet::Small => format!("{test}, small"),
        }
    }

    pub fn step(self, numbers: Numbers, config: Lent, output: Lent) -> u64 {
        match self {
            Cabinet::Large => exported::step(numbers, config, output),
            Cabinet::Small => exported::step_small(numbers, config, output),
        }
    }

    pub fn step_journal(self, numbers: Numbers, config: Lent, output: Lent, journal: Lent) -> u64 {
        match self {
            Cabinet::Large => exported::step_journal(numbers, config, output, journal),
            Cabinet::Small => exported::step_journal_small(numbers, config, output, journal),
        }
    }

    pub fn check_start(self, config: Lent) -> u8 {
        match self {
            Cabinet::Large => exported::check_start(config),
            Cabinet::Small => exported::check_start_small(config),
        }
    }

    pub fn check_readable(self, config: Lent) -> u8 {
        match self {
            Cabinet::Large => exported::check_readable(config),
            Cabinet::Small => exported::check_readable_small(config),
        }
    }
}
