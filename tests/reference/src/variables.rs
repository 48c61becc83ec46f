//! The variables of a message (document 02, c): 1 to 4. The first stands in a head or in a fixed
//! word; behind the fixed words stand a count and a word for each further one.

use crate::expression::{assign, value, Values};

/// The most variables of a message.
pub const MOST: usize = 4;

#[derive(Clone, Debug, PartialEq, Eq)]
pub struct Variables(pub Vec<u8>);

impl Variables {
    pub fn count(&self) -> usize {
        self.0.len()
    }

    pub fn first(&self) -> u8 {
        self.0.first().copied().unwrap_or(0)
    }

    /// Those behind the first.
    pub fn further(&self) -> &[u8] {
        self.0.get(1..).unwrap_or(&[])
    }

    /// The count word, and a word for each further variable.
    pub fn words(&self) -> usize {
        1 + self.further().len()
    }

    /// Whether none stands twice, as a list that receives must be.
    pub fn are_distinct(&self) -> bool {
        let before = |index: usize| self.0.iter().take(index);
        self.0.iter().enumerate().all(|(index, each)| before(index).all(|other| other != each))
    }

    pub fn values(&self, values: &Values) -> Vec<u32> {
        self.0.iter().map(|each| value(values, *each)).collect()
    }

    /// Each takes its value, in turn.
    pub fn take(&self, values: &mut Values, message: &[u32]) {
        for (each, sent) in self.0.iter().zip(message) {
            assign(values, *each, *sent);
        }
    }
}

impl From<u8> for Variables {
    fn from(one: u8) -> Variables {
        Variables(vec![one])
    }
}

impl<const COUNT: usize> From<[u8; COUNT]> for Variables {
    fn from(all: [u8; COUNT]) -> Variables {
        Variables(all.to_vec())
    }
}

impl From<Vec<u8>> for Variables {
    fn from(all: Vec<u8>) -> Variables {
        Variables(all)
    }
}
