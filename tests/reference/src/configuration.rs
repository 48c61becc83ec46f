//! A configuration: the engines with their values and processes, and the serials issued so far.

use crate::expression::Values;
use crate::measure;
use crate::process::Part;

/// The words n and issued stand before the first engine.
pub const WORDS_BEFORE_ENGINES: usize = 2;
/// 32 values of two words each stand before an engine's process.
pub const WORDS_OF_VALUES: usize = 64;

#[derive(Clone, Debug, PartialEq, Eq)]
pub struct Configuration {
    pub issued: u16,
    pub engines: Vec<Engine>,
}

#[derive(Clone, Debug, PartialEq, Eq)]
pub struct Engine {
    pub values: Values,
    pub process: Part,
}

impl Configuration {
    pub fn size(&self) -> usize {
        let engines = self.engines.iter().map(|e| WORDS_OF_VALUES + measure::size(&e.process));
        WORDS_BEFORE_ENGINES + engines.sum::<usize>()
    }

    pub fn depth(&self) -> usize {
        self.engines.iter().map(|e| measure::depth(&e.process)).max().unwrap_or(0)
    }

    /// Where the engine's process begins, in words from the configuration's start.
    pub fn process_start(&self, engine: usize) -> usize {
        let before = self.engines.iter().take(engine);
        let words = before.map(|e| WORDS_OF_VALUES + measure::size(&e.process)).sum::<usize>();
        WORDS_BEFORE_ENGINES + words + WORDS_OF_VALUES
    }
}
