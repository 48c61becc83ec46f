//! What a call is made on: a configuration's bytes and where they come from, so that a difference
//! can be repeated.

use crate::cabinet::Cabinet;
use reference::Numbers;
use std::fmt;

/// Class of the input, the seed that it is made from, and the step of the run.
#[derive(Clone, Copy, Debug)]
pub struct Source {
    pub class: &'static str,
    pub seed: u64,
    pub step: usize,
}

#[derive(Clone, Copy, Debug)]
pub struct Input<'a> {
    pub source: Source,
    pub config: &'a [u8],
}

/// A call, without its configuration; a bill has none, and is given by lengths. One that is lent an
/// index is given by its name and the index's length.
#[derive(Clone, Copy, Debug)]
pub enum Call {
    CheckStart { cabinet: Cabinet },
    CheckReadable { cabinet: Cabinet },
    Ends { serial: u16 },
    WindowNext { width: u16, number: u8, fault: u8, operation: u16, length: usize },
    WindowCount { operation: u16, length: usize },
    Process { engine: u16 },
    Pending { engine: u16, position: u16 },
    Step { cabinet: Cabinet, numbers: Numbers, output: usize },
    Bill { rates: usize, replies: usize, totals: usize },
    Indexed { call: &'static str, index: usize },
    Join { newcomer: usize, output: usize },
    Leave { output: usize },
    Translate { output: usize },
    Keeper { engines: u8, serial: u16, k: u16, scratch: usize },
}

/// Bytes of a configuration that are printed; the seed gives the others.
const PRINTED: usize = 4096;

impl fmt::Display for Source {
    fn fmt(&self, to: &mut fmt::Formatter) -> fmt::Result {
        write!(to, "{}, seed {}, step {}", self.class, self.seed, self.step)
    }
}

impl fmt::Display for Input<'_> {
    fn fmt(&self, to: &mut fmt::Formatter) -> fmt::Result {
        write!(to, "{}; {} bytes: ", self.source, self.config.len())?;
        for byte in self.config.iter().take(PRINTED) {
            write!(to, "{byte:02x}")?;
        }
        Ok(())
    }
}
