//! Joining and leaving on both sides: the library's answers and every byte of output are the second
//! implementation's, a refusal changes no byte, and all else that was lent stays as it was.

use crate::exported;
use crate::input::{Call, Source};
use crate::memory::Memory;
use crate::memory_fault;
use reference::engines;
use std::collections::BTreeMap;

/// What a call answered and left in the output.
#[derive(Clone, Debug, PartialEq, Eq)]
pub struct Left {
    pub answer: u64,
    pub output: Vec<u8>,
}

impl Left {
    pub fn number(&self) -> u8 {
        (self.answer >> 56) as u8
    }

    pub fn length(&self) -> usize {
        usize::from(self.answer as u16)
    }

    /// The result's bytes; none of a refusal.
    pub fn result(&self) -> &[u8] {
        &self.output[..2 * self.length()]
    }
}

/// Two memories: configurations and outputs are lent from the first, newcomers from the second.
pub struct House<M> {
    memory: M,
    newcomers: M,
    /// Where the next calls' input comes from.
    pub source: Source,
    /// By class: the call's name and the number answered.
    met: BTreeMap<(&'static str, &'static str, u8), u64>,
}

impl<M: Memory> House<M> {
    pub fn new([memory, newcomers]: [M; 2]) -> House<M> {
        let source = Source { class: "", seed: 0, step: 0 };
        House { memory, newcomers, source, met: BTreeMap::new() }
    }

    /// Counts the call; nothing around what was lent may have changed, and no byte by a refusal.
    fn made(&mut self, call: &'static str, left: Left, output: &[u8]) -> Left {
        let intact = self.memory.intact() && self.newcomers.intact();
        assert!(intact, "{}: {call} wrote outside", self.source);
        assert!(left.number() == 0 || left.output == output, "{}: a refusal wrote", self.source);
        assert_eq!(left.answer >> 16 & 0xff_ffff_ffff, 0, "{}: zero bits", self.source);
        *self.met.entry((self.source.class, call, left.number())).or_insert(0) += 1;
        left
    }

    pub fn join(&mut self, config: &[u8], newcomer: &[u8], output: &[u8]) -> Left {
        let mut expected = output.to_vec();
        let answer = engines::sock_join(config, newcomer, &mut expected);
        let lent = self.memory.configuration(config);
        let lent_output = self.memory.output(output);
        let lent_newcomer = self.newcomers.configuration(newcomer);
        let call = Call::Join { newcomer: newcomer.len(), output: output.len() };
        memory_fault::entering(self.source, call);
        let given = exported::join(lent, lent_newcomer, lent_output);
        assert_eq!(given, answer, "{}: {call:?}", self.source);
        assert!(lent.bytes() == config, "{}: the configuration has changed", self.source);
        assert!(lent_newcomer.bytes() == newcomer, "{}: the newcomer has changed", self.source);
        assert!(lent_output.bytes() == expected, "{}: output of {call:?}", self.source);
        self.made("join", Left { answer, output: expected }, output)
    }

    pub fn leave(&mut self, config: &[u8], output: &[u8]) -> Left {
        let mut expected = output.to_vec();
        let answer = engines::sock_leave(config, &mut expected);
        let lent = self.memory.configuration(config);
        let lent_output = self.memory.output(output);
        let call = Call::Leave { output: output.len() };
        memory_fault::entering(self.source, call);
        let given = exported::leave(lent, lent_output);
        assert_eq!(given, answer, "{}: {call:?}", self.source);
        assert!(lent.bytes() == config, "{}: the configuration has changed", self.source);
        assert!(lent_output.bytes() == expected, "{}: output of {call:?}", self.source);
        self.made("leave", Left { answer, output: expected }, output)
    }

    /// Prints what was met and fails unless each of these was, at least so often.
    pub fn report(&self, test: &str, wanted: &[(&'static str, &'static str, u8, u64)]) {
        println!("{test}: {:?}", self.met);
        for (class, call, number, least) in wanted {
            let count = self.met.get(&(*class, *call, *number)).copied().unwrap_or(0);
            assert!(count >= *least, "{test}: {class}, {call} was {number} only {count} times");
        }
    }
}
