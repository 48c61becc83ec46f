//! Translating on both sides: the library's answer and every byte of output are the second
//! implementation's, a refusal changes no byte, what is accepted passes the start check, and all else that was lent stays as it was.

use crate::engines::Left;
use crate::exported;
use crate::input::{Call, Source};
use crate::memory::Memory;
use crate::memory_fault;
use reference::planning;
use reference::Numbers;
use std::collections::BTreeMap;

pub struct Office<M> {
    memory: M,
    /// Where the next calls' input comes from.
    pub source: Source,
    /// By class: the number answered.
    met: BTreeMap<(&'static str, u8), u64>,
}

impl<M: Memory> Office<M> {
    pub fn new(memory: M) -> Office<M> {
        Office { memory, source: Source { class: "", seed: 0, step: 0 }, met: BTreeMap::new() }
    }

    pub fn translate(&mut self, config: &[u8], output: &[u8]) -> Left {
        let mut expected = output.to_vec();
        let answer = planning::sock_translate(config, &mut expected);
        let lent = self.memory.configuration(config);
        let lent_output = self.memory.output(output);
        let call = Call::Translate { output: output.len() };
        memory_fault::entering(self.source, call);
        let given = exported::translate(lent, lent_output);
        assert_eq!(given, answer, "{}: {call:?} of {config:x?}", self.source);
        assert!(lent.bytes() == config, "{}: the configuration has changed", self.source);
        assert!(lent_output.bytes() == expected, "{}: output of {call:?}", self.source);
        assert!(self.memory.intact(), "{}: {call:?} wrote outside", self.source);
        let left = Left { answer, output: expected };
        assert!(left.number() == 0 || left.output == output, "{}: a refusal wrote", self.source);
        assert_eq!(left.answer >> 16 & 0xff_ffff_ffff, 0, "{}: zero bits", self.source);
        *self.met.entry((self.source.class, left.number())).or_insert(0) += 1;
        if left.number() == 0 {
            let start = self.memory.configuration(left.result());
            assert_eq!(exported::check_start(start), 0, "{}: no start", self.source);
        }
        left
    }

    /// No other call reads a plan that has a fixed scope.
    pub fn others_refuse(&mut self, config: &[u8]) {
        let lent = self.memory.configuration(config);
        let output = self.memory.output(&[7; 64]);
        assert_eq!(exported::check_readable(lent), 1, "{}: read", self.source);
        assert_eq!(exported::check_start(lent), 1, "{}: a start", self.source);
        assert_eq!(exported::step(Numbers::default(), lent, output), 1 << 56, "{}", self.source);
        assert_eq!(exported::ends(lent, 1), 1 << 56, "{}: ends", self.source);
        assert_eq!(exported::process(lent, 0), 0, "{}: a process", self.source);
        assert_eq!(exported::pending(lent, 0, 0), 1 << 56, "{}: pending", self.source);
        assert_eq!(exported::leave(lent, output), 1 << 56, "{}: leave", self.source);
    }

    /// Prints what was met and fails unless each of these was, at least so often.
    pub fn report(&self, test: &str, wanted: &[(&'static str, u8, u64)]) {
        println!("{test}: {:?}", self.met);
        for (class, number, least) in wanted {
            let count = self.met.get(&(*class, *number)).copied().unwrap_or(0);
            assert!(count >= *least, "{test}: {class} was {number} only {count} times");
        }
    }
}
