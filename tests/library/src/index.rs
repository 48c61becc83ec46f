//! The index of open requests on both sides: the library's answers and every byte of output, journal
//! and index are the second implementation's, a refusal changes no byte of anything, and all around
//! what was lent stays as it was.

use crate::exported;
use crate::input::{Call, Source};
use crate::memory::Memory;
use crate::memory_fault;
use reference::index;
use reference::Numbers;
use std::collections::BTreeMap;

/// What a call answered and left in what it was lent.
#[derive(Clone, Debug)]
pub struct Left {
    pub answer: u64,
    pub output: Vec<u8>,
    pub journal: Vec<u8>,
    pub index: Vec<u8>,
}

impl Left {
    pub fn number(&self) -> u8 {
        (self.answer >> 56) as u8
    }

    pub fn length(&self) -> usize {
        usize::from(self.answer as u16)
    }
}

/// Three memories: configurations and outputs are lent from the first, journals from the second,
/// indexes from the third.
pub struct Indexes<M> {
    memory: M,
    journals: M,
    indexes: M,
    /// Where the next calls' input comes from.
    pub source: Source,
    /// By class: the call's name and the number answered.
    met: BTreeMap<(&'static str, &'static str, u8), u64>,
}

impl<M: Memory> Indexes<M> {
    pub fn new([memory, journals, indexes]: [M; 3]) -> Indexes<M> {
        let source = Source { class: "", seed: 0, step: 0 };
        Indexes { memory, journals, indexes, source, met: BTreeMap::new() }
    }

    fn entering(&self, call: &'static str, index: &[u8]) {
        memory_fault::entering(self.source, Call::Indexed { call, index: index.len() });
    }

    /// Counts the call; nothing around what was lent may have changed.
    fn made(&mut self, call: &'static str, number: u8) {
        let around = [&self.memory, &self.journals, &self.indexes];
        assert!(around.iter().all(|memory| memory.intact()), "{} wrote outside", self.source);
        *self.met.entry((self.source.class, call, number)).or_insert(0) += 1;
    }

    pub fn begin(&mut self, config: &[u8], index: &[u8]) -> (u8, Vec<u8>) {
        let mut expected = index.to_vec();
        let number = index::sock_begin_index(config, &mut expected);
        let lent = self.memory.configuration(config);
        let lent_index = self.indexes.output(index);
        self.entering("begin", index);
        let answer = exported::begin_index(lent, lent_index);
        assert_eq!(answer, number, "{}: begin", self.source);
        assert!(lent.bytes() == config, "{}: the configuration has changed", self.source);
        assert!(lent_index.bytes() == expected, "{}: index begun", self.source);
        assert!(number == 0 || expected == index, "{}: a refusal wrote", self.source);
        self.made("begin", number);
        (number, expected)
    }

    pub fn step(
        &mut self,
        config: &[u8],
        numbers: Numbers,
        output: &[u8],
        journal: &[u8],
        index: &[u8],
    ) -> Left {
        let (mut out, mut noted, mut listed) = (output.to_vec(), journal.to_vec(), index.to_vec());
        let answer = index::sock_step_indexed(numbers, config, &mut out, &mut noted, &mut listed);
        let lent = self.memory.configuration(config);
        let lent_output = self.memory.output(output);
        let lent_journal = self.journals.output(journal);
        let lent_index = self.indexes.output(index);
        self.entering("step", index);
        let given = exported::step_indexed(numbers, lent, lent_output, lent_journal, lent_index);
        let source = self.source;
        assert_eq!(given, answer, "{source}: {numbers:?}");
        assert!(lent.bytes() == config, "{source}: the configuration has changed");
        assert!(lent_output.bytes() == out, "{source}: output of {numbers:?}");
        assert!(lent_journal.bytes() == noted, "{source}: journal of {numbers:?}");
        assert!(lent_index.bytes() == listed, "{source}: index after {numbers:?}");
        let left = Left { answer, output: out, journal: noted, index: listed };
        let same = left.output == output && left.journal == journal && left.index == index;
        assert!(left.number() == 0 || same, "{source}: a refusal wrote");
        self.made("step", left.number());
        left
    }

    pub fn back(&mut self, config: &[u8], journal: &[u8], output: &[u8], index: &[u8]) -> Left {
        let (mut out, mut listed) = (output.to_vec(), index.to_vec());
        let answer = index::sock_take_back_indexed(config, journal, &mut out, &mut listed);
        let lent = self.memory.configuration(config);
        let lent_output = self.memory.output(output);
        let lent_journal = self.journals.configuration(journal);
        let lent_index = self.indexes.output(index);
        self.entering("back", index);
        let given = exported::take_back_indexed(lent, lent_journal, lent_output, lent_index);
        let source = self.source;
        assert_eq!(given, answer, "{source}: taking back");
        assert!(lent.bytes() == config, "{source}: the configuration has changed");
        assert!(lent_journal.bytes() == journal, "{source}: the journal has changed");
        assert!(lent_output.bytes() == out, "{source}: output of taking back");
        assert!(lent_index.bytes() == listed, "{source}: index after taking back");
        let left = Left { answer, output: out, journal: journal.to_vec(), index: listed };
        let same = left.output == output && left.index == index;
        assert!(left.number() == 0 || same, "{source}: a refusal wrote");
        self.made("back", left.number());
        left
    }

    /// Both questions, of an index that is lent for reading only: the number, and how many and the
    /// oldest.
    pub fn ask(&mut self, index: &[u8]) -> (u8, [u16; 2]) {
        let lent = self.indexes.configuration(index);
        self.entering("questions", index);
        let count = exported::open_count(lent);
        let oldest = exported::oldest(lent);
        assert_eq!(count, index::sock_open_count(index), "{}: how many", self.source);
        assert_eq!(oldest, index::sock_oldest(index), "{}: the oldest", self.source);
        assert!(lent.bytes() == index, "{}: the index has changed", self.source);
        assert_eq!(count >> 56, oldest >> 56, "{}: one question refused", self.source);
        self.made("questions", (count >> 56) as u8);
        ((count >> 56) as u8, [count as u16, oldest as u16])
    }

    /// Prints what was met and fails unless each of these was, at least so often.
    pub fn report(&self, test: &str, wanted: &[(&'static str, &'static str, u8, u64)]) {
        println!("{test}: {:?}", self.met);
        for (class, call, number, least) in wanted {
            let count = self.met.get(&(*class, *call, *number)).copied().unwrap_or(0);
            assert!(count >= *least, "{test}: {class}, {call} was {number} only {count} times");
        }
    }
}
