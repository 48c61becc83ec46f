//! The step with a journal and taking back, compared with the second implementation: the answer,
//! every byte of output and journal, and that nothing else changes.

use crate::cabinet::Cabinet;
use crate::exported;
use crate::memory::Memory;
use reference::journal;
use reference::Numbers;

/// What a call answered and left in what it was lent.
pub struct Left {
    pub answer: u64,
    pub output: Vec<u8>,
    pub journal: Vec<u8>,
}

impl Left {
    pub fn number(&self) -> u8 {
        (self.answer >> 56) as u8
    }

    pub fn length(&self) -> usize {
        usize::from(self.answer as u16)
    }
}

/// Two memories: one lends configuration and output, the other the journal. The step is the
/// cabinet's; what either has taken the large one takes back.
pub struct Journals<M: Memory> {
    pub cabinet: Cabinet,
    memory: M,
    journals: M,
    pub numbers: [usize; 256],
}

impl<M: Memory> Journals<M> {
    pub fn new(cabinet: Cabinet, memory: M, journals: M) -> Journals<M> {
        Journals { cabinet, memory, journals, numbers: [0; 256] }
    }

    pub fn step(&mut self, config: &[u8], numbers: Numbers, output: &[u8], journal: &[u8]) -> Left {
        let (mut out, mut noted) = (output.to_vec(), journal.to_vec());
        let limits = self.cabinet.limits();
        let answer =
            journal::sock_step_journal_within(&limits, numbers, config, &mut out, &mut noted);
        let lent = self.memory.configuration(config);
        let lent_output = self.memory.output(output);
        let lent_journal = self.journals.output(journal);
        let given = self.cabinet.step_journal(numbers, lent, lent_output, lent_journal);
        assert_eq!(given, answer, "{numbers:?} on {config:02x?}");
        assert_eq!(lent.bytes(), config, "the configuration has changed");
        assert_eq!(lent_output.bytes(), out, "output of {numbers:?} on {config:02x?}");
        assert_eq!(lent_journal.bytes(), noted, "journal of {numbers:?} on {config:02x?}");
        assert!(self.memory.intact() && self.journals.intact(), "bytes around what was lent");
        self.numbers[(answer >> 56) as usize] += 1;
        Left { answer, output: out, journal: noted }
    }

    pub fn back(&mut self, config: &[u8], journal: &[u8], output: &[u8]) -> Left {
        let mut out = output.to_vec();
        let answer = journal::sock_take_back(config, journal, &mut out);
        let lent = self.memory.configuration(config);
        let lent_output = self.memory.output(output);
        let lent_journal = self.journals.output(journal);
        let given = exported::take_back(lent, lent_journal, lent_output);
        assert_eq!(given, answer, "taking back {journal:02x?} on {config:02x?}");
        assert_eq!(lent.bytes(), config, "the configuration has changed");
        assert_eq!(lent_journal.bytes(), journal, "the journal has changed");
        assert_eq!(lent_output.bytes(), out, "output of taking back {journal:02x?}");
        assert!(self.memory.intact() && self.journals.intact(), "bytes around what was lent");
        self.numbers[(answer >> 56) as usize] += 1;
        Left { answer, output: out, journal: journal.to_vec() }
    }
}
