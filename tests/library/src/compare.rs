//! One call on both sides: the library's answer and output are the second implementation's, bit
//! for bit, and the configuration and all around what was lent stays as it was.

use crate::cabinet::Cabinet;
use crate::counts::{Counts, Wanted};
use crate::exported;
use crate::input::{Call, Input};
use crate::memory::{Lent, Memory};
use crate::memory_fault;
use crate::outputs::{pattern, Output};
use reference::{Answer, Numbers};

/// Engines that are asked for; a configuration has at most eight. 256 is engine 0 in 8 bits.
pub const ENGINES: [u16; 12] = [0, 1, 2, 3, 4, 5, 6, 7, 8, 9, 256, 65_535];

/// Positions that are searched for pending processes; a root's body is at 3 where its list is empty.
pub const POSITIONS: [u16; 7] = [0, 1, 3, 4, 5, 7, 65_535];

/// Makes calls of a cabinet on memory of one kind and counts what they meet.
pub struct Comparison<M> {
    pub counts: Counts,
    pub cabinet: Cabinet,
    memory: M,
    /// Calls so far, from which patterns differ.
    round: u64,
}

/// What a step answered, and the result's bytes: none for a refusal.
#[derive(Clone, Debug)]
pub struct Stepped {
    pub answer: Answer,
    pub result: Vec<u8>,
}

impl<M: Memory> Comparison<M> {
    pub fn new(cabinet: Cabinet, memory: M) -> Comparison<M> {
        Comparison { counts: Counts::default(), cabinet, memory, round: 0 }
    }

    /// Prints what was met under the test's name and fails if anything wanted is not among it. The
    /// small cabinet is asked for no ends, processes and pending ones, and makes a tenth of the calls.
    pub fn report(&self, test: &str, wanted: Wanted) {
        let wanted = match self.cabinet {
            Cabinet::Large => wanted,
            Cabinet::Small => Wanted {
                calls: wanted.calls / 10,
                ends: &[],
                pending: &[],
                processes: &[],
                ..wanted
            },
        };
        self.counts.report(&self.cabinet.named(test), wanted);
    }

    /// The calls that only read, for every serial, engine and position worth asking for.
    pub fn read_all(&mut self, input: &Input) {
        self.checks(input);
        if self.cabinet == Cabinet::Small {
            return;
        }
        for serial in serials(input.config) {
            self.ends(input, serial);
        }
        for engine in ENGINES {
            self.process(input, engine);
            for position in POSITIONS {
                self.pending(input, engine, position);
            }
        }
    }

    /// The calls that only read, for one serial, one engine and one position in turn.
    pub fn read_one(&mut self, input: &Input) {
        self.checks(input);
        if self.cabinet == Cabinet::Small {
            return;
        }
        let turn = self.round as usize / 4;
        let serials = serials(input.config);
        self.ends(input, serials[turn % serials.len()]);
        self.process(input, ENGINES[turn % ENGINES.len()]);
        let engine = [0, 1, 2][turn % 3];
        self.pending(input, engine, (turn / 3 % 24) as u16);
    }

    fn checks(&mut self, input: &Input) {
        let (cabinet, limits) = (self.cabinet, self.cabinet.limits());
        let start = u64::from(reference::sock_check_start_within(&limits, input.config));
        let ours = |config| u64::from(cabinet.check_start(config));
        self.read(input, Call::CheckStart { cabinet }, ours, start);
        self.counts.number("start check", input.source.class, start as u8);
        let readable = u64::from(reference::sock_check_readable_within(&limits, input.config));
        let ours = |config| u64::from(cabinet.check_readable(config));
        self.read(input, Call::CheckReadable { cabinet }, ours, readable);
        self.counts.number("readable check", input.source.class, readable as u8);
    }

    fn ends(&mut self, input: &Input, serial: u16) {
        let expected = reference::sock_ends(input.config, serial);
        let ours = |config| exported::ends(config, serial);
        self.read(input, Call::Ends { serial }, ours, expected);
        self.counts.number("ends", input.source.class, (expected >> 56) as u8);
    }

    fn process(&mut self, input: &Input, engine: u16) {
        let expected = reference::sock_process(input.config, engine);
        let ours = |config| exported::process(config, engine);
        self.read(input, Call::Process { engine }, ours, expected);
        self.counts.process(input.source.class, expected != 0);
    }

    /// The search at an engine and a position; whether it found something, and the count.
    pub fn pending(&mut self, input: &Input, engine: u16, position: u16) -> (bool, u32) {
        let expected = reference::sock_pending(engine, position, input.config);
        let ours = |config| exported::pending(config, engine, position);
        self.read(input, Call::Pending { engine, position }, ours, expected);
        self.counts.number("pending", input.source.class, (expected >> 56) as u8);
        (expected >> 48 & 1 == 1, expected as u32)
    }

    /// A call that only reads.
    fn read(&mut self, input: &Input, call: Call, ours: impl Fn(Lent) -> u64, expected: u64) {
        self.round += 1;
        let config = self.memory.configuration(input.config);
        memory_fault::entering(input.source, call);
        let answer = ours(config);
        same_answer(input, call, answer, expected);
        self.untouched(input, call, config);
    }

    /// A step with an output of this length, filled with a pattern before.
    pub fn step(&mut self, input: &Input, numbers: Numbers, output: Output) -> Stepped {
        self.round += 1;
        let (cabinet, limits) = (self.cabinet, self.cabinet.limits());
        let call = Call::Step { cabinet, numbers, output: output.length };
        let filled = pattern(self.round, output.length);
        let config = self.memory.configuration(input.config);
        let lent = self.memory.output(&filled);
        memory_fault::entering(input.source, call);
        let packed = cabinet.step(numbers, config, lent);
        let mut expected = filled.clone();
        let other = reference::sock_step_within(&limits, numbers, input.config, &mut expected);
        same_answer(input, call, packed, other);
        same_output(input, call, lent.bytes(), &expected);
        self.untouched(input, call, config);
        let answer = unpacked(packed);
        let (result, past) = lent.bytes().split_at(2 * usize::from(answer.length));
        // Of itself, whatever the second implementation says; all bytes are past a refusal's.
        if *past != filled[result.len()..] {
            differ(input, call, "bytes past the result changed");
        }
        self.count_step(input, &answer, output);
        Stepped { answer, result: result.to_vec() }
    }

    fn count_step(&mut self, input: &Input, answer: &Answer, output: Output) {
        self.counts.number("step", input.source.class, answer.number);
        self.counts.output(output.name);
        if answer.number == 0 {
            self.counts.accepted(answer.kind);
        }
    }

    fn untouched(&self, input: &Input, call: Call, config: Lent) {
        if config.bytes() != input.config {
            differ(input, call, "the configuration changed");
        }
        if !self.memory.intact() {
            differ(input, call, "bytes beside what was lent changed");
        }
    }
}

/// Serials worth asking for: 0, 1, issued, the one behind it, the last, and one that is 1 in 8 bits.
fn serials(config: &[u8]) -> [u16; 6] {
    let issued = match config {
        [_, _, high, low, ..] => u16::from_be_bytes([*high, *low]),
        _ => 0,
    };
    [0, 1, issued, issued.saturating_add(1), u16::MAX, 257]
}

/// Number 8, kind 8, fault 8, zero 8, serial 16, length 16.
pub fn unpacked(packed: u64) -> Answer {
    Answer {
        number: (packed >> 56) as u8,
        kind: (packed >> 48) as u8,
        fault: (packed >> 40) as u8,
        serial: (packed >> 16) as u16,
        length: packed as u16,
    }
}

fn same_answer(input: &Input, call: Call, answer: u64, expected: u64) {
    if answer != expected {
        differ(input, call, &format!("answered {answer:016x}, not {expected:016x}"));
    }
}

fn same_output(input: &Input, call: Call, output: &[u8], expected: &[u8]) {
    if output == expected {
        return;
    }
    let at = output.iter().zip(expected).position(|(one, other)| one != other).unwrap_or(0);
    let (is, should) = (output[at], expected[at]);
    differ(input, call, &format!("output byte {at} is {is:02x}, not {should:02x}"));
}

fn differ(input: &Input, call: Call, what: &str) -> ! {
    panic!("{what}\n{call:?}\n{input}");
}
