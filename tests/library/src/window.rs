//! The window of faults on both sides: the library's answers and every byte of the window are the
//! second implementation's, and all around what was lent stays as it was.

use crate::input::{Call, Source};
use crate::memory::{Lent, Memory};
use crate::memory_fault;
use reference::generate::random::Random;
use reference::window::{self, Answer, OPERATIONS};
use std::collections::BTreeMap;

extern "C" {
    fn sock_window_next(
        width: u16,
        number: u8,
        fault: u8,
        operation: u16,
        window: *mut u8,
        length: usize,
    ) -> u8;
    fn sock_window_count(operation: u16, window: *const u8, length: usize) -> u64;
}

fn next(width: u16, answer: Answer, window: Lent) -> u8 {
    let Answer { number, fault, operation } = answer;
    // The window is lent whole for the call, and no reference to it is held meanwhile.
    unsafe { sock_window_next(width, number, fault, operation, window.start, window.length) }
}

fn count(operation: u16, window: Lent) -> u64 {
    unsafe { sock_window_count(operation, window.start, window.length) }
}

/// Hands answers on and asks, on memory of one kind, and counts what was met.
pub struct Windows<M> {
    memory: M,
    /// By class: the call's name and the number answered.
    met: BTreeMap<(&'static str, &'static str, u8), u64>,
}

impl<M: Memory> Windows<M> {
    pub fn new(memory: M) -> Windows<M> {
        Windows { memory, met: BTreeMap::new() }
    }

    /// Hands an answer on; the bytes become those that the window has then.
    pub fn next(&mut self, source: Source, width: u16, answer: Answer, bytes: &mut [u8]) -> u8 {
        let lent = self.memory.output(bytes);
        let Answer { number, fault, operation } = answer;
        let length = bytes.len();
        let call = Call::WindowNext { width, number, fault, operation, length };
        memory_fault::entering(source, call);
        let answered = next(width, answer, lent);
        let expected = window::sock_window_next(width, answer, bytes);
        assert_eq!(answered, expected, "number of {source}: {call:?}");
        assert!(lent.bytes() == bytes, "window of {source}: {call:?}");
        assert!(self.memory.intact(), "{source} wrote outside: {call:?}");
        *self.met.entry((source.class, "next", answered)).or_insert(0) += 1;
        answered
    }

    /// Asks for an operation's faults. The window is lent for reading only.
    pub fn count(&mut self, source: Source, operation: u16, bytes: &[u8]) -> u64 {
        let lent = self.memory.configuration(bytes);
        let call = Call::WindowCount { operation, length: bytes.len() };
        memory_fault::entering(source, call);
        let answered = count(operation, lent);
        assert_eq!(answered, window::sock_window_count(operation, bytes), "{source}: {call:?}");
        assert!(lent.bytes() == bytes, "{source} changed the window: {call:?}");
        assert!(self.memory.intact(), "{source} wrote outside: {call:?}");
        *self.met.entry((source.class, "count", (answered >> 56) as u8)).or_insert(0) += 1;
        answered
    }

    /// Prints what was met and fails unless it is exactly this: classes with the call and the
    /// number that was answered, each at least so often.
    pub fn report(&self, test: &str, wanted: &[(&'static str, &'static str, u8, u64)]) {
        println!("{test}: {:?}", self.met);
        let classes: Vec<_> = self.met.keys().copied().collect();
        let mut expected: Vec<_> =
            wanted.iter().map(|(class, call, number, _)| (*class, *call, *number)).collect();
        expected.sort_unstable();
        assert_eq!(classes, expected, "{test} met other classes and numbers");
        for (class, call, number, least) in wanted {
            let count = self.met[&(*class, *call, *number)];
            assert!(count >= *least, "{test}: {class}, {call} was {number} only {count} times");
        }
    }
}

/// An answer of a run: mostly accepted, often with a fault, of few operations or of any; now and
/// then with an operation above 63.
pub fn answer(random: &mut Random) -> Answer {
    let number = match random.below(5) {
        0 => random.between(1, 255) as u8,
        _ => 0,
    };
    let fault = match random.below(8) {
        0..=4 => 1,
        5 | 6 => 0,
        _ => random.between(2, 255) as u8,
    };
    let operation = match random.below(40) {
        0 => random.between(OPERATIONS, usize::from(u16::MAX)) as u16,
        1..=20 => [0, 1, 62, 63][random.below(4)],
        _ => random.below(OPERATIONS) as u16,
    };
    Answer { number, fault, operation }
}
