//! Faults in the last stretch of work (document 02, change h): a run that keeps every accepted
//! answer and recounts, and the window on bytes that is handed on from answer to answer.
//!
//! The two share only the layout of the words. A window is tested by laying its entries out again:
//! whatever differs is no run's.

pub const OPERATIONS: usize = 64;
pub const WIDEST: u16 = 1024;
/// 64 counts, how many entries, 1,024 entries.
pub const WORDS: usize = OPERATIONS + 1 + WIDEST as usize;
pub const WINDOW_BYTES: usize = 2 * WORDS;

/// "window width".
pub const WINDOW_WIDTH: u8 = 18;

/// A step's number and fault, with the operation concerned.
#[derive(Clone, Copy, Debug, PartialEq, Eq)]
pub struct Answer {
    pub number: u8,
    pub fault: u8,
    pub operation: u16,
}

impl Answer {
    fn entry(self) -> u16 {
        if self.fault == 1 {
            self.operation + 1
        } else {
            0
        }
    }
}

fn width_and_operation_fit(width: u16, operation: u16) -> bool {
    (1..=WIDEST).contains(&width) && usize::from(operation) < OPERATIONS
}

/// A run from the empty window, with every answer that entered.
#[derive(Clone, Debug)]
pub struct Run {
    width: u16,
    entered: Vec<Answer>,
}

impl Run {
    pub fn new(width: u16) -> Run {
        Run { width, entered: Vec::new() }
    }

    pub fn hand_on(&mut self, answer: Answer) -> u8 {
        if !width_and_operation_fit(self.width, answer.operation) {
            return WINDOW_WIDTH;
        }
        if answer.number == 0 {
            self.entered.push(answer);
        }
        0
    }

    /// The last answers that entered, as many as the width says, or all while there are fewer.
    pub fn last(&self) -> &[Answer] {
        let past = self.entered.len().saturating_sub(usize::from(self.width));
        &self.entered[past..]
    }

    /// The faults of an operation among them.
    pub fn recount(&self, operation: u16) -> u16 {
        let fault = |answer: &&Answer| answer.fault == 1 && answer.operation == operation;
        self.last().iter().filter(fault).count() as u16
    }

    pub fn words(&self) -> Vec<u16> {
        words(&self.last().iter().map(|answer| answer.entry()).collect::<Vec<_>>())
    }
}

/// The words of a window with these entries.
fn words(entries: &[u16]) -> Vec<u16> {
    let count = |entry| entries.iter().filter(|other| **other == entry).count() as u16;
    let mut words: Vec<u16> = (1..=OPERATIONS as u16).map(count).collect();
    words.push(entries.len() as u16);
    words.extend_from_slice(entries);
    words.resize(WORDS, 0);
    words
}

pub fn bytes(words: &[u16]) -> Vec<u8> {
    words.iter().flat_map(|word| word.to_be_bytes()).collect()
}

/// The entries of a window that some run of this width gives.
fn entries(width: u16, window: &[u8]) -> Option<Vec<u16>> {
    let own = window.get(..WINDOW_BYTES)?;
    let all: Vec<u16> = own.chunks(2).map(|two| u16::from_be_bytes([two[0], two[1]])).collect();
    let held = all[OPERATIONS];
    if held > width {
        return None;
    }
    let entries = all[OPERATIONS + 1..][..usize::from(held)].to_vec();
    let known = entries.iter().all(|entry| usize::from(*entry) <= OPERATIONS);
    (known && words(&entries) == all).then_some(entries)
}

/// Hands an answer on: an accepted one enters, and the oldest goes once the width is held.
pub fn sock_window_next(width: u16, answer: Answer, window: &mut [u8]) -> u8 {
    if !width_and_operation_fit(width, answer.operation) {
        return WINDOW_WIDTH;
    }
    let Some(mut entries) = entries(width, window) else {
        return WINDOW_WIDTH;
    };
    if answer.number == 0 {
        entries.push(answer.entry());
        let past = entries.len().saturating_sub(usize::from(width));
        window[..WINDOW_BYTES].copy_from_slice(&bytes(&words(&entries[past..])));
    }
    0
}

/// The faults of an operation: number 8, zero 40, count 16.
pub fn sock_window_count(operation: u16, window: &[u8]) -> u64 {
    let refused = u64::from(WINDOW_WIDTH) << 56;
    if usize::from(operation) >= OPERATIONS {
        return refused;
    }
    match entries(WIDEST, window) {
        None => refused,
        Some(entries) => entries.iter().filter(|entry| **entry == operation + 1).count() as u64,
    }
}
