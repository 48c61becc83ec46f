//! The calls of the proved archive (`include/sock.h`), on words. Steps, checks, ends and what a planners' start becomes come from here and
//! from nowhere else.
//!
//! Each unsafe block is one call, and lends what the header asks for: a pointer and a length of one vector; an output of its own,
//! which overlaps nothing.

use std::ops::Range;

/// The most words of a configuration.
pub const WORDS: usize = 8192;

extern "C" {
    fn sock_check_readable(config: *const u8, config_length: usize) -> u8;
    fn sock_check_start(config: *const u8, config_length: usize) -> u8;
    fn sock_step(
        engine: u16,
        position: u16,
        second: u16,
        second_position: u16,
        branch: u16,
        config: *const u8,
        config_length: usize,
        out: *mut u8,
        out_length: usize,
    ) -> u64;
    fn sock_ends(config: *const u8, config_length: usize, serial: u16) -> u64;
    fn sock_process(config: *const u8, config_length: usize, engine: u16) -> u64;
    fn sock_translate(
        config: *const u8,
        config_length: usize,
        out: *mut u8,
        out_length: usize,
    ) -> u64;
}

/// The five numbers of a step.
#[derive(Clone, Copy, Debug, PartialEq, Eq, PartialOrd, Ord, Hash, Default)]
pub struct Move {
    pub engine: u16,
    pub position: u16,
    pub second: u16,
    pub second_position: u16,
    pub branch: u16,
}

impl Move {
    pub fn alone(engine: u16, position: u16) -> Move {
        Move { engine, position, ..Move::default() }
    }

    pub fn of(words: &[u16]) -> Option<Move> {
        match *words {
            [engine, position, second, second_position, branch] => {
                Some(Move { engine, position, second, second_position, branch })
            }
            _ => None,
        }
    }

    pub fn words(self) -> [u16; 5] {
        [self.engine, self.position, self.second, self.second_position, self.branch]
    }

    /// Whether it names nobody but the process that moves.
    pub fn is_alone(self) -> bool {
        (self.second, self.second_position, self.branch) == (0, 0, 0)
    }
}

/// What a step answered.
#[derive(Clone, Copy, Debug, PartialEq, Eq)]
pub struct Answer {
    pub number: u8,
    pub kind: u8,
    pub fault: bool,
    pub serial: u16,
}

/// 0, or 1 if the words are no configuration.
pub fn check_readable(words: &[u16]) -> u8 {
    let bytes = bytes(words);
    unsafe { sock_check_readable(bytes.as_ptr(), bytes.len()) }
}

/// 0, or 1, or 11 if they are one from which no run begins.
pub fn check_start(words: &[u16]) -> u8 {
    let bytes = bytes(words);
    unsafe { sock_check_start(bytes.as_ptr(), bytes.len()) }
}

/// The answer, and the next configuration if it is accepted.
pub fn step(words: &[u16], step: Move) -> (Answer, Option<Vec<u16>>) {
    let config = bytes(words);
    let mut out = vec![0u8; 2 * WORDS];
    let [engine, position, second, second_position, branch] = step.words();
    let packed = unsafe {
        let (from, to) = (config.as_ptr(), out.as_mut_ptr());
        let (length, room) = (config.len(), out.len());
        sock_step(engine, position, second, second_position, branch, from, length, to, room)
    };
    let answer = Answer {
        number: (packed >> 56) as u8,
        kind: (packed >> 48) as u8,
        fault: packed >> 40 & 0xff == 1,
        serial: (packed >> 16) as u16,
    };
    let length = 2 * usize::from(packed as u16);
    let next = (answer.number == 0).then(|| from_bytes(&out[..length]));
    (answer, next)
}

/// How many waiters a serial has, and how many executors and notices; None for a refusal.
pub fn ends(words: &[u16], serial: u16) -> Option<(u16, u16)> {
    let bytes = bytes(words);
    let packed = unsafe { sock_ends(bytes.as_ptr(), bytes.len(), serial) };
    (packed >> 56 == 0).then_some(((packed >> 16) as u16, packed as u16))
}

/// Where an engine's process stands in the words; empty if there is none.
pub fn process(words: &[u16], engine: u16) -> Range<usize> {
    let bytes = bytes(words);
    let packed = unsafe { sock_process(bytes.as_ptr(), bytes.len(), engine) };
    let (first, count) = ((packed >> 32) as usize, (packed & 0xffff_ffff) as usize);
    first..first + count
}

/// The start that a planners' start becomes, or the number of the refusal.
pub fn translate(words: &[u16]) -> Result<Vec<u16>, u8> {
    let config = bytes(words);
    let mut out = vec![0u8; 2 * WORDS];
    let (from, to) = (config.as_ptr(), out.as_mut_ptr());
    let packed = unsafe { sock_translate(from, config.len(), to, out.len()) };
    match (packed >> 56) as u8 {
        0 => Ok(from_bytes(&out[..2 * usize::from(packed as u16)])),
        number => Err(number),
    }
}

/// The keeper's word for a number of document 01 and 02.
pub fn word_for(number: u8) -> &'static str {
    match number {
        0 => "accepted",
        1 => "unreadable",
        2 => "nobody there",
        3 => "no move",
        4 => "no partner",
        5 => "no fit",
        6 => "installing",
        7 => "serials spent",
        8 => "deep",
        9 => "long",
        10 => "short paper",
        11 => "not fresh",
        12 => "unknown serial",
        13 => "not decimal",
        14 => "cH in a fixed scope",
        _ => "refused",
    }
}

pub fn bytes(words: &[u16]) -> Vec<u8> {
    words.iter().flat_map(|word| word.to_be_bytes()).collect()
}

/// Of an even count of bytes; a last odd one is left out.
pub fn from_bytes(bytes: &[u8]) -> Vec<u16> {
    bytes.chunks_exact(2).map(|pair| u16::from_be_bytes([pair[0], pair[1]])).collect()
}
