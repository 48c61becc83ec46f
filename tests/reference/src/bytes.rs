//! The calls on bytes, high byte first, with packed answers: at the limits of either cabinet where
//! both have the call, else at document 01's.

use crate::calls::{self, Numbers};
use crate::limits::{Limits, STANDARD};
use crate::refusal::Refusal;

/// None for an odd length.
pub fn to_words(bytes: &[u8]) -> Option<Vec<u16>> {
    if bytes.len() & 1 == 1 {
        return None;
    }
    Some(bytes.chunks_exact(2).map(|pair| u16::from_be_bytes([pair[0], pair[1]])).collect())
}

pub fn from_words(words: &[u16]) -> Vec<u8> {
    words.iter().flat_map(|word| word.to_be_bytes()).collect()
}

/// 0, 1 or 11.
pub fn sock_check_start_within(limits: &Limits, config: &[u8]) -> u8 {
    match to_words(config) {
        None => Refusal::Unreadable.number(),
        Some(words) => calls::check_start(limits, &words),
    }
}

pub fn sock_check_start(config: &[u8]) -> u8 {
    sock_check_start_within(&STANDARD, config)
}

/// 0 or 1.
pub fn sock_check_readable_within(limits: &Limits, config: &[u8]) -> u8 {
    match to_words(config) {
        None => Refusal::Unreadable.number(),
        Some(words) => calls::check_readable(limits, &words),
    }
}

pub fn sock_check_readable(config: &[u8]) -> u8 {
    sock_check_readable_within(&STANDARD, config)
}

/// From the most significant bit: number 8, kind 8, fault 8, zero 8, serial 16, length 16.
/// Output space is half its bytes, rounded down; an odd last byte keeps its content.
pub fn sock_step_within(
    limits: &Limits,
    numbers: Numbers,
    config: &[u8],
    output: &mut [u8],
) -> u64 {
    let Some(words) = to_words(config) else {
        return u64::from(Refusal::Unreadable.number()) << 56;
    };
    let mut room = vec![0; output.len() / 2];
    let answer = calls::step(limits, &words, numbers, &mut room);
    let written = room.iter().take(usize::from(answer.length));
    for (pair, word) in output.chunks_exact_mut(2).zip(written) {
        pair.copy_from_slice(&word.to_be_bytes());
    }
    u64::from(answer.number) << 56
        | u64::from(answer.kind) << 48
        | u64::from(answer.fault) << 40
        | u64::from(answer.serial) << 16
        | u64::from(answer.length)
}

pub fn sock_step(
    engine: u16,
    position: u16,
    second_engine: u16,
    second_position: u16,
    branch: u16,
    config: &[u8],
    output: &mut [u8],
) -> u64 {
    let numbers = Numbers { engine, position, second_engine, second_position, branch };
    sock_step_within(&STANDARD, numbers, config, output)
}

/// From the most significant bit: number 8, zero 24, waiters 16, workers 16.
pub fn sock_ends(config: &[u8], serial: u16) -> u64 {
    let Some(words) = to_words(config) else {
        return u64::from(Refusal::Unreadable.number()) << 56;
    };
    let ends = calls::ends(&STANDARD, &words, serial);
    u64::from(ends.number) << 56 | u64::from(ends.waiters) << 16 | u64::from(ends.workers)
}

/// From the most significant bit: number 8, found 8, zero 16, count 32.
pub fn sock_pending(engine: u16, position: u16, config: &[u8]) -> u64 {
    let Some(words) = to_words(config) else {
        return u64::from(Refusal::Unreadable.number()) << 56;
    };
    let pending = calls::pending_at(&STANDARD, &words, engine, position);
    u64::from(pending.number) << 56 | u64::from(pending.found) << 48 | u64::from(pending.count)
}

/// From the most significant bit: first word's index 32, count of words 32; 0 if empty.
pub fn sock_process(config: &[u8], engine: u16) -> u64 {
    let Some(words) = to_words(config) else { return 0 };
    let range = calls::process_range(&STANDARD, &words, engine);
    (range.start as u64) << 32 | range.len() as u64
}
