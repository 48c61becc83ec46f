//! Document 02's change g: the index of open requests. It is 2,049 words: the count, the open serials
//! strictly rising, none 0, then zeros. It is begun empty with a start and lent to each step and each
//! taking back; the two questions give its first two words.
//!
//! The index is held as a set and laid out anew; whatever is not a set laid out is refused (17),
//! before all else. Words past the 2,049 are not part of it.

use crate::bytes::to_words;
use crate::calls::{self, Answer, Numbers};
use crate::configuration::Configuration;
use crate::context::enabled;
use crate::journal::{spread, step_journal, take_back, whole};
use crate::limits::{Limits, STANDARD};
use crate::process::Process;
use crate::readable;
use crate::refusal::Refusal;
use std::collections::BTreeSet;

pub const WORDS: usize = 2049;
pub const INDEX_BYTES: usize = 2 * WORDS;
/// The most serials of an index that is in order; an accepted solicit makes it one more.
pub const MOST: usize = WORDS - 2;

const SOLICIT: u8 = 10;
const EXECUTOR: u8 = 16;
const NOTICE: u8 = 18;

pub type Serials = BTreeSet<u16>;

/// The words of an index with these serials, at most 2,048.
pub fn index_of(serials: &Serials) -> Vec<u16> {
    let mut words = vec![serials.len() as u16];
    words.extend(serials);
    words.resize(WORDS, 0);
    words
}

/// The serials of an index in order: they are, laid out, its words.
pub fn listed(index: &[u16]) -> Option<Serials> {
    let own = index.get(..WORDS)?;
    let count = usize::from(own[0]);
    if count > MOST {
        return None;
    }
    let serials: Serials = own[1..=count].iter().copied().collect();
    (!serials.contains(&0) && index_of(&serials) == own).then_some(serials)
}

/// The serials that have a waiter.
pub fn open_serials(configuration: &Configuration) -> Serials {
    let processes = configuration.engines.iter().flat_map(|engine| enabled(&engine.process));
    let waiter = |(_, process): (usize, crate::process::Part)| match &*process {
        Process::Waiter(waiter) => Some(waiter.serial),
        _ => None,
    };
    processes.filter_map(waiter).collect()
}

fn write(serials: &Serials, index: &mut [u16]) {
    index[..WORDS].copy_from_slice(&index_of(serials));
}

/// 17, then 1 and 11 as in the start check; a refusal leaves the index as it was.
pub fn begin_index(limits: &Limits, words: &[u16], index: &mut [u16]) -> u8 {
    if index.len() < WORDS {
        return Refusal::IndexShort.number();
    }
    let number = calls::check_start(limits, words);
    if number == 0 {
        write(&Serials::new(), index);
    }
    number
}

/// The step with a journal, after 17; a refusal leaves all that is lent as it was.
pub fn step_indexed(
    limits: &Limits,
    words: &[u16],
    numbers: Numbers,
    output: &mut [u16],
    journal: &mut [u16],
    index: &mut [u16],
) -> Answer {
    let Some(mut serials) = listed(index) else {
        return Answer { number: Refusal::IndexShort.number(), ..Answer::default() };
    };
    let answer = step_journal(limits, words, numbers, output, journal);
    if answer.number == 0 {
        match answer.kind {
            SOLICIT => drop(serials.insert(answer.serial)),
            EXECUTOR | NOTICE => drop(serials.remove(&answer.serial)),
            _ => {}
        }
        write(&serials, index);
    }
    answer
}

/// Taking back, after 17: the serials of what was restored are listed anew.
pub fn take_back_indexed(
    limits: &Limits,
    words: &[u16],
    journal: &[u16],
    output: &mut [u16],
    index: &mut [u16],
) -> (u8, u16) {
    if listed(index).is_none() {
        return (Refusal::IndexShort.number(), 0);
    }
    let (number, length) = take_back(limits, words, journal, output);
    if number == 0 {
        let restored = readable::read(limits, &output[..usize::from(length)]);
        write(&open_serials(&restored.expect("what is restored is readable")), index);
    }
    (number, length)
}

/// How many serials are open: 17, or the index's first word.
pub fn open_count(index: &[u16]) -> (u8, u16) {
    match listed(index) {
        None => (Refusal::IndexShort.number(), 0),
        Some(serials) => (0, serials.len() as u16),
    }
}

/// The oldest open serial, 0 if none is: 17, or the index's second word.
pub fn oldest(index: &[u16]) -> (u8, u16) {
    match listed(index) {
        None => (Refusal::IndexShort.number(), 0),
        Some(serials) => (0, serials.first().copied().unwrap_or(0)),
    }
}

/// On bytes a refusal is this, with all other fields 0. An odd configuration is 1, after 17.
fn refused(refusal: Refusal) -> u64 {
    u64::from(refusal.number()) << 56
}

pub fn sock_begin_index(config: &[u8], index: &mut [u8]) -> u8 {
    let mut words = whole(index);
    // No words are no configuration either.
    let config = to_words(config).unwrap_or_default();
    let number = begin_index(&STANDARD, &config, &mut words);
    spread(&words, index);
    number
}

/// Packed as `sock_step`.
pub fn sock_step_indexed(
    numbers: Numbers,
    config: &[u8],
    output: &mut [u8],
    journal: &mut [u8],
    index: &mut [u8],
) -> u64 {
    let (mut result, mut written, mut words) = (whole(output), whole(journal), whole(index));
    if listed(&words).is_none() {
        return refused(Refusal::IndexShort);
    }
    let Some(config) = to_words(config) else {
        return refused(Refusal::Unreadable);
    };
    let answer = step_indexed(&STANDARD, &config, numbers, &mut result, &mut written, &mut words);
    spread(&result, output);
    spread(&written, journal);
    spread(&words, index);
    u64::from(answer.number) << 56
        | u64::from(answer.kind) << 48
        | u64::from(answer.fault) << 40
        | u64::from(answer.serial) << 16
        | u64::from(answer.length)
}

/// From the most significant bit: number 8, zero 40, length 16.
pub fn sock_take_back_indexed(
    config: &[u8],
    journal: &[u8],
    output: &mut [u8],
    index: &mut [u8],
) -> u64 {
    let (mut result, mut words) = (whole(output), whole(index));
    if listed(&words).is_none() {
        return refused(Refusal::IndexShort);
    }
    let Some(config) = to_words(config) else {
        return refused(Refusal::Unreadable);
    };
    let (number, length) =
        take_back_indexed(&STANDARD, &config, &whole(journal), &mut result, &mut words);
    spread(&result, output);
    spread(&words, index);
    u64::from(number) << 56 | u64::from(length)
}

/// From the most significant bit: number 8, zero 40, value 16; as the next one.
pub fn sock_open_count(index: &[u8]) -> u64 {
    let (number, value) = open_count(&whole(index));
    u64::from(number) << 56 | u64::from(value)
}

pub fn sock_oldest(index: &[u8]) -> u64 {
    let (number, value) = oldest(&whole(index));
    u64::from(number) << 56 | u64::from(value)
}
