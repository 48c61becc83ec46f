//! Document 02's change k: an engine joins as the next number, the last one leaves.

use crate::bytes::to_words;
use crate::configuration::{Configuration, Engine};
use crate::context::enabled;
use crate::journal::{spread, whole};
use crate::limits::{Limits, STANDARD};
use crate::process::Process;
use crate::readable;
use crate::refusal::Refusal;
use crate::write;

/// The most engines that a configuration has.
pub const HOUSE: usize = 8;

/// Number and length; a refusal leaves the output as it was.
pub fn join(limits: &Limits, words: &[u16], newcomer: &[u16], output: &mut [u16]) -> (u8, u16) {
    answer(try_join(limits, words, newcomer, output.len()), output)
}

/// Number and length; a refusal leaves the output as it was.
pub fn leave(limits: &Limits, words: &[u16], output: &mut [u16]) -> (u8, u16) {
    answer(try_leave(limits, words, output.len()), output)
}

fn answer(result: Result<Vec<u16>, Refusal>, output: &mut [u16]) -> (u8, u16) {
    match result {
        Err(refusal) => (refusal.number(), 0),
        Ok(words) => {
            output[..words.len()].copy_from_slice(&words);
            (0, words.len() as u16)
        }
    }
}

/// A house with room for one more.
fn admitting(limits: &Limits, words: &[u16]) -> Result<Configuration, Refusal> {
    let house = readable::read(limits, words).ok_or(Refusal::Unreadable)?;
    match house.engines.len() {
        HOUSE => Err(Refusal::HouseFull),
        _ => Ok(house),
    }
}

fn try_join(
    limits: &Limits,
    words: &[u16],
    newcomer: &[u16],
    room: usize,
) -> Result<Vec<u16>, Refusal> {
    let mut house = admitting(limits, words)?;
    house.engines.push(fresh_engine(limits, newcomer).ok_or(Refusal::NotFresh)?);
    if house.size() > limits.words {
        return Err(Refusal::Long);
    }
    written(&house, room)
}

/// The newcomer as the only engine of a start of its own, which may be of any length.
fn fresh_engine(limits: &Limits, newcomer: &[u16]) -> Option<Engine> {
    let unlimited = Limits { words: usize::MAX, depth: limits.depth };
    let start = [&[1, 0], newcomer].concat();
    let mut start = readable::read(&unlimited, &start).filter(readable::is_fresh)?;
    start.engines.pop()
}

fn try_leave(limits: &Limits, words: &[u16], room: usize) -> Result<Vec<u16>, Refusal> {
    let mut house = readable::read(limits, words).ok_or(Refusal::Unreadable)?;
    let last = house.engines.pop().ok_or(Refusal::Unreadable)?;
    let number = house.engines.len();
    if number == 0 || !last.process.is_nil() || is_named(&house, number) {
        return Err(Refusal::StillAtWork);
    }
    written(&house, room)
}

/// Whether an end in these engines names the number.
fn is_named(house: &Configuration, number: usize) -> bool {
    house.engines.iter().flat_map(|engine| enabled(&engine.process)).any(|(_, process)| {
        let named = match &*process {
            Process::Executor(executor, _) => Some(executor.client),
            Process::Waiter(waiter) => Some(waiter.server),
            Process::Notice(notice) => Some(notice.client),
            _ => None,
        };
        named.is_some_and(|engine| usize::from(engine) == number)
    })
}

fn written(house: &Configuration, room: usize) -> Result<Vec<u16>, Refusal> {
    if room < house.size() {
        return Err(Refusal::ShortOutput);
    }
    Ok(write::configuration(house))
}

/// The most words of a newcomer that the call on bytes reads; no configuration has so many.
pub const NEWCOMER: usize = 16_384;

/// From the most significant bit: number 8, zero 40, length 16. An odd newcomer is no engine; one of
/// more than `NEWCOMER` words is too long, whatever they are.
pub fn sock_join(config: &[u8], newcomer: &[u8], output: &mut [u8]) -> u64 {
    let Some(words) = to_words(config) else { return packed((Refusal::Unreadable.number(), 0)) };
    if newcomer.len() > 2 * NEWCOMER {
        let refusal = admitting(&STANDARD, &words).err().unwrap_or(Refusal::Long);
        return packed((refusal.number(), 0));
    }
    let newcomer = to_words(newcomer).unwrap_or_default();
    on_bytes(output, |room| join(&STANDARD, &words, &newcomer, room))
}

/// From the most significant bit: number 8, zero 40, length 16.
pub fn sock_leave(config: &[u8], output: &mut [u8]) -> u64 {
    let Some(words) = to_words(config) else { return packed((Refusal::Unreadable.number(), 0)) };
    on_bytes(output, |room| leave(&STANDARD, &words, room))
}

fn on_bytes(output: &mut [u8], call: impl Fn(&mut [u16]) -> (u8, u16)) -> u64 {
    let mut result = whole(output);
    let answer = call(&mut result);
    spread(&result, output);
    packed(answer)
}

fn packed((number, length): (u8, u16)) -> u64 {
    u64::from(number) << 56 | u64::from(length)
}
