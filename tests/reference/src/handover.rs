//! The program handover, as a function from its input's bytes to its output's bytes.

use crate::calls::{check_start, step, Numbers};
use crate::limits::{Limits, STANDARD};
use crate::refusal::Refusal;

pub fn handover(input: &[u8]) -> Vec<u8> {
    handover_within(&STANDARD, input).into_bytes()
}

/// The program's text under the given limits; its output room is the limit of words.
pub fn handover_within(limits: &Limits, input: &[u8]) -> String {
    let Some((mut configuration, mut rest)) = start(limits, input) else {
        return line("start", Refusal::Unreadable.number().into());
    };
    let number = check_start(limits, &configuration);
    let mut text = line("start", number.into());
    if number != 0 {
        return text;
    }
    let mut count: u64 = 0;
    while let Some((chunk, after)) = rest.split_at_checked(10) {
        rest = after;
        count += 1;
        let mut output = vec![0; limits.words];
        let answer = step(limits, &configuration, numbers(chunk), &mut output);
        if answer.number == 0 {
            output.truncate(usize::from(answer.length));
            configuration = output;
        }
        let (number, kind) = (answer.number, answer.kind);
        let (serial, fault) = (answer.serial, answer.fault);
        text.push_str(&format!("{count} {number} {kind} {serial} {fault}\n"));
    }
    if rest.is_empty() {
        text.push_str(&line("end", configuration.len()));
    } else {
        text.push_str("cut\n");
    }
    text
}

fn line(word: &str, number: usize) -> String {
    format!("{word} {number}\n")
}

/// The configuration's words and the bytes after them; None if words are missing or too many.
fn start<'a>(limits: &Limits, input: &'a [u8]) -> Option<(Vec<u16>, &'a [u8])> {
    let (length, rest) = input.split_at_checked(2)?;
    let length = usize::from(words(length).first().copied()?);
    if length > limits.words {
        return None;
    }
    let (configuration, rest) = rest.split_at_checked(2 * length)?;
    Some((words(configuration), rest))
}

fn words(bytes: &[u8]) -> Vec<u16> {
    bytes.chunks_exact(2).map(|pair| u16::from_be_bytes([pair[0], pair[1]])).collect()
}

/// The five numbers of a step, from its ten bytes.
fn numbers(chunk: &[u8]) -> Numbers {
    let words = words(chunk);
    let number = |index: usize| words.get(index).copied().unwrap_or(0);
    Numbers::new(number(0), number(1), number(2), number(3), number(4))
}
