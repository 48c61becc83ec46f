//! Document 02's change f: the journal of a step, the step that fills it, and taking it back.
//!
//! A journal is old length, new length, the count of first words alike, the count of last words
//! alike after those, the old words between, the new ones. What is lent beyond its end is not
//! part of it, and stays as it was.

use crate::bytes::to_words;
use crate::calls::{self, Answer, Numbers};
use crate::limits::{Limits, STANDARD};
use crate::readable;
use crate::refusal::Refusal;

/// As many words as the journal of any step has at most: the number of engines is always alike.
pub const fn journal_enough(limits: &Limits) -> usize {
    2 * limits.words + 2
}

pub const JOURNAL_ENOUGH: usize = journal_enough(&STANDARD);

fn alike<'a>(one: impl Iterator<Item = &'a u16>, other: impl Iterator<Item = &'a u16>) -> usize {
    one.zip(other).take_while(|(a, b)| a == b).count()
}

/// The journal of a step from `old` to `new`.
pub fn journal_of(old: &[u16], new: &[u16]) -> Vec<u16> {
    let first = alike(old.iter(), new.iter());
    let last = alike(old[first..].iter().rev(), new[first..].iter().rev());
    let mut journal = vec![old.len() as u16, new.len() as u16, first as u16, last as u16];
    journal.extend_from_slice(&old[first..old.len() - last]);
    journal.extend_from_slice(&new[first..new.len() - last]);
    journal
}

/// The step with a journal; a refusal leaves output and journal as they were.
pub fn step_journal(
    limits: &Limits,
    words: &[u16],
    numbers: Numbers,
    output: &mut [u16],
    journal: &mut [u16],
) -> Answer {
    let mut result = output.to_vec();
    let answer = calls::step(limits, words, numbers, &mut result);
    if answer.number != 0 {
        return answer;
    }
    let written = journal_of(words, &result[..usize::from(answer.length)]);
    if journal.len() < written.len() {
        return Answer { number: Refusal::JournalShort.number(), ..Answer::default() };
    }
    output.copy_from_slice(&result);
    journal[..written.len()].copy_from_slice(&written);
    answer
}

/// The words that a journal restores, if it matches.
pub fn restored(words: &[u16], journal: &[u16]) -> Option<Vec<u16>> {
    let [old, new, first, last] = *journal.get(..4)? else { return None };
    let [old, new, first, last] = [old, new, first, last].map(usize::from);
    let was = old.checked_sub(first + last)?;
    let became = new.checked_sub(first + last)?;
    let was = journal.get(4..4 + was).filter(|_| journal.len() >= 4 + was + became)?;
    let became = &journal[4 + was.len()..4 + was.len() + became];
    if words.len() != new || words[first..new - last] != *became {
        return None;
    }
    Some([&words[..first], was, &words[new - last..]].concat())
}

/// Number and length; a refusal leaves the output as it was.
pub fn take_back(limits: &Limits, words: &[u16], journal: &[u16], output: &mut [u16]) -> (u8, u16) {
    match try_back(limits, words, journal, output.len()) {
        Err(refusal) => (refusal.number(), 0),
        Ok(old) => {
            output[..old.len()].copy_from_slice(&old);
            (0, old.len() as u16)
        }
    }
}

fn try_back(
    limits: &Limits,
    words: &[u16],
    journal: &[u16],
    room: usize,
) -> Result<Vec<u16>, Refusal> {
    readable::read(limits, words).ok_or(Refusal::Unreadable)?;
    let old = restored(words, journal).ok_or(Refusal::Unmatched)?;
    readable::read(limits, &old).ok_or(Refusal::Unmatched)?;
    if room < old.len() {
        return Err(Refusal::ShortOutput);
    }
    Ok(old)
}

/// The whole words of bytes, an odd last byte left out.
pub(crate) fn whole(bytes: &[u8]) -> Vec<u16> {
    to_words(&bytes[..bytes.len() / 2 * 2]).expect("an even length")
}

pub(crate) fn spread(words: &[u16], bytes: &mut [u8]) {
    for (pair, word) in bytes.chunks_exact_mut(2).zip(words) {
        pair.copy_from_slice(&word.to_be_bytes());
    }
}

/// Packed as `sock_step`.
pub fn sock_step_journal_within(
    limits: &Limits,
    numbers: Numbers,
    config: &[u8],
    output: &mut [u8],
    journal: &mut [u8],
) -> u64 {
    let Some(words) = to_words(config) else {
        return u64::from(Refusal::Unreadable.number()) << 56;
    };
    let mut result = whole(output);
    let mut written = whole(journal);
    let answer = step_journal(limits, &words, numbers, &mut result, &mut written);
    spread(&result, output);
    spread(&written, journal);
    u64::from(answer.number) << 56
        | u64::from(answer.kind) << 48
        | u64::from(answer.fault) << 40
        | u64::from(answer.serial) << 16
        | u64::from(answer.length)
}

pub fn sock_step_journal(
    numbers: Numbers,
    config: &[u8],
    output: &mut [u8],
    journal: &mut [u8],
) -> u64 {
    sock_step_journal_within(&STANDARD, numbers, config, output, journal)
}

/// From the most significant bit: number 8, zero 40, length 16.
pub fn sock_take_back(config: &[u8], journal: &[u8], output: &mut [u8]) -> u64 {
    let Some(words) = to_words(config) else {
        return u64::from(Refusal::Unreadable.number()) << 56;
    };
    let mut result = whole(output);
    let (number, length) = take_back(&STANDARD, &words, &whole(journal), &mut result);
    spread(&result, output);
    u64::from(number) << 56 | u64::from(length)
}

#[cfg(test)]
mod tests {
    use super::{journal_of, restored};

    #[test]
    fn the_first_words_are_counted_before_the_last() {
        assert_eq!(journal_of(&[5, 5], &[5, 5, 5]), [2, 3, 2, 0, 5]);
        assert_eq!(journal_of(&[1, 2, 3], &[1, 9, 9, 3]), [3, 4, 1, 1, 2, 9, 9]);
        assert_eq!(journal_of(&[7, 8], &[7, 8]), [2, 2, 2, 0]);
    }

    #[test]
    fn a_journal_restores_and_a_cut_one_does_not() {
        let (old, new) = ([1, 2, 3], [1, 9, 9, 3]);
        let journal = journal_of(&old, &new);
        assert_eq!(restored(&new, &journal).as_deref(), Some(&old[..]));
        for length in 0..journal.len() {
            assert_eq!(restored(&new, &journal[..length]), None);
        }
    }
}
