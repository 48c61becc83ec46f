//! The format before document 02's change c: a message carries one value, and no count of variables
//! stands anywhere. It and today's are two layouts of one tree, so a configuration is rewritten by
//! walking over its words and putting count 1 where a list of variables stands, and the earlier
//! step is today's rules between the two layouts, with its own positions and lengths. Recorded
//! vectors of the time before hold it to what was so.

pub mod input;

use crate::calls::{transition, Answer, Numbers};
use crate::configuration::{Configuration, WORDS_OF_VALUES};
use crate::limits::{Limits, STANDARD};
use crate::refusal::Refusal;
use crate::{readable, write};
use std::ops::Range;

/// What follows a head: fixed words, lists of variables (today), expressions, lists, processes.
type Row = (usize, usize, usize, usize, usize);

#[rustfmt::skip]
const ROWS: [Row; 19] = [
    (0, 0, 0, 0, 0), // nil
    (0, 0, 1, 0, 0), // assign
    (0, 0, 0, 0, 2), // seq
    (0, 0, 0, 0, 2), // par
    (0, 0, 1, 0, 2), // if
    (0, 0, 1, 0, 1), // while
    (0, 0, 0, 0, 2), // choice: for each branch
    (0, 1, 0, 0, 0), // one-way
    (1, 2, 0, 0, 1), // request
    (1, 1, 0, 0, 0), // notify
    (1, 2, 0, 1, 0), // solicit
    (1, 0, 0, 1, 1), // scope
    (0, 0, 0, 1, 0), // inst
    (0, 0, 0, 0, 0), // throw
    (0, 0, 0, 0, 0), // comp
    (0, 0, 0, 0, 0), // cH
    (2, 1, 0, 0, 1), // executor
    (2, 1, 0, 1, 0), // waiter
    (2, 0, 0, 0, 0), // notice
];

/// An earlier configuration in today's format.
#[derive(Clone, Debug, PartialEq, Eq)]
pub struct Rewriting {
    pub words: Vec<u16>,
    /// Where each earlier word stands now; behind the last, where the next would.
    pub places: Vec<usize>,
    /// Which of the earlier words are each engine's process.
    pub processes: Vec<Range<usize>>,
}

/// None for words that are not laid out in the earlier way. What is laid out and not readable is
/// rewritten to what is not readable.
pub fn rewrite(words: &[u16]) -> Option<Rewriting> {
    Walk::over(words, false)
}

/// The earlier words of a configuration of today's; None unless each of its lists of variables
/// has one.
pub fn without_counts(words: &[u16]) -> Option<Vec<u16>> {
    Walk::over(words, true).map(|walked| walked.words)
}

/// The readable configuration in earlier words, and its rewriting, which may be too long today.
pub fn read(words: &[u16]) -> Option<(Configuration, Rewriting)> {
    if words.len() > STANDARD.words {
        return None;
    }
    let rewriting = rewrite(words)?;
    let limits = Limits { words: usize::MAX, ..STANDARD };
    Some((readable::read(&limits, &rewriting.words)?, rewriting))
}

/// Document 01's step on earlier words, with its limits.
pub fn step(words: &[u16], numbers: Numbers, output: &mut [u16]) -> Answer {
    match try_step(words, numbers, output) {
        Ok(answer) => answer,
        Err(refusal) => Answer { number: refusal.number(), ..Answer::default() },
    }
}

fn try_step(words: &[u16], numbers: Numbers, output: &mut [u16]) -> Result<Answer, Refusal> {
    let (before, rewriting) = read(words).ok_or(Refusal::Unreadable)?;
    let result = transition(&before, rewriting.numbers(numbers))?;
    if result.configuration.depth() > STANDARD.depth {
        return Err(Refusal::Deep);
    }
    // Counts make a configuration at most twice as long: what is longer is not laid out.
    if result.configuration.size() > 2 * STANDARD.words {
        return Err(Refusal::Long);
    }
    let laid_out = write::configuration(&result.configuration);
    let earlier = without_counts(&laid_out).ok_or(Refusal::Unreadable)?;
    if earlier.len() > STANDARD.words {
        return Err(Refusal::Long);
    }
    let length = earlier.len();
    output.get_mut(..length).ok_or(Refusal::ShortOutput)?.copy_from_slice(&earlier);
    let (kind, serial, fault) = (result.kind, result.serial, result.fault);
    Ok(Answer { number: 0, kind, serial, fault, length: length as u16 })
}

impl Rewriting {
    /// The numbers of a step with its positions moved along.
    pub fn numbers(&self, numbers: Numbers) -> Numbers {
        let Numbers { engine, position, second_engine, second_position, branch } = numbers;
        Numbers {
            position: self.position(engine, position),
            second_position: self.position(second_engine, second_position),
            engine,
            second_engine,
            branch,
        }
    }

    /// A position that is behind its engine's process stays behind it; one in no engine stays.
    fn position(&self, engine: u16, position: u16) -> u16 {
        let Some(process) = self.processes.get(usize::from(engine)) else { return position };
        let place = process.start + usize::from(position);
        let within = self.places[place.min(process.end)] - self.places[process.start];
        u16::try_from(within + place.saturating_sub(process.end)).unwrap_or(u16::MAX)
    }
}

/// Copies words of one layout into the other.
struct Walk<'a> {
    words: &'a [u16],
    /// Whether they have counts of variables, which are left out, or get them.
    counted: bool,
    made: Rewriting,
}

impl Walk<'_> {
    fn over(words: &[u16], counted: bool) -> Option<Rewriting> {
        let made = Rewriting { words: vec![], places: vec![], processes: vec![] };
        let mut walk = Walk { words, counted, made };
        let engines = walk.word()?;
        walk.word()?;
        if engines > 8 {
            return None;
        }
        for _ in 0..engines {
            (0..WORDS_OF_VALUES).try_for_each(|_| walk.word().map(drop))?;
            let start = walk.made.places.len();
            walk.process(STANDARD.depth)?;
            let end = walk.made.places.len();
            walk.made.processes.push(start..end);
        }
        walk.made.places.push(walk.made.words.len());
        walk.words.get(walk.made.places.len() - 1).is_none().then_some(walk.made)
    }

    /// Takes the next word, which goes where the other layout is now.
    fn take(&mut self) -> Option<u16> {
        let word = *self.words.get(self.made.places.len())?;
        self.made.places.push(self.made.words.len());
        Some(word)
    }

    /// Copies the next word.
    fn word(&mut self) -> Option<u16> {
        let word = self.take()?;
        self.made.words.push(word);
        Some(word)
    }

    /// A list of one variable: its count, which only today's layout has.
    fn count(&mut self) -> Option<()> {
        if self.counted {
            return (self.take()? == 1).then_some(());
        }
        self.made.words.push(1);
        Some(())
    }

    fn process(&mut self, depth: usize) -> Option<()> {
        let below = depth.checked_sub(1)?;
        let head = self.word()?;
        let kind = usize::from(head >> 11);
        let (fixed, counts, expressions, lists, parts) = *ROWS.get(kind)?;
        let parts = if kind == 6 { parts * usize::from(head & 0x7FF) } else { parts };
        (0..fixed).try_for_each(|_| self.word().map(drop))?;
        (0..counts).try_for_each(|_| self.count())?;
        (0..expressions).try_for_each(|_| self.expression(below))?;
        (0..lists).try_for_each(|_| self.list(below))?;
        (0..parts).try_for_each(|_| self.process(below))
    }

    fn list(&mut self, below: usize) -> Option<()> {
        let entries = self.word()?;
        (0..entries).try_for_each(|_| {
            self.word()?;
            self.process(below)
        })
    }

    fn expression(&mut self, depth: usize) -> Option<()> {
        let below = depth.checked_sub(1)?;
        match self.word()? >> 13 {
            0 => (0..2).try_for_each(|_| self.word().map(drop)),
            1 => Some(()),
            _ => (0..2).try_for_each(|_| self.expression(below)),
        }
    }
}
