//! Document 02's change e: planners' starts, with fixed scopes (kind 19), and their translation.
//!
//! One descent over the words reads a process where it stands, with what document 01 asks of the
//! place, and gives its translation at once: kind 19 is allowed wherever an unmarked scope is.

use crate::bytes::to_words;
use crate::journal::{spread, whole};
use crate::limits::{Limits, STANDARD};

/// Kind 19: name; a list of fault handlers; termination process, compensation process, body.
pub const FIXED: u16 = 19;

/// cH stands free in one of a fixed scope's own handlers.
pub const FIXED_CH: u8 = 14;

/// Where a process stands.
#[derive(Clone, Copy)]
struct Place {
    /// Engines and issued, where the process is enabled.
    enabled: Option<(u16, u16)>,
    /// Inside a list entry of kinds 10, 12, 17, or a fixed scope's handler: cH may stand.
    handler: bool,
    /// In a fixed scope's own handler, with no list of kinds 10, 12 or 17 between.
    free: bool,
}

impl Place {
    const CODE: Place = Place { enabled: None, handler: false, free: false };
    const ENTRY: Place = Place { enabled: None, handler: true, free: false };
    const FIXED_HANDLER: Place = Place { enabled: None, handler: true, free: true };

    /// Of a part that is not enabled in any case.
    fn resting(self) -> Place {
        Place { enabled: None, ..self }
    }
}

/// A process's translation, and what was met in it.
struct Found {
    kind: u16,
    words: Vec<u16>,
    depth: usize,
    /// It has begun: an end, or a scope with mark, zombie or entries.
    begun: bool,
    /// cH stood free in a fixed scope's own handler.
    caught: bool,
}

impl Found {
    fn new(kind: u16, words: &[u16]) -> Found {
        Found { kind, words: words.to_vec(), depth: 1, begun: false, caught: false }
    }

    /// A part that stands `below` levels under this.
    fn add(&mut self, part: &Found, below: usize) {
        self.words.extend_from_slice(&part.words);
        self.depth = self.depth.max(part.depth + below);
        self.begun |= part.begun;
        self.caught |= part.caught;
    }
}

struct Reader<'a> {
    words: &'a [u16],
    at: usize,
}

impl Reader<'_> {
    fn word(&mut self) -> Option<u16> {
        let word = *self.words.get(self.at)?;
        self.at += 1;
        Some(word)
    }

    /// A word whose bits below `unused` are 0.
    fn clear(&mut self, unused: u16) -> Option<u16> {
        self.word().filter(|word| word % unused == 0)
    }

    fn variables(&mut self, first: u16, distinct: bool) -> Option<()> {
        let count = self.word()?;
        if !(1..=4).contains(&count) {
            return None;
        }
        let mut seen = vec![first];
        for _ in 1..count {
            seen.push(self.clear(2048)? / 2048);
        }
        let all = seen.len();
        seen.sort_unstable();
        seen.dedup();
        (!distinct || seen.len() == all).then_some(())
    }

    /// An expression's depth.
    fn expression(&mut self, left: usize) -> Option<usize> {
        let left = left.checked_sub(1)?;
        let word = self.word()?;
        match word / 8192 {
            0 if word == 0 => {
                self.word()?;
                self.word()?;
                Some(1)
            }
            1 if word % 256 == 0 => Some(1),
            2..=7 if word % 8192 == 0 => {
                let one = self.expression(left)?;
                Some(1 + one.max(self.expression(left)?))
            }
            _ => None,
        }
    }

    /// A list's entries, below a node that is `found`; the keys.
    fn list(
        &mut self,
        left: usize,
        place: Place,
        below: usize,
        found: &mut Found,
    ) -> Option<Vec<(u16, bool)>> {
        let count = self.word()?;
        found.words.push(count);
        let mut keys: Vec<(u16, bool)> = Vec::new();
        for _ in 0..count {
            let key = self.clear(512)?;
            if keys.last().is_some_and(|&(last, _)| key / 512 <= last) {
                return None;
            }
            let entry = self.process(left, place)?;
            keys.push((key / 512, entry.kind == 0));
            found.words.push(key);
            found.add(&entry, below);
        }
        Some(keys)
    }

    fn not_nil(&mut self, left: usize, place: Place) -> Option<Found> {
        self.process(left, place).filter(|found| found.kind != 0)
    }

    /// A process of at most `left` levels, and its translation.
    fn process(&mut self, left: usize, place: Place) -> Option<Found> {
        let left = left.checked_sub(1)?;
        let start = self.at;
        let head = self.word()?;
        let (kind, bits) = (head / 2048, head % 2048);
        let rest = place.resting();
        let unused = match kind {
            0 | 2..=5 | 12 | 15 => 2048,
            1 => 64,
            11 => 4,
            13 | 14 | 18 | FIXED => 32,
            6..=10 | 16 | 17 => 1,
            _ => return None,
        };
        if head % unused != 0 {
            return None;
        }
        if kind == FIXED {
            return self.fixed(left, place, head / 32 % 64);
        }
        let expressions = match kind {
            1 | 4 | 5 => self.expression(left)?,
            _ => 0,
        };
        let second = head % 32;
        match kind {
            7 => self.variables(second, true)?,
            8 => {
                let y = self.clear(2048)? / 2048;
                self.variables(second, true)?;
                self.variables(y, false)?;
            }
            9 => {
                self.clear(2048)?;
                self.variables(second, false)?;
            }
            10 => {
                let word = self.clear(64)?;
                self.variables(second, false)?;
                self.variables(word / 64 % 32, true)?;
            }
            11 => {
                self.clear(1024)?;
            }
            16..=18 => {
                let (engines, issued) = place.enabled?;
                let word = self.clear([8192, 4096, 128][usize::from(kind) - 16])?;
                let engine = [word / 8192, word / 4096 % 8, word / 128 % 8][usize::from(kind) - 16];
                let serial = self.word()?;
                if engine >= engines || serial == 0 || serial > issued {
                    return None;
                }
                if kind != 18 {
                    self.variables(second, kind == 17)?;
                }
            }
            15 if !place.handler => return None,
            _ => {}
        }
        let mut found = Found::new(kind, &self.words[start..self.at]);
        found.depth += expressions;
        found.begun = kind >= 16;
        found.caught = kind == 15 && place.free;
        match kind {
            10 | 12 | 17 => {
                self.list(left, Place::ENTRY, 1, &mut found)?;
            }
            11 => {
                let fault = self.words[start + 1] / 1024;
                let keys = self.list(left, Place::CODE, 1, &mut found)?;
                let (mark, zombie) = (head / 8 % 4, head / 4 % 2 == 1);
                let marked = match mark {
                    0 => fault == 0,
                    1 => keys.iter().any(|&(key, _)| key == fault),
                    2 => fault == 0 && zombie,
                    _ => false,
                };
                let untouched = mark == 0 && !zombie && keys.is_empty();
                if !marked
                    || keys.iter().any(|&(key, nil)| key >= 64 && nil)
                    || place.enabled.is_none() && !untouched
                {
                    return None;
                }
                found.begun |= !untouched;
            }
            _ => {}
        }
        match kind {
            2 => {
                found.add(&self.not_nil(left, place)?, 1);
                found.add(&self.process(left, rest)?, 1);
            }
            3 => {
                found.add(&self.not_nil(left, place)?, 1);
                found.add(&self.not_nil(left, place)?, 1);
            }
            4 => {
                found.add(&self.process(left, rest)?, 1);
                found.add(&self.process(left, rest)?, 1);
            }
            5 | 8 => found.add(&self.process(left, rest)?, 1),
            6 => {
                if !(1..=8).contains(&bits) {
                    return None;
                }
                for _ in 0..bits {
                    found.add(
                        &self.process(left, rest).filter(|guard| matches!(guard.kind, 7 | 8))?,
                        1,
                    );
                    found.add(&self.process(left, rest)?, 1);
                }
            }
            11 | 16 => found.add(&self.process(left, place)?, 1),
            _ => {}
        }
        Some(found)
    }

    /// `scope name { inst(faults) ; ( inst(name: T) ; ( P ; inst(name: C) ) ) }`, P left out if it is nil.
    fn fixed(&mut self, left: usize, place: Place, name: u16) -> Option<Found> {
        const SEQ: u16 = 2 * 2048;
        const INST: u16 = 12 * 2048;
        let key = (64 + name) * 512;
        let mut found = Found::new(11, &[11 * 2048 + name * 32, 0, 0, SEQ, INST]);
        found.depth = 4;
        let keys = self.list(left, Place::FIXED_HANDLER, 3, &mut found)?;
        if keys.iter().any(|&(key, _)| key >= 64) {
            return None;
        }
        let termination = self.process(left, Place::FIXED_HANDLER)?;
        let compensation = self.process(left, Place::FIXED_HANDLER)?;
        let body = self.process(left, place)?;
        found.words.extend([SEQ, INST, 1, key]);
        found.add(&termination, 4);
        if body.kind == 0 {
            found.words.extend([INST, 1, key]);
            found.add(&compensation, 4);
        } else {
            found.words.push(SEQ);
            found.add(&body, 4);
            found.words.extend([INST, 1, key]);
            found.add(&compensation, 5);
        }
        Some(found)
    }
}

/// The words of the start that a planners' start becomes, or a refusal's number.
pub fn translated(limits: &Limits, words: &[u16], room: usize) -> Result<Vec<u16>, u8> {
    let (start, depth, begun, caught) = read(limits, words).ok_or(1)?;
    match () {
        _ if caught => Err(FIXED_CH),
        _ if begun => Err(11),
        _ if depth > limits.depth => Err(8),
        _ if start.len() > limits.words => Err(9),
        _ if start.len() > room => Err(10),
        _ => Ok(start),
    }
}

fn read(limits: &Limits, words: &[u16]) -> Option<(Vec<u16>, usize, bool, bool)> {
    if words.len() > limits.words {
        return None;
    }
    let mut reader = Reader { words, at: 0 };
    let (engines, issued) = (reader.word()?, reader.word()?);
    if !(1..=8).contains(&engines) {
        return None;
    }
    let (mut start, mut depth, mut begun, mut caught) =
        (vec![engines, issued], 0, issued != 0, false);
    for _ in 0..engines {
        start.extend_from_slice(words.get(reader.at..reader.at + 64)?);
        reader.at += 64;
        let place = Place { enabled: Some((engines, issued)), handler: false, free: false };
        let root =
            reader.process(limits.depth, place).filter(|root| matches!(root.kind, 0 | 11))?;
        begun |= root.kind == 0 || root.begun;
        caught |= root.caught;
        depth = depth.max(root.depth);
        start.extend_from_slice(&root.words);
    }
    (reader.at == words.len()).then_some((start, depth, begun, caught))
}

/// The call on words: number and length; words past it stay.
pub fn translate(limits: &Limits, words: &[u16], output: &mut [u16]) -> (u8, u16) {
    match translated(limits, words, output.len()) {
        Ok(start) => {
            output[..start.len()].copy_from_slice(&start);
            (0, start.len() as u16)
        }
        Err(number) => (number, 0),
    }
}

/// From the most significant bit: number 8, zero 40, length 16. An odd length is 1.
pub fn sock_translate(config: &[u8], output: &mut [u8]) -> u64 {
    let Some(words) = to_words(config) else { return 1 << 56 };
    let mut result = whole(output);
    let (number, length) = translate(&STANDARD, &words, &mut result);
    spread(&result, output);
    u64::from(number) << 56 | u64::from(length)
}
