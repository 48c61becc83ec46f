//! The rival of the proved readable check: a plain recursive walk over the words, as an engineer would write it in safe Rust. It builds
//! no tree and has no tables. The standard figures; 0, or 1 if the words are no configuration.

pub fn check_readable(words: &[u16]) -> u8 {
    u8::from(words.len() > 8_192 || configuration(words) != Some(words.len()))
}

/// Where a process stands, and what may stand there.
#[derive(Clone, Copy)]
struct Place {
    /// It is enabled: ends may stand here, and scopes that were at work.
    enabled: bool,
    /// Inside an entry of a solicit's, an inst's or a waiter's list: cH may stand here.
    handler: bool,
    nil: bool,
}

const ROOT: Place = Place { enabled: true, handler: false, nil: true };
const CODE: Place = Place { enabled: false, handler: false, nil: true };
const HANDLER: Place = Place { enabled: false, handler: true, nil: true };

impl Place {
    fn not_nil(self) -> Place {
        Place { nil: false, ..self }
    }

    fn any(self) -> Place {
        Place { nil: true, ..self }
    }

    /// The place of code that waits for what stands here.
    fn code(self) -> Place {
        Place { enabled: false, nil: true, ..self }
    }
}

fn configuration(words: &[u16]) -> Option<usize> {
    let (&engines, &issued) = (words.first()?, words.get(1)?);
    if !(1..=8).contains(&engines) {
        return None;
    }
    let walker = Walker { words, engines, issued };
    let mut at = 2;
    for _ in 0..engines {
        at += 64;
        let root = *words.get(at)?;
        if root != 0 && root >> 11 != 11 {
            return None;
        }
        at = walker.process(at, 64, ROOT)?;
    }
    Some(at)
}

struct Walker<'a> {
    words: &'a [u16],
    engines: u16,
    issued: u16,
}

/// Each function is handed where something begins and answers where it ends; `depth` are the levels left.
impl Walker<'_> {
    /// The word at a place, if none of the low bits is set.
    fn clear(&self, at: usize, bits: u16) -> Option<u16> {
        let word = *self.words.get(at)?;
        (word << (16 - bits) == 0).then_some(word)
    }

    fn process(&self, at: usize, depth: usize, place: Place) -> Option<usize> {
        let below = depth.checked_sub(1)?;
        let head = *self.words.get(at)?;
        let code = place.code();
        match head >> 11 {
            0 => (head == 0 && place.nil).then_some(at + 1),
            1 if head & 63 == 0 => self.expression(at + 1, below),
            2 if head & 2047 == 0 => {
                let second = self.process(at + 1, below, place.not_nil())?;
                self.process(second, below, code)
            }
            3 if head & 2047 == 0 => {
                let right = self.process(at + 1, below, place.not_nil())?;
                self.process(right, below, place.not_nil())
            }
            4 if head & 2047 == 0 => {
                let yes = self.expression(at + 1, below)?;
                let no = self.process(yes, below, code)?;
                self.process(no, below, code)
            }
            5 if head & 2047 == 0 => {
                let body = self.expression(at + 1, below)?;
                self.process(body, below, code)
            }
            6 => self.choice(at + 1, head & 2047, below, code),
            7 => self.receiving(at + 1, head & 31),
            8 => {
                self.clear(at + 1, 11)?;
                let y = self.receiving(at + 2, head & 31)?;
                self.process(self.variables(y)?, below, code)
            }
            9 => {
                self.clear(at + 1, 11)?;
                self.variables(at + 2)
            }
            10 => {
                let fixed = self.clear(at + 1, 6)?;
                let x = self.variables(at + 2)?;
                let list = self.receiving(x, fixed >> 6 & 31)?;
                self.list(list, below, HANDLER, None)
            }
            11 => self.scope(at, head, below, place),
            12 if head & 2047 == 0 => self.list(at + 1, below, HANDLER, None),
            13 | 14 if head & 31 == 0 => Some(at + 1),
            15 if head & 2047 == 0 && place.handler => Some(at + 1),
            16 if place.enabled => {
                let client = self.clear(at + 1, 13)? >> 13;
                let y = self.end(at + 2, client)?;
                self.process(self.variables(y)?, below, place.any())
            }
            17 if place.enabled => {
                let server = self.clear(at + 1, 12)? >> 12 & 7;
                let x = self.end(at + 2, server)?;
                let list = self.receiving(x, head & 31)?;
                self.list(list, below, HANDLER, None)
            }
            18 if place.enabled && head & 31 == 0 => {
                let client = self.clear(at + 1, 7)? >> 7 & 7;
                self.end(at + 2, client)
            }
            _ => None,
        }
    }

    fn choice(&self, at: usize, count: u16, below: usize, code: Place) -> Option<usize> {
        if !(1..=8).contains(&count) {
            return None;
        }
        let mut at = at;
        for _ in 0..count {
            if !matches!(self.words.get(at)? >> 11, 7 | 8) {
                return None;
            }
            let then = self.process(at, below, code)?;
            at = self.process(then, below, code)?;
        }
        Some(at)
    }

    fn scope(&self, at: usize, head: u16, below: usize, place: Place) -> Option<usize> {
        let fault = self.clear(at + 1, 10)? >> 10;
        let (mark, zombie) = (head >> 3 & 3, head >> 2 & 1);
        if head & 3 != 0 {
            return None;
        }
        if !place.enabled {
            let used = mark != 0 || zombie != 0 || fault != 0 || *self.words.get(at + 2)? != 0;
            return if used { None } else { self.process(at + 3, below, place.any()) };
        }
        let wanted = match (mark, fault, zombie) {
            (0, 0, _) | (2, 0, 1) => None,
            (1, fault, _) => Some(fault),
            _ => return None,
        };
        let body = self.list(at + 2, below, CODE, wanted)?;
        self.process(body, below, place.any())
    }

    /// A list whose entries stand in a place; the key wanted has to be there. In a scope's list nil may not stand under a scope's key.
    fn list(&self, at: usize, depth: usize, place: Place, wanted: Option<u16>) -> Option<usize> {
        let count = *self.words.get(at)?;
        let mut at = at + 1;
        let (mut least, mut met) = (0, wanted.is_none());
        for _ in 0..count {
            let key = self.clear(at, 9)? >> 9;
            if key < least {
                return None;
            }
            least = key + 1;
            met |= wanted == Some(key);
            let here = if key < 64 || place.handler { place } else { place.not_nil() };
            at = self.process(at + 1, depth, here)?;
        }
        met.then_some(at)
    }

    /// From an end's serial on, whose engine is given.
    fn end(&self, at: usize, engine: u16) -> Option<usize> {
        let serial = *self.words.get(at)?;
        (engine < self.engines && 0 < serial && serial <= self.issued).then_some(at + 1)
    }

    fn variables(&self, at: usize) -> Option<usize> {
        let count = *self.words.get(at)?;
        if !(1..=4).contains(&count) {
            return None;
        }
        let end = at + usize::from(count);
        for further in at + 1..end {
            self.clear(further, 11)?;
        }
        Some(end)
    }

    /// Variables that receive, none of them twice.
    fn receiving(&self, at: usize, first: u16) -> Option<usize> {
        let end = self.variables(at)?;
        let mut seen = 1u32 << first;
        for word in &self.words[at + 1..end] {
            let bit = 1u32 << (word >> 11);
            if seen & bit != 0 {
                return None;
            }
            seen |= bit;
        }
        Some(end)
    }

    fn expression(&self, at: usize, depth: usize) -> Option<usize> {
        let below = depth.checked_sub(1)?;
        let head = *self.words.get(at)?;
        match head >> 13 {
            0 => (head == 0 && at + 2 < self.words.len()).then_some(at + 3),
            1 => (head & 255 == 0).then_some(at + 1),
            _ if head & 8191 == 0 => {
                let right = self.expression(at + 1, below)?;
                self.expression(right, below)
            }
            _ => None,
        }
    }
}

#[cfg(test)]
mod tests {
    use reference::generate::damage::random_damage;
    use reference::generate::random::Random;
    use reference::generate::running;
    use reference::{write, STANDARD};

    /// A rival that answers otherwise would not be one.
    #[test]
    fn it_agrees_with_the_second_implementation() {
        let mut readable = 0;
        for seed in 0..20_000 {
            let random = &mut Random::new(seed);
            let words = write::configuration(&running::readable(random));
            assert_eq!(super::check_readable(&words), 0, "seed {seed}");
            let damaged = random_damage(random, &words);
            let wanted = reference::check_readable(&STANDARD, &damaged);
            assert_eq!(super::check_readable(&damaged), wanted, "seed {seed}, damaged");
            readable += u64::from(wanted == 0);
        }
        assert!((1_000..19_000).contains(&readable), "{readable} stayed readable");
    }
}
