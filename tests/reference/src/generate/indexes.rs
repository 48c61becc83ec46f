//! Indexes of open requests (document 02, g): in order, with any serials, and out of form in every
//! way that there is; and starts from which many requests are open at once.

use crate::build;
use crate::configuration::Configuration;
use crate::generate::random::Random;
use crate::index::{index_of, Serials, MOST, WORDS};
use crate::process::Part;

/// A start in which engine 0 may solicit engine 1 so often at once, at least once.
pub fn crowded(count: usize) -> Configuration {
    let asks = beside(count, &build::solicit(1, 2, 3, 4, build::list([])));
    let serves = beside(count, &build::request(1, 5, 6, build::nil()));
    let mut both = build::configuration(0, vec![build::scope(1, asks), build::scope(2, serves)]);
    both.engines[0].values[3] = 1;
    both
}

/// A process so often, side by side.
fn beside(count: usize, process: &Part) -> Part {
    match count {
        0 | 1 => process.clone(),
        _ => build::par(beside(count / 2, process), beside(count - count / 2, process)),
    }
}

/// So many serials, at most 65,535: near a serial, near the ends, or any.
pub fn serials(random: &mut Random, count: usize, near: u16) -> Serials {
    let mut serials = Serials::new();
    while serials.len() < count {
        let serial = match random.below(4) {
            0 => near.saturating_add(random.below(5) as u16).saturating_sub(2),
            1 => random.below(count + 8) as u16,
            2 => u16::MAX - random.below(count + 8) as u16,
            _ => random.word(),
        };
        serials.extend((serial != 0).then_some(serial));
    }
    serials
}

/// An index in order.
pub fn in_order(random: &mut Random, near: u16) -> Vec<u16> {
    let count = [0, 1, 2, 40, MOST - 1, MOST][random.below(6)];
    index_of(&serials(random, count, near))
}

/// Ways to bring an index out of form; each has a name, and gives none where there is no such word.
pub type Disorder = fn(&mut Random, &[u16]) -> Option<Vec<u16>>;

#[rustfmt::skip]
pub const DISORDERS: &[(&str, Disorder)] = &[
    ("a word short", |_, index| Some(index[..WORDS - 1].to_vec())),
    ("cut", |random, index| Some(index[..random.below(WORDS)].to_vec())),
    ("count one more", |_, index| Some(put(index, 0, index[0] + 1))),
    ("count one less", |_, index| Some(put(index, 0, index[0].checked_sub(1)?))),
    ("count 2,048", |_, index| Some(put(index, 0, 2048))),
    ("count beyond the words", |random, index| {
        Some(put(index, 0, 2049 + random.below(65_536 - 2049) as u16))
    }),
    ("a serial 0", |random, index| Some(put(index, place(random, index)?, 0))),
    ("a serial twice", |random, index| {
        let at = place(random, index).filter(|at| *at > 1)?;
        Some(put(index, at, index[at - 1]))
    }),
    ("two serials swapped", |random, index| {
        let at = place(random, index).filter(|at| *at > 1)?;
        Some(put(&put(index, at, index[at - 1]), at - 1, index[at]))
    }),
    ("a serial below the one before", |random, index| {
        let at = place(random, index).filter(|at| *at > 1)?;
        Some(put(index, at, index[at - 1].checked_sub(1)?))
    }),
    ("a word behind the serials", |random, index| {
        let held = usize::from(index[0]);
        let at = held + 1 + random.below(WORDS - 1 - held);
        Some(put(index, at, 1 + random.below(65_535) as u16))
    }),
    ("the last word", |_, index| Some(put(index, WORDS - 1, 65_535))),
    ("2,048 serials", |random, index| {
        Some(index_of(&serials(random, MOST + 1, index[0])))
    }),
];

fn put(index: &[u16], at: usize, content: u16) -> Vec<u16> {
    let mut index = index.to_vec();
    index[at] = content;
    index
}

/// The place of one of its serials.
fn place(random: &mut Random, index: &[u16]) -> Option<usize> {
    let held = usize::from(index[0]);
    (held > 0).then(|| 1 + random.below(held))
}
