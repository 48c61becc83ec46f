//! Lengths of outputs, in bytes, and a pattern to fill them with.

use reference::generate::random::Random;

/// An output's length and what it is called in the counts.
#[derive(Clone, Copy, Debug)]
pub struct Output {
    pub length: usize,
    pub name: &'static str,
}

/// The bytes of the longest configuration.
pub const LONGEST: usize = 16_384;

/// Names of the lengths around a result: from three bytes less to three more, and the extremes.
pub const NAMES: [&str; 11] = [
    "2L - 3",
    "2L - 2",
    "2L - 1",
    "2L",
    "2L + 1",
    "2L + 2",
    "2L + 3",
    "no byte",
    "one byte",
    "longest",
    "longest, odd",
];

/// Lengths around a result of so many words, and the extremes.
pub fn around(words: usize) -> Vec<Output> {
    let near = (0..7).map(|more| (2 * words + more).saturating_sub(3));
    let lengths = near.chain([0, 1, LONGEST, LONGEST + 1]);
    lengths.zip(NAMES).map(|(length, name)| Output { length, name }).collect()
}

/// One of the lengths around a result.
pub fn one_around(random: &mut Random, words: usize) -> Output {
    let all = around(words);
    all[random.below(all.len())]
}

/// Lengths that say another number of words in 16 bits, and their neighbours.
pub fn huge() -> impl Iterator<Item = Output> {
    let lengths = [65_535, 65_536, 131_071, 131_072, 131_073, 131_074, 131_080, 262_144];
    lengths.into_iter().map(|length| Output { length, name: "huge" })
}

/// Bytes that differ from place to place and from one salt to another.
pub fn pattern(salt: u64, length: usize) -> Vec<u8> {
    let mut random = Random::new(salt);
    let mut bytes = Vec::with_capacity(length + 8);
    while bytes.len() < length {
        bytes.extend_from_slice(&random.bits().to_le_bytes());
    }
    bytes.truncate(length);
    bytes
}
