//! Bytes that are no configurations, or only by chance: damaged ones and arbitrary ones.

use reference::generate::random::Random;

/// Names of the ways in which `damaged` changes bytes.
pub const WAYS: &[&str] = &[
    "bit flipped",
    "byte changed",
    "bytes swapped",
    "word cut",
    "word added",
    "end cut",
    "end added",
    "byte cut",
    "byte added",
];

/// The bytes changed in one of the ways.
pub fn damaged(random: &mut Random, way: &str, bytes: &[u8]) -> Vec<u8> {
    let mut bytes = bytes.to_vec();
    let at = place(random, bytes.len());
    let word = at & !1;
    match way {
        "bit flipped" => bytes[at] ^= 1 << random.below(8),
        "byte changed" => bytes[at] = random.word() as u8,
        "bytes swapped" => bytes.swap(word, word + 1),
        "word cut" => drop(bytes.drain(word..word + 2)),
        "word added" => drop(bytes.splice(word..word, random.word().to_be_bytes())),
        "end cut" => bytes.truncate(bytes.len() - random.between(1, 6).min(bytes.len())),
        "end added" => bytes.extend((0..random.between(1, 6)).map(|_| 0)),
        "byte cut" => drop(bytes.remove(at)),
        _ => bytes.insert(at, random.word() as u8),
    }
    bytes
}

/// Mostly behind the first engine's values, where nothing can be damaged.
fn place(random: &mut Random, length: usize) -> usize {
    match random.below(10) {
        0 => random.below(length.min(4)),
        1 => random.below(length),
        _ => (132 + random.below(length.saturating_sub(132))).min(length - 1),
    }
}

/// Bytes of a length: any, small ones, or words that begin processes.
pub fn arbitrary(random: &mut Random, length: usize) -> Vec<u8> {
    let manner = random.below(3);
    let mut bytes = Vec::with_capacity(length + 2);
    while bytes.len() < length {
        let word = match manner {
            0 => random.word(),
            1 => random.below(4) as u16,
            _ => (random.below(19) as u16) << 11,
        };
        bytes.extend(word.to_be_bytes());
    }
    bytes.truncate(length);
    bytes
}

/// Seq and par, which begin two processes.
const TWO: [u16; 2] = [2 << 11, 3 << 11];
/// Processes of one word: nil, throw, comp.
const LEAVES: [u16; 5] = [0, 13 << 11, 13 << 11 | 32, 14 << 11, 14 << 11 | 32];
/// A one-way and its count of variables, mostly 1.
const ONE_WAYS: [[u16; 2]; 4] = [[7 << 11, 1], [7 << 11 | 32, 1], [7 << 11, 1], [7 << 11, 0]];

/// One engine, all values 0, a scope around seq, par and leaves: often readable where the length
/// lets the leaves come out even.
pub fn almost(random: &mut Random, length: usize) -> Vec<u8> {
    let mut words = vec![0u16; 66];
    words[0] = 1;
    words.extend([11 << 11, 0, 0]);
    let mut open = 1;
    while words.len() < length / 2 {
        let left = length / 2 - words.len();
        let two = open < left && (open == 1 || random.percent(50));
        if !two && open < left && random.percent(20) {
            words.extend(ONE_WAYS[random.below(ONE_WAYS.len())]);
        } else {
            let heads = if two { &TWO[..] } else { &LEAVES[..] };
            words.push(heads[random.below(heads.len())]);
        }
        open = if two { open + 1 } else { open.saturating_sub(1) };
    }
    let mut bytes = reference::bytes::from_words(&words);
    bytes.resize(length, 0);
    bytes
}
