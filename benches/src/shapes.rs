//! Code in many shapes: of every kind, of leaves only, nested to the left, lists in lists.

use reference::build;
use reference::generate::code::{Alphabet, Maker};
use reference::generate::edges;
use reference::generate::random::Random;
use reference::process::{Key, Part};
use reference::write;

pub fn size(process: &Part) -> usize {
    write::process(process).len()
}

/// A balanced par of the processes; there has to be one.
pub fn balanced(processes: &[Part]) -> Part {
    match processes {
        [one] => one.clone(),
        _ => {
            let (left, right) = processes.split_at(processes.len() / 2);
            build::par(balanced(left), balanced(right))
        }
    }
}

/// Pieces of code of every kind whose balanced par, each piece wrapped, has about `words` words, and never more.
pub fn pieces(random: &mut Random, words: usize, wrap: impl Fn(Part) -> Part) -> Vec<Part> {
    let alphabet = Alphabet::random(random, 1);
    let leaf = wrap(build::throw(1));
    let mut length = size(&leaf);
    let mut pieces = vec![leaf.clone()];
    loop {
        let piece = wrap(Maker { random, alphabet: &alphabet, left: 60 }.solid(7, false));
        let piece = if length + 1 + size(&piece) <= words { piece } else { leaf.clone() };
        length += 1 + size(&piece);
        if words < length {
            return pieces;
        }
        pieces.push(piece);
    }
}

/// Code of every kind, about `words` words of it.
pub fn mixed(random: &mut Random, words: usize) -> Part {
    balanced(&pieces(random, words, |piece| piece))
}

/// Leaves of one word.
pub fn leaves(words: usize) -> Part {
    balanced(&vec![build::throw(1); words.div_ceil(2)])
}

/// Pars nested 60 deep to the left, about `words` words, with `inner` innermost; beside all but the ten innermost stands a balanced par of
/// leaves, beside those a leaf, since depth ends at 64.
pub fn leftward(words: usize, inner: Part) -> Part {
    let side = leaves((words / 50).saturating_sub(2).max(1));
    let beside = |k| if k < 10 { build::throw(1) } else { side.clone() };
    (0..60).fold(inner, |process, k| build::par(process, beside(k)))
}

/// Lists in lists: an inst whose entries hold insts.
pub fn lists(words: usize) -> Part {
    let mut process =
        edges::filler(40).map(|p| edges::solid(&p)).unwrap_or_else(|| build::throw(1));
    while size(&process) * 3 + 10 < words {
        let entry = |n| (Key::Fault(n), process.clone());
        process = build::inst(build::list([entry(1), entry(2), (Key::Fault(3), build::throw(2))]));
    }
    process
}
