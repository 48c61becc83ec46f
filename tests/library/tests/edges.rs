//! The edges of a step: depth 64 and 65, 8,192 and 8,193 words, of the configuration and of the
//! result, issued 65,534 and 65,535, each with every length of output. In the small cabinet 32 and 33,
//! 2,048 and 2,049. Also the edges of the shorter scratches that `sock_step` first tries: no answer
//! depends on them.

use library::cabinet::Cabinet;
use library::compare::Comparison;
use library::counts::Wanted;
use library::input::{Input, Source};
use library::memory::Plain;
use library::outputs::{around, huge, Output, LONGEST};
use library::walk::result_length;
use reference::bytes::from_words;
use reference::configuration::Configuration;
use reference::generate::edges::{
    acting_deep, installing, long, result_deep, result_long, serials, WAYS,
};
use reference::generate::steps::fitting;
use reference::{write, Limits, Numbers};

/// Each step at an edge: where from, the configuration, the step, its number.
fn steps_at_edges(limits: &Limits) -> Vec<(&'static str, Configuration, Numbers, u8)> {
    let alone = |position| Numbers::new(0, position, 0, 0, 0);
    let Limits { depth, words } = *limits;
    let mut all = Vec::new();
    for way in WAYS {
        all.push(("deepest", acting_deep(*way, depth), alone(4), 0));
        all.push(("a level deeper", acting_deep(*way, depth + 1), alone(4), 1));
        all.push(("deepest result", result_deep(*way, depth), alone(3), 0));
        all.push(("a level deeper result", result_deep(*way, depth + 1), alone(3), 8));
    }
    for (class, result, number) in [
        ("a word shorter result", words - 1, 0),
        ("longest result", words, 0),
        ("a word longer result", words + 1, 9),
    ] {
        all.push((class, result_long(result).expect("long enough"), alone(4), number));
    }
    for (class, length, number) in [("longest", words, 0), ("a word longer", words + 1, 1)] {
        let before = long(length).expect("long enough");
        let comp = fitting(&before)[0].0;
        all.push((class, before, comp, number));
    }
    let solicit = Numbers::new(0, 3, 1, 3, 0);
    for (class, issued, number) in
        [("issued 0", 0, 0), ("issued 65,534", 65_534, 0), ("issued 65,535", 65_535, 7)]
    {
        all.push((class, serials(issued), solicit, number));
    }
    all
}

#[test]
fn edges_are_answered_alike() {
    edges(Cabinet::Large);
}

#[test]
fn edges_of_the_small_cabinet_are_answered_alike() {
    edges(Cabinet::Small);
}

fn edges(cabinet: Cabinet) {
    let limits = cabinet.limits();
    let mut comparison = Comparison::new(cabinet, Plain::default());
    for (step, (class, before, numbers, number)) in steps_at_edges(&limits).into_iter().enumerate()
    {
        let config = from_words(&write::configuration(&before));
        let input = Input { source: Source { class, seed: 0, step }, config: &config };
        comparison.read_all(&input);
        let words = result_length(&limits, &before, numbers).unwrap_or(config.len() / 2);
        let enough = Output { length: LONGEST, name: "longest" };
        assert_eq!(comparison.step(&input, numbers, enough).answer.number, number, "{class}");
        for output in around(words).into_iter().chain(huge()) {
            comparison.step(&input, numbers, output);
        }
    }
    comparison.report(
        "edges",
        Wanted {
            calls: 1_000,
            step: &[0, 1, 7, 8, 9, 10],
            start: &[0, 1, 11],
            readable: &[0, 1],
            ends: &[0, 12],
            kinds: &[5, 10, 14],
            outputs: &["2L - 1", "2L", "2L + 1", "huge"],
            processes: &["found", "empty"],
            ..Wanted::default()
        },
    );
}

/// The words of a configuration, and of a result, that a shorter scratch of the step has room for.
const SCRATCHES: [(usize, usize); 2] = [(512, 1_024), (2_304, 3_072)];

/// Lengths of results that fit and that do not, for a configuration so long; most are near what fits.
fn results(words: usize, most: usize) -> [usize; 7] {
    [words + 10, words + 100, most - 1, most, most + 1, most + 2, 2 * most]
}

/// The first step with every length of output near the result, the scratch's result and the
/// configuration; and on one byte less and one more, which are unreadable.
fn in_scratch(comparison: &mut Comparison<Plain>, words: usize, result: usize, most: usize) {
    let before = installing(words, result).expect("long enough");
    let numbers = fitting(&before)[0].0;
    let limits = comparison.cabinet.limits();
    assert_eq!(result_length(&limits, &before, numbers), Some(result), "{words}");
    let config = from_words(&write::configuration(&before));
    assert_eq!(config.len(), 2 * words, "{result}");
    let source = Source { class: "edge of a scratch", seed: words as u64, step: result };
    let input = Input { source, config: &config };
    let outputs = [result, most, words].map(around);
    for output in outputs.into_iter().flatten().chain(huge()) {
        let answer = comparison.step(&input, numbers, output).answer;
        let fits = 2 * result <= output.length;
        assert_eq!(answer.number, if fits { 0 } else { 10 }, "{words} to {result}: {output:?}");
    }
    for length in [2 * words - 1, 2 * words + 1] {
        let mut odd = config.clone();
        odd.resize(length, 0);
        let input = Input { source, config: &odd };
        let enough = Output { length: LONGEST, name: "longest" };
        assert_eq!(comparison.step(&input, numbers, enough).answer.number, 1, "{length} bytes");
    }
}

#[test]
fn the_edges_of_shorter_scratches_are_answered_alike() {
    let mut comparison = Comparison::new(Cabinet::Large, Plain::default());
    for (longest, most) in SCRATCHES {
        for words in longest - 1..=longest + 1 {
            for result in results(words, most) {
                in_scratch(&mut comparison, words, result, most);
            }
        }
    }
    comparison.report(
        "edges of shorter scratches",
        Wanted {
            calls: 1_000,
            step: &[0, 1, 10],
            outputs: &["2L - 1", "2L", "2L + 1", "huge"],
            ..Wanted::default()
        },
    );
}
