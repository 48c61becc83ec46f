//! Calls on configurations and outputs that end where an inaccessible page begins, or begin
//! behind one. `guard` says which reads and writes outside are seen. A fault ends the run; what
//! was being called is printed before.

use library::bytes::{arbitrary, damaged, WAYS};
use library::cabinet::Cabinet;
use library::compare::Comparison;
use library::counts::{Wanted, ACTORS};
use library::guard::{Edge, Guarded};
use library::input::{Input, Source};
use library::memory_fault;
use library::outputs::{one_around, Output, NAMES};
use library::walk::walk;
use reference::bytes::from_words;
use reference::coverage::Coverage;
use reference::generate::edges::{long, result_deep, result_long, WAYS as NESTINGS};
use reference::generate::random::Random;
use reference::generate::run::{Origin, Run};
use reference::{write, Limits, Numbers};

const CLASSES: &[&str] = &["empty", "arbitrary bytes", "long", "deep"];

#[test]
fn nothing_behind_what_is_lent_is_touched() {
    guarded(Cabinet::Large, Edge::End, "ends at a guard page");
}

#[test]
fn nothing_before_what_is_lent_is_touched() {
    guarded(Cabinet::Large, Edge::Begin, "begins behind a guard page");
}

#[test]
fn nothing_behind_what_the_small_cabinet_is_lent_is_touched() {
    guarded(Cabinet::Small, Edge::End, "ends at a guard page");
}

#[test]
fn nothing_before_what_the_small_cabinet_is_lent_is_touched() {
    guarded(Cabinet::Small, Edge::Begin, "begins behind a guard page");
}

fn guarded(cabinet: Cabinet, edge: Edge, name: &'static str) {
    memory_fault::report(name);
    let mut comparison = Comparison::new(cabinet, Guarded::new(edge));
    runs(&mut comparison);
    damage(&mut comparison);
    small(&mut comparison);
    edges(&mut comparison);
    comparison.report(
        name,
        Wanted {
            calls: 20_000,
            step: &[0, 1, 2, 3, 4, 5, 6, 7, 8, 9, 10],
            start: &[0, 1, 11],
            readable: &[0, 1],
            ends: &[0, 1, 12],
            pending: &[0, 1, 2],
            kinds: ACTORS,
            classes: &[CLASSES, WAYS].concat(),
            outputs: &NAMES,
            processes: &["found", "empty"],
        },
    );
}

fn runs(comparison: &mut Comparison<Guarded>) {
    let plan = [
        (Origin::Fresh, 40, 40),
        (Origin::Growing, 3, 60),
        (Origin::Readable, 120, 12),
        (Origin::Renumbered, 40, 12),
    ];
    for (origin, seeds, steps) in plan {
        for seed in 0..seeds {
            walk(comparison, &mut Coverage::default(), (origin, 0x6000 + seed), steps);
        }
    }
}

fn damage(comparison: &mut Comparison<Guarded>) {
    for seed in 0..100 {
        let bytes = from_words(&Run::new(seed, Origin::Readable).words);
        let mut random = Random::new(seed);
        for (step, class) in WAYS.iter().enumerate() {
            let config = damaged(&mut random, class, &bytes);
            let input = Input { source: Source { class, seed, step }, config: &config };
            all_calls(comparison, &mut random, &input, Numbers::new(0, 3, 0, 0, 0));
        }
    }
}

fn small(comparison: &mut Comparison<Guarded>) {
    for length in 0..200 {
        let class = if length == 0 { CLASSES[0] } else { CLASSES[1] };
        let mut random = Random::new(length);
        let config = arbitrary(&mut random, length as usize);
        let input = Input { source: Source { class, seed: length, step: 0 }, config: &config };
        all_calls(comparison, &mut random, &input, Numbers::default());
    }
}

fn edges(comparison: &mut Comparison<Guarded>) {
    let Limits { depth, words } = comparison.cabinet.limits();
    let mut random = Random::new(0);
    let mut all = Vec::new();
    for words in words - 2..=words + 2 {
        all.push((CLASSES[2], long(words).expect("long enough"), 4));
        all.push((CLASSES[2], result_long(words).expect("long enough"), 4));
    }
    for way in NESTINGS {
        all.push((CLASSES[3], result_deep(*way, depth), 3));
        all.push((CLASSES[3], result_deep(*way, depth + 1), 3));
    }
    for (step, (class, configuration, position)) in all.into_iter().enumerate() {
        let config = from_words(&write::configuration(&configuration));
        let input = Input { source: Source { class, seed: 0, step }, config: &config };
        all_calls(comparison, &mut random, &input, Numbers::new(0, position, 0, 0, 0));
    }
}

/// The calls that read; the step with some length, with no byte, and with enough.
fn all_calls(
    comparison: &mut Comparison<Guarded>,
    random: &mut Random,
    input: &Input,
    numbers: Numbers,
) {
    comparison.read_all(input);
    let none = Output { length: 0, name: "no byte" };
    let enough = Output { length: 20_000, name: "larger" };
    for output in [one_around(random, input.config.len() / 2), none, enough] {
        comparison.step(input, numbers, output);
    }
}
