//! Document 02, l: both orders of all pairs of steps with no engine in common, from configurations
//! of random runs and from ones of about the longest length. Every step is compared with the second
//! implementation, every byte; and by themselves the orders end in the same words, each step says
//! the same in both, and no other engine changes.

use library::cabinet::{Cabinet, CABINETS};
use library::compare::Comparison;
use library::counts::Wanted;
use library::input::{Input, Source};
use library::memory::Plain;
use library::outputs::Output;
use library::walk::class;
use reference::build;
use reference::bytes::{from_words, to_words};
use reference::configuration::Configuration;
use reference::generate::beside::{in_order, padded, pairs, proposed, Proposed, Seen};
use reference::generate::run::{Origin, Run};
use reference::{readable, write};

const LONGEST: &str = "about the longest length";

/// Both orders of all pairs, with outputs of the longest configuration or of just as many words.
fn all_pairs(comparison: &mut Comparison<Plain>, seen: &mut Seen, source: Source, words: &[u16]) {
    let limits = comparison.cabinet.limits();
    let before = readable::read(&limits, words).expect("readable");
    let all = proposed(&limits, &before);
    for [one, other] in pairs(&all) {
        for output in [
            Output { length: comparison.cabinet.longest(), name: "longest" },
            Output { length: 2 * words.len(), name: "2L" },
        ] {
            let mut order = |steps: [&Proposed; 2]| {
                in_order(words, steps, |words, numbers| {
                    let config = from_words(words);
                    let input = Input { source, config: &config };
                    let stepped = comparison.step(&input, numbers, output);
                    (stepped.answer, to_words(&stepped.result).expect("whole words"))
                })
            };
            let orders = [order([one, other]), order([other, one])];
            seen.judge([one, other], orders.each_ref());
        }
    }
}

fn walk(comparison: &mut Comparison<Plain>, seen: &mut Seen, origin: Origin, seed: u64) {
    let mut run = Run::within(&comparison.cabinet.limits(), seed, origin);
    if run.configuration().is_none() {
        assert_eq!(comparison.cabinet, Cabinet::Small, "a start is readable");
        return;
    }
    for step in 0..10 {
        let source = Source { class: class(origin), seed, step };
        all_pairs(comparison, seen, source, &run.words);
        let Some(call) = run.call() else { return };
        let config = from_words(&run.words);
        let output = Output { length: 2 * call.room, name: "of a run" };
        let stepped = comparison.step(&Input { source, config: &config }, call.numbers, output);
        run.take(&stepped.answer, &to_words(&stepped.result).expect("whole words"));
    }
}

/// Two words more by a while, two words less by a comp: two engines of each.
fn growing_and_shrinking() -> Configuration {
    let grows = build::while_true(build::constant(1), build::comp(1));
    let shrinks = build::seq(build::comp(1), build::comp(2));
    let roots = [&grows, &grows, &shrinks, &shrinks].map(|body| build::scope(1, body.clone()));
    build::configuration(0, roots.to_vec())
}

#[test]
fn the_order_does_not_matter_between_steps_with_no_engine_in_common() {
    CABINETS.into_iter().for_each(either_order);
}

fn either_order(cabinet: Cabinet) {
    let mut comparison = Comparison::new(cabinet, Plain::default());
    let mut seen = Seen::default();
    let origins = [Origin::Fresh, Origin::Readable, Origin::Renumbered];
    let part = if cabinet == Cabinet::Large { 1 } else { 3 };
    for origin in origins {
        for seed in 0..150 / part as u64 {
            walk(&mut comparison, &mut seen, origin, 0x3e00 + seed);
        }
    }
    println!("{seen:?}");
    let Seen { both, with_solicit, one, none, two_solicits } = seen;
    assert!(both > 20_000 / part && with_solicit > 1500 / part && two_solicits > 10 / part);
    assert!(one > 20 / part && none > 50 / part, "{seen:?}");
    let classes = &origins.map(class);
    let wanted = Wanted { calls: 100_000, step: &[0, 10], classes, ..Wanted::default() };
    comparison.report("steps side by side", wanted);
}

#[test]
fn at_the_longest_configuration_lengths_decide() {
    CABINETS.into_iter().for_each(lengths_decide);
}

fn lengths_decide(cabinet: Cabinet) {
    let most = cabinet.limits().words;
    let mut comparison = Comparison::new(cabinet, Plain::default());
    let mut seen = Seen::default();
    for slack in 0..5 {
        let full = padded(&growing_and_shrinking(), most - slack).expect("five engines");
        let source = Source { class: LONGEST, seed: 0, step: slack };
        all_pairs(&mut comparison, &mut seen, source, &write::configuration(&full));
    }
    println!("{seen:?}");
    assert!(seen.both > 0 && seen.one > 0 && seen.none > 0, "{seen:?}");
    let wanted = Wanted { step: &[0, 9, 10], classes: &[LONGEST], ..Wanted::default() };
    comparison.report("steps side by side at the limit", wanted);
}
