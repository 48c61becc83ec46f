//! Document 02, l: both orders of all pairs of steps with no engine in common, from configurations
//! of random runs; with room for every result, at the limit of words, and with short outputs.

mod common;

use common::*;
use reference::build;
use reference::configuration::Configuration;
use reference::generate::beside::{in_order, padded, pairs, proposed, Seen};
use reference::generate::run::{Origin, Run};
use reference::{step, Answer, Limits, Numbers, STANDARD};

/// A step into an output of so many words: its answer and its result.
fn stepped(limits: &Limits, room: usize, words: &[u16], numbers: Numbers) -> (Answer, Vec<u16>) {
    let mut output = vec![FILL; room];
    let answer = step(limits, words, numbers, &mut output);
    output.truncate(usize::from(answer.length));
    (answer, output)
}

/// Both orders of all pairs of one configuration.
fn all_pairs(seen: &mut Seen, limits: &Limits, room: usize, words: &[u16]) {
    let all = proposed(limits, &read(words));
    for [one, other] in pairs(&all) {
        let order = |steps| in_order(words, steps, |words, k| stepped(limits, room, words, k));
        seen.judge([one, other], [&order([one, other]), &order([other, one])]);
    }
}

/// The configurations of a run, each as it is, at the limit and with outputs just as long.
fn walk(seen: &mut [Seen; 3], seed: u64, origin: Origin, steps: usize) {
    let mut run = Run::new(seed, origin);
    for _ in 0..steps {
        let length = run.words.len();
        let near = length + run.random.below(4);
        all_pairs(&mut seen[0], &STANDARD, STANDARD.words, &run.words);
        all_pairs(&mut seen[1], &Limits { words: near, ..STANDARD }, STANDARD.words, &run.words);
        all_pairs(&mut seen[2], &STANDARD, near, &run.words);
        let Some(call) = run.call() else { return };
        let (answer, output) = stepped(&STANDARD, call.room, &run.words, call.numbers);
        run.take(&answer, &output);
    }
}

#[test]
fn the_order_does_not_matter_between_steps_with_no_engine_in_common() {
    let mut seen = [Seen::default(); 3];
    for origin in [Origin::Fresh, Origin::Readable, Origin::Renumbered] {
        for seed in 0..120 {
            walk(&mut seen, 0x1e00 + seed, origin, 10);
        }
    }
    println!("{seen:?}");
    let [full, limited, short] = seen;
    assert_eq!((full.one, full.none), (0, 0), "there is room for every result");
    for each in seen {
        assert!(each.both > 8000 && each.with_solicit > 400, "{each:?}");
    }
    for each in [limited, short] {
        assert!(each.one > 20 && each.none > 20, "{each:?}");
    }
}

/// Two words more by a while, two words less by a comp: two engines of each.
fn growing_and_shrinking() -> Configuration {
    let grows = build::while_true(build::constant(1), build::comp(1));
    let shrinks = build::seq(build::comp(1), build::comp(2));
    let roots = [&grows, &grows, &shrinks, &shrinks].map(|body| build::scope(1, body.clone()));
    build::configuration(0, roots.to_vec())
}

#[test]
fn at_the_longest_configuration_lengths_decide() {
    // By words left: the six pairs are two of which both grow or both shrink, and four of one each.
    for (slack, both, one, none) in
        [(0, 1, 4, 1), (1, 1, 4, 1), (2, 5, 0, 1), (3, 5, 0, 1), (4, 6, 0, 0)]
    {
        let mut seen = Seen::default();
        let full = padded(&growing_and_shrinking(), STANDARD.words - slack).expect("five engines");
        let words = words(&full);
        assert_eq!(words.len(), STANDARD.words - slack);
        all_pairs(&mut seen, &STANDARD, STANDARD.words, &words);
        assert_eq!((seen.both, seen.one, seen.none), (both, one, none), "{slack} words left");
    }
}

#[test]
fn of_two_solicits_the_first_has_the_next_serial() {
    let asks = || build::scope(1, build::solicit(1, 2, 3, 4, build::list([])));
    let serves = || build::scope(1, build::request(1, 5, 6, build::nil()));
    let mut four = build::configuration(7, vec![asks(), serves(), asks(), serves()]);
    four.engines[0].values[3] = 1;
    four.engines[2].values[3] = 3;
    let one = between(&four, (0, 10), (1, 8));
    let other = between(&four, (2, 10), (3, 8));
    for steps in [[one, other], [other, one]] {
        let (first, then) = accept(&four, steps[0]);
        let (second, _) = accept(&then, steps[1]);
        assert_eq!((first.serial, second.serial), (8, 9));
    }
    let mut seen = Seen::default();
    all_pairs(&mut seen, &STANDARD, STANDARD.words, &words(&four));
    assert_eq!((seen.two_solicits, seen.both), (1, 0));
}
