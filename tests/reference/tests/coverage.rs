//! Generated runs meet every row of the rules and every refusal, and each kind as actor.

mod common;

use common::*;
use reference::coverage::Coverage;
use reference::generate::damage::{random_damage, CONDITIONS};
use reference::generate::run::{Origin, Run};
use reference::{check_start, ends, step, STANDARD};

/// Walks a run and notes what it meets.
fn walk(run: &mut Run, steps: usize, coverage: &mut Coverage, kinds: &mut [u64; 19]) {
    for _ in 0..steps {
        let before = run.configuration().expect("a run stays readable");
        let Some(call) = run.call() else { return };
        let mut output = vec![FILL; call.room];
        let answer = step(&STANDARD, &run.words, call.numbers, &mut output);
        coverage.step(&before, call.numbers, &answer);
        if answer.number == 0 {
            kinds[usize::from(answer.kind)] += 1;
        }
        run.take(&answer, &output);
    }
}

/// The calls and refusals that are no steps on readable words.
fn other_calls(run: &mut Run, coverage: &mut Coverage) {
    let words = run.words.clone();
    let start = check_start(&STANDARD, &words);
    if start == 11 {
        coverage.refusal(start);
    }
    let serial = run.random.word();
    coverage.refusal(ends(&STANDARD, &words, serial).number);
    let damaged = random_damage(&mut run.random, &words);
    let mut output = vec![0; STANDARD.words];
    let answer = step(&STANDARD, &damaged, alone(0, 0), &mut output);
    if answer.number == 1 {
        coverage.refusal(1);
    }
}

fn cover(origin: Origin, seeds: std::ops::Range<u64>, steps: usize) -> (Coverage, [u64; 19]) {
    let mut coverage = Coverage::default();
    let mut kinds = [0; 19];
    for seed in seeds {
        let mut run = Run::new(seed, origin);
        walk(&mut run, steps, &mut coverage, &mut kinds);
        other_calls(&mut run, &mut coverage);
    }
    (coverage, kinds)
}

#[test]
fn every_row_is_met() {
    let mut coverage = Coverage::default();
    let mut kinds = [0; 19];
    let plan = [
        (Origin::Fresh, 2000, 60),
        (Origin::Growing, 30, 160),
        (Origin::Readable, 3000, 20),
        (Origin::Renumbered, 500, 20),
    ];
    for (origin, seeds, steps) in plan {
        let (part, part_kinds) = cover(origin, 0..seeds, steps);
        for (row, count) in part.counts {
            *coverage.counts.entry(row).or_insert(0) += count;
        }
        for (all, part) in kinds.iter_mut().zip(part_kinds) {
            *all += part;
        }
    }
    assert_eq!(coverage.unknown(), Vec::<&str>::new());
    assert_eq!(coverage.missing(), Vec::<&str>::new());
    for kind in [1, 4, 5, 9, 10, 11, 12, 13, 14, 16, 18] {
        assert!(kinds[kind] > 0, "no actor of kind {kind}");
    }
    for (row, count) in &coverage.counts {
        println!("{count:8} {row}");
    }
    println!("accepted by kind {kinds:?}");
}

/// Rows not met from fresh starts are printed, not asserted. That a throw reaches no marked
/// scope there is argued and not proved: what a fault leaves behind below a mark is stopped by
/// zombies. Issued near 65,535 is out of reach of a short run.
#[test]
fn fresh_runs_alone_meet_the_rows_they_can() {
    let (coverage, kinds) = cover(Origin::Fresh, 10_000..13_000, 60);
    let missing = coverage.missing();
    println!("not met from fresh starts: {missing:?}");
    println!("accepted by kind {kinds:?}");
    let must = [
        "reply to a live waiter",
        "reply to a dead waiter",
        "fault to a live waiter",
        "fault to a dead waiter",
        "kills live waiter",
        "kills zombie",
        "mark 2 with entry",
        "promotion replaces",
        "throw through an executor, body left",
        "throw through an executor, notice alone",
        "kills executor with nil body",
    ];
    for row in must {
        assert!(!missing.contains(&row), "{row}");
    }
}

#[test]
fn every_condition_of_readable_is_broken() {
    let mut met = vec![0; CONDITIONS.len()];
    for seed in 0..300 {
        let mut run = Run::new(seed, Origin::Readable);
        let configuration = run.configuration().expect("readable");
        for (index, (_, damage)) in CONDITIONS.iter().enumerate() {
            met[index] += usize::from(damage(&mut run.random, &configuration).is_some());
        }
    }
    for ((name, _), count) in CONDITIONS.iter().zip(met) {
        assert!(count > 0, "{name}");
    }
}
