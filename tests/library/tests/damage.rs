//! Damaged configurations: words changed at random, each condition of readable broken, bytes
//! flipped, cut and added. Some stay readable; on all of them the calls agree.

use library::bytes::{damaged, WAYS};
use library::cabinet::{Cabinet, CABINETS};
use library::compare::Comparison;
use library::counts::{Wanted, ACTORS};
use library::input::{Input, Source};
use library::memory::Plain;
use library::outputs::one_around;
use reference::bytes::from_words;
use reference::calls::transition;
use reference::configuration::Configuration;
use reference::generate::damage::{random_damage, CONDITIONS};
use reference::generate::random::Random;
use reference::generate::run::{Run, ORIGINS};
use reference::generate::steps;
use reference::{write, Limits, Numbers};

/// A readable configuration some steps into a run, and a step that fits it.
fn undamaged(limits: &Limits, seed: u64) -> (Configuration, Numbers) {
    let origin = ORIGINS[seed as usize % ORIGINS.len()];
    let mut run = Run::new(seed, origin);
    let mut configuration = run.configuration().expect("a start is readable");
    for _ in 0..run.random.below(12) {
        let numbers = steps::likely(&mut run.random, &configuration);
        configuration = match transition(&configuration, numbers) {
            Ok(next) if within(limits, &next.configuration) => next.configuration,
            _ => configuration,
        };
    }
    let numbers = steps::likely(&mut run.random, &configuration);
    (configuration, numbers)
}

fn within(limits: &Limits, configuration: &Configuration) -> bool {
    configuration.size() <= 1000 && configuration.depth() <= limits.depth
}

/// The calls on damaged bytes.
fn all_calls(
    comparison: &mut Comparison<Plain>,
    random: &mut Random,
    input: &Input,
    numbers: Numbers,
) {
    match input.source.seed % 16 {
        0 => comparison.read_all(input),
        _ => comparison.read_one(input),
    }
    for _ in 0..2 {
        let output = one_around(random, input.config.len() / 2);
        comparison.step(input, numbers, output);
    }
}

#[test]
fn damaged_words_are_answered_alike() {
    CABINETS.into_iter().for_each(damaged_words);
}

fn damaged_words(cabinet: Cabinet) {
    let mut comparison = Comparison::new(cabinet, Plain::default());
    for seed in 0..3000 {
        let (configuration, numbers) = undamaged(&cabinet.limits(), seed);
        let words = write::configuration(&configuration);
        let mut random = Random::new(seed);
        for step in 0..4 {
            let config = from_words(&random_damage(&mut random, &words));
            let source = Source { class: "damaged words", seed, step };
            let input = Input { source, config: &config };
            all_calls(&mut comparison, &mut random, &input, numbers);
        }
    }
    comparison.report("damaged words", wanted(50_000, &["damaged words"]));
}

#[test]
fn damaged_bytes_are_answered_alike() {
    damaged_bytes(Cabinet::Large);
}

#[test]
fn damaged_bytes_are_answered_alike_in_the_small_cabinet() {
    damaged_bytes(Cabinet::Small);
}

fn damaged_bytes(cabinet: Cabinet) {
    let mut comparison = Comparison::new(cabinet, Plain::default());
    for seed in 0..6000 {
        let (configuration, numbers) = undamaged(&cabinet.limits(), seed);
        let bytes = from_words(&write::configuration(&configuration));
        let mut random = Random::new(seed);
        for (step, class) in WAYS.iter().enumerate() {
            let config = damaged(&mut random, class, &bytes);
            let source = Source { class, seed, step };
            let input = Input { source, config: &config };
            all_calls(&mut comparison, &mut random, &input, numbers);
        }
    }
    comparison.report("damaged bytes", wanted(50_000, WAYS));
}

#[test]
fn each_broken_condition_is_answered_alike() {
    CABINETS.into_iter().for_each(broken_conditions);
}

fn broken_conditions(cabinet: Cabinet) {
    let mut comparison = Comparison::new(cabinet, Plain::default());
    for seed in 0..150 {
        let (configuration, numbers) = undamaged(&cabinet.limits(), seed);
        let mut random = Random::new(seed);
        for (step, (class, damage)) in CONDITIONS.iter().enumerate() {
            let Some(words) = damage(&mut random, &configuration) else { continue };
            let config = from_words(&words);
            let source = Source { class, seed, step };
            let input = Input { source, config: &config };
            all_calls(&mut comparison, &mut random, &input, numbers);
        }
    }
    let classes: Vec<&str> = CONDITIONS.iter().map(|(name, _)| *name).collect();
    let unreadable =
        Wanted { step: &[1], start: &[1], ends: &[1], pending: &[1], kinds: &[], ..wanted(0, &[]) };
    comparison.report(
        "broken conditions",
        Wanted {
            calls: 10_000,
            classes: &classes,
            readable: &[1],
            processes: &["empty"],
            ..unreadable
        },
    );
    assert_eq!(comparison.counts.of("readable check", 0), 0, "a broken condition is readable");
}

/// Damage leaves some configurations readable: then numbers and kinds are met as in runs.
fn wanted<'a>(calls: u64, classes: &'a [&'a str]) -> Wanted<'a> {
    Wanted {
        calls,
        step: &[0, 1, 2, 3, 5, 10],
        start: &[0, 1, 11],
        readable: &[0, 1],
        ends: &[0, 1, 12],
        pending: &[0, 1, 2],
        kinds: ACTORS,
        classes,
        outputs: &[],
        processes: &["found", "empty"],
    }
}
