//! Labels over runs: a process keeps its label, and no other gets it; a configuration with labels is written and read with them.

use crate::texts::assembled;
use reference::generate::run::{Run, ORIGINS};
use sock::diagnose;
use sock::files::text;
use sock::follow::follow;
use sock::library::{self, Move};
use sock::names::Names;
use sock::state::State;
use sock::tree::{places, Configuration, Kind};

/// Labels are carried over every accepted step: what the rule makes of the tree is always what the archive wrote.
#[test]
fn labels_follow_runs() {
    let mut accepted = [0usize; 19];
    for seed in 0..600 {
        let mut run = Run::new(seed, ORIGINS[seed as usize % ORIGINS.len()]);
        let mut now = labelled(diagnose::read(&run.words).unwrap());
        for _ in 0..40 {
            let Some(call) = run.call() else { break };
            let numbers = call.numbers;
            let step = Move::of(&[
                numbers.engine,
                numbers.position,
                numbers.second_engine,
                numbers.second_position,
                numbers.branch,
            ])
            .unwrap();
            let (answer, after) = library::step(&run.words, step);
            let Some(after) = after else { continue };
            accepted[usize::from(answer.kind)] += 1;
            let read = diagnose::read(&after).unwrap();
            let next = follow(&now, step, &read);
            assert_eq!(next.words(), after);
            let lost = lost_labels(&next);
            assert!(lost.is_empty(), "seed {seed}: labels are lost over {step:?}: {lost:?}");
            let strange = strange_labels(&next);
            assert!(strange.is_empty(), "seed {seed}: {strange:?} after {step:?}");
            now = next;
            run.words = after;
        }
        written_with_labels(&now, seed);
    }
    for kind in [1, 4, 5, 9, 10, 11, 12, 13, 14, 16, 18] {
        assert!(accepted[kind] > 20, "{accepted:?}");
    }
}

/// Kinds of the processes without label, but for those that a step makes anew.
fn lost_labels(configuration: &Configuration) -> Vec<Kind> {
    let made = [Kind::Seq, Kind::Par, Kind::Nil, Kind::Throw];
    let engines = configuration.engines.iter();
    let bare = engines
        .flat_map(|engine| places(&engine.process))
        .filter(|place| place.process.labels.is_empty());
    bare.map(|place| place.process.kind).filter(|kind| !made.contains(kind)).collect()
}

/// Labels that say another thing than a process was from which theirs can have come about.
fn strange_labels(configuration: &Configuration) -> Vec<String> {
    let engines = configuration.engines.iter();
    let all = engines.flat_map(|engine| places(&engine.process)).flat_map(|place| {
        let process = place.process;
        process.labels.iter().map(move |label| (label.to_string(), process.kind, process.name))
    });
    let fits = |label: &str, kind: Kind, name: u8| {
        let (was, named) = label.rsplit_once('-').unwrap();
        let came = match kind {
            Kind::Waiter => ["solicit", "waiter"].contains(&was),
            Kind::Executor => ["request", "executor"].contains(&was),
            Kind::Notice => ["request", "executor", "notice"].contains(&was),
            // What a waiter has become has no operation any more.
            Kind::Inst | Kind::Throw if ["solicit", "waiter"].contains(&was) => return true,
            kind => kind.name() == was,
        };
        came && named == name.to_string() || was == "choice" && kind.is_end()
    };
    all.filter(|(label, kind, name)| !fits(label, *kind, *name)).map(|(label, ..)| label).collect()
}

/// A configuration with labels on its processes is written and read with them.
fn written_with_labels(configuration: &Configuration, seed: u64) {
    let state = State { words: configuration.words(), tree: configuration.clone() };
    let text = text(&Names::default(), &state, &[]);
    let back =
        assembled(&text).unwrap_or_else(|trouble| panic!("seed {seed}: {trouble:?}\n{text}"));
    assert_eq!(back.input.words, state.words, "seed {seed}");
    for (one, other) in back.start.unwrap().tree.engines.iter().zip(&configuration.engines) {
        let labels = |process| {
            places(process).iter().map(|place| place.process.labels.clone()).collect::<Vec<_>>()
        };
        assert_eq!(labels(&one.process), labels(&other.process), "seed {seed}\n{text}");
    }
}

/// With a label on every process, which says what it is: its kind and what its head names.
fn labelled(mut configuration: Configuration) -> Configuration {
    fn label(process: &mut sock::tree::Process) {
        process.labels = vec![format!("{}-{}", process.kind.name(), process.name).into()];
        process.list.iter_mut().for_each(|entry| label(&mut entry.process));
        process.parts.iter_mut().for_each(label);
    }
    configuration.engines.iter_mut().for_each(|engine| label(&mut engine.process));
    configuration
}
