//! Helpers shared by the tests: steps on trees that check words, output and refusals on the way.
#![allow(dead_code)]

use reference::configuration::Configuration;
use reference::context::enabled;
use reference::process::{Part, Process};
use reference::{readable, step, write, Answer, Numbers, STANDARD};

/// Fills output before a step, so that words that must stay are seen to stay.
pub const FILL: u16 = 0xA5C3;

pub fn words(configuration: &Configuration) -> Vec<u16> {
    write::configuration(configuration)
}

pub fn read(words: &[u16]) -> Configuration {
    readable::read(&STANDARD, words).expect("readable")
}

/// An accepted step with the standard output: its answer and its result.
pub fn accept(before: &Configuration, numbers: Numbers) -> (Answer, Configuration) {
    let mut output = vec![FILL; STANDARD.words];
    let answer = step(&STANDARD, &words(before), numbers, &mut output);
    assert_eq!(answer.number, 0, "refused {numbers:?} of {before:?}");
    let (result, past) = output.split_at(usize::from(answer.length));
    assert!(past.iter().all(|word| *word == FILL), "words past the length changed");
    (answer, read(result))
}

/// The number of a refused step; all else in the answer is 0 and the output stays.
pub fn refuse(before: &Configuration, numbers: Numbers) -> u8 {
    refuse_words(&words(before), numbers, STANDARD.words)
}

pub fn refuse_words(words: &[u16], numbers: Numbers, room: usize) -> u8 {
    let mut output = vec![FILL; room];
    let answer = step(&STANDARD, words, numbers, &mut output);
    assert_ne!(answer.number, 0, "accepted {numbers:?}");
    assert_eq!(answer, Answer { number: answer.number, ..Answer::default() });
    assert!(output.iter().all(|word| *word == FILL), "a refusal wrote into the output");
    answer.number
}

/// Position of the first enabled process of the kind in an engine.
pub fn position(configuration: &Configuration, engine: usize, kind: u8) -> u16 {
    nth(configuration, engine, kind, 0)
}

/// Position of an enabled process of the kind, counted from 0 in word order.
pub fn nth(configuration: &Configuration, engine: usize, kind: u8, index: usize) -> u16 {
    let all = enabled(&configuration.engines[engine].process);
    let mut fitting = all.into_iter().filter(|(_, process)| process.kind() == kind);
    fitting.nth(index).expect("an enabled process of the kind").0 as u16
}

/// The numbers of a step that moves alone.
pub fn alone(engine: u16, position: u16) -> Numbers {
    Numbers::new(engine, position, 0, 0, 0)
}

/// The step of the first enabled process of the kind in engine 0, which moves alone.
pub fn run(before: &Configuration, kind: u8) -> Configuration {
    accept(before, alone(0, position(before, 0, kind))).1
}

/// The number that refuses that step.
pub fn run_refused(before: &Configuration, kind: u8) -> u8 {
    refuse(before, alone(0, position(before, 0, kind)))
}

/// A step between the first enabled processes of two kinds in two engines, branch 0.
pub fn between(before: &Configuration, first: (usize, u8), second: (usize, u8)) -> Numbers {
    let from = position(before, first.0, first.1);
    let to = position(before, second.0, second.1);
    Numbers::new(first.0 as u16, from, second.0 as u16, to, 0)
}

/// An engine's process.
pub fn process(configuration: &Configuration, engine: usize) -> &Part {
    &configuration.engines[engine].process
}

/// The body of an engine's root scope.
pub fn body(configuration: &Configuration, engine: usize) -> &Part {
    match &**process(configuration, engine) {
        Process::Scope(_, body) => body,
        other => panic!("root is no scope: {other:?}"),
    }
}
