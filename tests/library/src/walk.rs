//! The calls of a run: from a start, each step on what the last accepted one wrote, refused steps
//! among them, and on each configuration the calls that only read.

use crate::cabinet::Cabinet;
use crate::compare::{Comparison, ENGINES};
use crate::input::{Input, Source};
use crate::memory::Memory;
use crate::outputs::{around, one_around, Output};
use reference::bytes::{from_words, to_words};
use reference::calls::transition;
use reference::configuration::Configuration;
use reference::coverage::Coverage;
use reference::generate::run::{Origin, Run};
use reference::{Limits, Numbers};

/// One step in so many is made with every length of output.
const ALL_OUTPUTS: usize = 8;

pub fn class(origin: Origin) -> &'static str {
    match origin {
        Origin::Fresh => "run from a fresh start",
        Origin::Growing => "growing run from a fresh start",
        Origin::Readable => "run from a readable configuration",
        Origin::Renumbered => "run with serials changed",
    }
}

/// Makes the calls of one run in the comparison's cabinet and notes the rows of the rules that it
/// meets. A start beyond the cabinet's limits is refused, and ends it.
pub fn walk<M: Memory>(
    comparison: &mut Comparison<M>,
    coverage: &mut Coverage,
    (origin, seed): (Origin, u64),
    steps: usize,
) {
    let mut run = Run::within(&comparison.cabinet.limits(), seed, origin);
    for step in 0..steps {
        let source = Source { class: class(origin), seed, step };
        let config = from_words(&run.words);
        let input = Input { source, config: &config };
        match step % ALL_OUTPUTS {
            0 => comparison.read_all(&input),
            _ => comparison.read_one(&input),
        }
        if step == 0 {
            heads(comparison, &input);
        }
        let Some(before) = run.configuration() else {
            assert!(
                step == 0 && comparison.cabinet == Cabinet::Small,
                "what a step wrote is readable"
            );
            return;
        };
        let Some(call) = run.call() else { return };
        let length = 2 * call.room + usize::from(run.random.percent(50));
        let output = Output { length, name: "of a run" };
        let stepped = comparison.step(&input, call.numbers, output);
        coverage.step(&before, call.numbers, &stepped.answer);
        other_outputs(comparison, &mut run, &input, &before, call.numbers);
        run.take(&stepped.answer, &to_words(&stepped.result).expect("whole words"));
    }
}

/// Every engine as first, at its root, and as second, at the body of a root scope.
fn heads<M: Memory>(comparison: &mut Comparison<M>, input: &Input) {
    for engine in ENGINES {
        let output = Output { length: comparison.cabinet.longest(), name: "longest" };
        comparison.step(input, Numbers::new(engine, 0, 0, 0, 0), output);
        comparison.step(input, Numbers::new(0, 3, engine, 3, 0), output);
    }
}

/// The same step with outputs near the result's length.
fn other_outputs<M: Memory>(
    comparison: &mut Comparison<M>,
    run: &mut Run,
    input: &Input,
    before: &Configuration,
    numbers: Numbers,
) {
    let words = result_length(&run.limits, before, numbers).unwrap_or(run.words.len());
    let outputs = match input.source.step % ALL_OUTPUTS {
        0 => around(words),
        _ => vec![one_around(&mut run.random, words)],
    };
    for output in outputs {
        comparison.step(input, numbers, output);
    }
}

/// Words of a step's result, if there is one, as many as a configuration may have at most.
pub fn result_length(limits: &Limits, before: &Configuration, numbers: Numbers) -> Option<usize> {
    let result = transition(before, numbers).ok()?;
    Some(result.configuration.size().min(limits.words))
}
