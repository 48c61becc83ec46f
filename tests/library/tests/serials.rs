//! A run from a fresh start that spends all serials: every solicit is answered and the next one
//! follows, until one is refused.

use library::cabinet::Cabinet;
use library::compare::Comparison;
use library::counts::Wanted;
use library::input::{Input, Source};
use library::memory::Plain;
use library::outputs::{around, Output};
use reference::build;
use reference::bytes::{from_words, to_words};
use reference::configuration::Configuration;
use reference::generate::steps::fitting;
use reference::process::{List, Part};
use reference::{readable, write, Numbers, STANDARD};

/// A scope that repeats the process for ever.
fn repeating(process: Part) -> Part {
    let mut body = build::nil();
    for _ in 0..8 {
        body = build::seq(process.clone(), body);
    }
    build::scope(1, build::while_true(build::constant(1), body))
}

/// Engine 0 solicits engine 1 again and again.
fn start() -> Configuration {
    let client = repeating(build::solicit(1, 2, 3, 4, List::new()));
    let server = repeating(build::request(1, 5, 6, build::nil()));
    let mut both = build::configuration(0, vec![client, server]);
    both.engines[0].values[3] = 1;
    both
}

/// The first step that fits. There is one until serials are spent, and that one is refused.
fn first_step(config: &[u8]) -> Numbers {
    let words = to_words(config).expect("whole words");
    let configuration = readable::read(&STANDARD, &words).expect("a run stays readable");
    fitting(&configuration).first().expect("some step fits").0
}

#[test]
fn a_run_spends_all_serials() {
    spends_all(Cabinet::Large);
}

#[test]
fn a_run_in_the_small_cabinet_spends_all_serials() {
    spends_all(Cabinet::Small);
}

fn spends_all(cabinet: Cabinet) {
    let mut comparison = Comparison::new(cabinet, Plain::default());
    let mut config = from_words(&write::configuration(&start()));
    let mut issued = 0;
    for step in 0.. {
        let source = Source { class: "serials spent", seed: 0, step };
        let input = Input { source, config: &config };
        let numbers = first_step(&config);
        let output = Output { length: 2 * config.len() + step % 2, name: "of a run" };
        let stepped = comparison.step(&input, numbers, output);
        if stepped.answer.number != 0 {
            spent(&mut comparison, &input, numbers, stepped.answer.number);
            break;
        }
        if stepped.answer.kind == 10 {
            issued += 1;
            assert_eq!(stepped.answer.serial, issued, "serials are issued in turn");
        }
        config = stepped.result;
    }
    assert_eq!(issued, u16::MAX);
    let kinds = &[5, 10, 12, 16];
    let wanted = Wanted { calls: 150_000, step: &[0, 7], kinds, ..Wanted::default() };
    comparison.report("serials spent", wanted);
}

/// The run's last configuration, and its refusal with every output.
fn spent(comparison: &mut Comparison<Plain>, input: &Input, numbers: Numbers, number: u8) {
    assert_eq!(number, 7);
    comparison.read_all(input);
    for output in around(input.config.len() / 2) {
        assert_eq!(comparison.step(input, numbers, output).answer.number, 7);
    }
}
