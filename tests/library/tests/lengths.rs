//! Bytes of all small lengths, odd lengths, and lengths around and above those of the longest
//! configuration, also ones that are small again when counted in 16 bits.

use library::bytes::{almost, arbitrary};
use library::cabinet::{Cabinet, CABINETS};
use library::compare::Comparison;
use library::counts::Wanted;
use library::input::{Input, Source};
use library::memory::Plain;
use library::outputs::{around, huge, one_around};
use reference::bytes::{from_words, to_words};
use reference::generate::edges::long;
use reference::generate::random::Random;
use reference::generate::run::{Run, ORIGINS};
use reference::generate::steps;
use reference::{readable, write, Limits, Numbers};

/// Longer than the smallest readable configuration, of 67 words.
const SMALL: usize = 260;

const CLASSES: &[&str] = &["arbitrary bytes", "almost a configuration", "beginning of one"];

/// Bytes of a class and a length.
fn bytes(random: &mut Random, class: &str, seed: u64, length: usize) -> Vec<u8> {
    match class {
        "arbitrary bytes" => arbitrary(random, length),
        "almost a configuration" => almost(random, length),
        _ => {
            let run = Run::new(seed, ORIGINS[seed as usize % ORIGINS.len()]);
            let mut bytes = from_words(&run.words);
            bytes.truncate(length);
            bytes
        }
    }
}

/// A step that is likely to be accepted, if the bytes are readable.
fn likely_step(limits: &Limits, random: &mut Random, config: &[u8]) -> Numbers {
    let words = to_words(config);
    match words.and_then(|words| readable::read(limits, &words)) {
        Some(configuration) => steps::choose(random, &configuration),
        None => Numbers::new(0, random.below(12) as u16, 0, 0, 0),
    }
}

/// The calls on bytes of every class.
fn all_calls(comparison: &mut Comparison<Plain>, seed: u64, length: usize) {
    for (step, class) in CLASSES.iter().enumerate() {
        let mut random = Random::new(seed);
        let config = bytes(&mut random, class, seed, length);
        let input = Input { source: Source { class, seed, step }, config: &config };
        comparison.read_one(&input);
        let numbers = likely_step(&comparison.cabinet.limits(), &mut random, &config);
        let output = one_around(&mut random, length / 2);
        comparison.step(&input, numbers, output);
    }
}

#[test]
fn all_small_lengths_are_answered_alike() {
    CABINETS.into_iter().for_each(small_lengths);
}

fn small_lengths(cabinet: Cabinet) {
    let mut comparison = Comparison::new(cabinet, Plain::default());
    for length in 0..=SMALL {
        for round in 0..16 {
            all_calls(&mut comparison, (64 * length + round) as u64, length);
        }
    }
    comparison.report(
        "small lengths",
        Wanted {
            calls: 50_000,
            step: &[0, 1, 2, 3],
            start: &[0, 1],
            readable: &[0, 1],
            ends: &[1, 12],
            pending: &[0, 1, 2],
            kinds: &[13, 14],
            classes: CLASSES,
            processes: &["found", "empty"],
            ..Wanted::default()
        },
    );
}

/// A readable configuration, cut or followed by zeros, of this length.
fn stretched(config: &[u8], length: usize) -> Vec<u8> {
    let mut config = config.to_vec();
    config.resize(length, 0);
    config
}

#[test]
fn odd_and_long_lengths_are_unreadable() {
    CABINETS.into_iter().for_each(odd_and_long);
}

fn odd_and_long(cabinet: Cabinet) {
    let mut comparison = Comparison::new(cabinet, Plain::default());
    let longest = cabinet.longest();
    for seed in 0..60 {
        let run = Run::new(seed, ORIGINS[seed as usize % ORIGINS.len()]);
        let config = from_words(&run.words);
        let own = config.len();
        // The last two have the configuration's length, and its words' count, in 16 bits.
        let lengths = [
            own - 1,
            own + 1,
            longest - 1,
            longest + 1,
            longest + 2,
            20_000,
            65_536 + own,
            131_072 + own,
        ];
        for (step, length) in lengths.into_iter().enumerate() {
            let class = if length & 1 == 1 { "odd length" } else { "above the longest" };
            let config = stretched(&config, length);
            let input = Input { source: Source { class, seed, step }, config: &config };
            comparison.read_all(&input);
            for output in around(own / 2) {
                comparison.step(&input, Numbers::new(0, 3, 0, 0, 0), output);
            }
        }
    }
    comparison.report(
        "odd and long",
        Wanted {
            calls: 10_000,
            step: &[1],
            start: &[1],
            readable: &[1],
            ends: &[1],
            pending: &[1],
            classes: &["odd length", "above the longest"],
            processes: &["empty"],
            ..Wanted::default()
        },
    );
    assert_eq!(comparison.counts.of("readable check", 0), 0, "one of these lengths is readable");
}

#[test]
fn the_longest_configurations_are_answered_alike() {
    CABINETS.into_iter().for_each(longest);
}

fn longest(cabinet: Cabinet) {
    let mut comparison = Comparison::new(cabinet, Plain::default());
    let most = cabinet.limits().words;
    for words in most - 3..=most + 3 {
        let configuration = long(words).expect("long enough");
        let config = from_words(&write::configuration(&configuration));
        let source = Source { class: "longest", seed: words as u64, step: 0 };
        let input = Input { source, config: &config };
        comparison.read_all(&input);
        for (numbers, _) in steps::fitting(&configuration).into_iter().take(8) {
            for output in around(words - 2).into_iter().chain(huge()) {
                comparison.step(&input, numbers, output);
            }
        }
    }
    comparison.report(
        "longest",
        Wanted {
            calls: 500,
            step: &[0, 1, 10],
            start: &[0, 1],
            readable: &[0, 1],
            kinds: &[14],
            outputs: &["huge"],
            processes: &["found", "empty"],
            ..Wanted::default()
        },
    );
}
