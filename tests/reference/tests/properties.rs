//! Properties of every step of generated runs, and of damaged configurations.

mod common;

use common::*;
use reference::configuration::Configuration;
use reference::generate::damage::{random_damage, CONDITIONS};
use reference::generate::roles::roles;
use reference::generate::run::{Origin, Run, ORIGINS};
use reference::generate::steps::{arbitrary, choose};
use reference::{
    check_readable, check_start, ends, measure, process_of, process_range, read, readable, step,
    write, Answer, Ends, Limits, Numbers, STANDARD,
};

/// One call, with the checks that hold for every call of step.
fn checked(words: &[u16], numbers: Numbers, room: usize) -> (Answer, Vec<u16>) {
    let mut output = vec![FILL; room];
    let answer = step(&STANDARD, words, numbers, &mut output);
    if answer.number == 0 {
        let (result, past) = output.split_at(usize::from(answer.length));
        assert!(past.iter().all(|word| *word == FILL));
        assert_eq!(check_readable(&STANDARD, result), 0, "result not readable");
        only_named_engines_changed(words, numbers, result);
    } else {
        assert!((1..=10).contains(&answer.number) || answer.number == 13);
        assert_eq!(answer, Answer { number: answer.number, ..Answer::default() });
        assert!(output.iter().all(|word| *word == FILL));
    }
    (answer, output)
}

/// An accepted step changes no value or process of any other engine.
fn only_named_engines_changed(words: &[u16], numbers: Numbers, result: &[u16]) {
    let (before, after) = (read_all(words), read_all(result));
    assert_eq!(before.engines.len(), after.engines.len());
    let engines = before.engines.iter().zip(&after.engines).enumerate();
    for (number, (old, new)) in engines {
        let named = [numbers.engine, numbers.second_engine].map(usize::from);
        assert!(named.contains(&number) || old == new, "engine {number} changed");
    }
}

fn read_all(words: &[u16]) -> Configuration {
    common::read(words)
}

/// Reading and writing give the words back, and the small calls agree with the tree.
fn consistent(words: &[u16]) {
    let Some(configuration) = readable::read(&STANDARD, words) else {
        assert_eq!(check_readable(&STANDARD, words), 1);
        assert_eq!(check_start(&STANDARD, words), 1);
        assert_eq!(ends(&STANDARD, words, 1), Ends { number: 1, waiters: 0, workers: 0 });
        assert_eq!(process_range(&STANDARD, words, 0), 0..0);
        return;
    };
    assert_eq!(write::configuration(&configuration), words);
    assert_eq!(roles(&configuration).len(), words.len());
    assert_eq!(configuration.size(), words.len());
    assert!(configuration.depth() <= STANDARD.depth);
    assert_eq!(check_readable(&STANDARD, words), 0);
    for (number, engine) in configuration.engines.iter().enumerate() {
        let part = process_of(&STANDARD, words, number as u16);
        assert_eq!(part, write::process(&engine.process));
        assert_eq!(part.len(), measure::size(&engine.process));
    }
    let none = configuration.engines.len() as u16;
    assert!(process_of(&STANDARD, words, none).is_empty());
    assert_eq!(ends(&STANDARD, words, 0).number, 12);
    if let Some(above) = configuration.issued.checked_add(1) {
        assert_eq!(ends(&STANDARD, words, above), Ends { number: 12, waiters: 0, workers: 0 });
    }
}

fn walk(seed: u64, origin: Origin, steps: usize) {
    let mut run = Run::new(seed, origin);
    consistent(&run.words);
    assert_eq!(check_readable(&STANDARD, &run.words), 0, "seed {seed} of {origin:?}");
    for _ in 0..steps {
        let Some(call) = run.call() else { return };
        let (answer, output) = checked(&run.words, call.numbers, call.room);
        run.take(&answer, &output);
        consistent(&run.words);
        let numbers = arbitrary(&mut run.random, &read_all(&run.words));
        checked(&run.words, numbers, STANDARD.words);
    }
}

#[test]
fn runs_stay_readable_and_refusals_leave_the_output() {
    for origin in ORIGINS {
        let (seeds, steps) = match origin {
            Origin::Growing => (10, 140),
            _ => (600, 25),
        };
        for seed in 0..seeds {
            walk(0x5000 + seed, *origin, steps);
        }
    }
}

#[test]
fn fresh_starts_are_fresh() {
    for seed in 0..2000 {
        assert_eq!(check_start(&STANDARD, &Run::new(seed, Origin::Fresh).words), 0);
    }
}

#[test]
fn a_step_needs_just_the_room_of_its_result() {
    for seed in 0..300 {
        let mut run = Run::new(0x9000 + seed, Origin::Fresh);
        for _ in 0..15 {
            let Some(call) = run.call() else { break };
            let (answer, output) = checked(&run.words, call.numbers, STANDARD.words);
            if answer.number == 0 {
                let length = usize::from(answer.length);
                let (same, exact) = checked(&run.words, call.numbers, length);
                assert_eq!((same, &exact[..]), (answer, &output[..length]));
                assert_eq!(checked(&run.words, call.numbers, length - 1).0.number, 10);
            }
            run.take(&answer, &output);
        }
    }
}

#[test]
fn random_damage_is_read_or_refused_but_never_garbled() {
    let mut still_readable = 0;
    for seed in 0..600 {
        for origin in [Origin::Fresh, Origin::Readable, Origin::Renumbered] {
            let mut run = Run::new(seed, origin);
            for _ in 0..12 {
                let words = random_damage(&mut run.random, &run.words);
                consistent(&words);
                match readable::read(&STANDARD, &words) {
                    Some(configuration) => {
                        still_readable += 1;
                        let numbers = choose(&mut run.random, &configuration);
                        checked(&words, numbers, STANDARD.words);
                    }
                    None => assert_eq!(checked(&words, alone(0, 0), STANDARD.words).0.number, 1),
                }
            }
        }
    }
    assert!(still_readable > 1000, "{still_readable}");
}

#[test]
fn directed_damage_is_unreadable() {
    for seed in 0..400 {
        let origin = ORIGINS[seed as usize % ORIGINS.len()];
        let mut run = Run::new(seed, origin);
        let configuration = run.configuration().expect("readable");
        for (name, damage) in CONDITIONS {
            if let Some(words) = damage(&mut run.random, &configuration) {
                assert_eq!(check_readable(&STANDARD, &words), 1, "{name}, seed {seed}");
                assert_eq!(check_start(&STANDARD, &words), 1, "{name}, seed {seed}");
            }
        }
    }
}

#[test]
fn every_unused_bit_must_be_0() {
    for seed in 0..60 {
        let run = Run::new(seed, Origin::Readable);
        let configuration = run.configuration().expect("readable");
        for (index, role) in roles(&configuration).into_iter().enumerate() {
            for bit in 0..role.unused_bits() {
                let mut words = run.words.clone();
                words[index] ^= 1 << bit;
                assert!(read::layout(&STANDARD, &words).is_none(), "{role:?} bit {bit}");
            }
        }
    }
}

/// Smaller limits: the same answers where everything fits, else 1, 8 or 9 in the usual order.
#[test]
fn smaller_limits_refuse_more_and_answer_the_same() {
    let small = Limits { depth: 9, words: 320 };
    let mut met = [0; 14];
    for seed in 0..1500 {
        let mut run = Run::new(0xA000 + seed, Origin::Fresh);
        for _ in 0..12 {
            let Some(call) = run.call() else { break };
            let mut large_output = vec![FILL; STANDARD.words];
            let large = step(&STANDARD, &run.words, call.numbers, &mut large_output);
            let mut output = vec![FILL; STANDARD.words];
            let answer = step(&small, &run.words, call.numbers, &mut output);
            let expected = expected_within(&small, &run.words, large, &large_output);
            assert_eq!(answer, expected);
            if answer.number == 0 {
                assert_eq!(output, large_output);
            }
            met[usize::from(answer.number)] += 1;
            run.take(&large, &large_output);
        }
    }
    assert!([0, 1, 8, 9].iter().all(|number| met[*number] > 0), "{met:?}");
}

/// What the small limits answer, from what the large ones did.
fn expected_within(small: &Limits, words: &[u16], large: Answer, output: &[u16]) -> Answer {
    let refused = |number: u8| Answer { number, ..Answer::default() };
    if read_all(words).depth() > small.depth || words.len() > small.words {
        return refused(1);
    }
    if large.number != 0 {
        return large;
    }
    let result = read_all(&output[..usize::from(large.length)]);
    if result.depth() > small.depth {
        refused(8)
    } else if result.size() > small.words {
        refused(9)
    } else {
        large
    }
}

#[test]
fn garbage_is_unreadable_and_harmless() {
    let mut random = reference::generate::random::Random::new(7);
    for _ in 0..3000 {
        let length = random.below(300);
        let mut words: Vec<u16> = (0..length).map(|_| random.word()).collect();
        if let Some(first) = words.first_mut() {
            *first = 1;
        }
        consistent(&words);
    }
    // Heads that nest for ever: the reader stops at the depth limit.
    for head in [2 << 11, 3 << 11, 4 << 11, 5 << 11, 6 << 11 | 1, 12 << 11] {
        let mut words = vec![1, 0];
        words.extend([0; 64]);
        words.extend(vec![head; 8000]);
        assert_eq!(check_readable(&STANDARD, &words), 1);
    }
}
