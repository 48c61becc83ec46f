//! The swing bridge cabinet (document 02, i): its edges, 32 and 33 levels, 2,048 and 2,049 words, of an
//! input and of a result; and that it accepts exactly where the large one accepts with input and
//! result inside its figures, with the same answer and words.

mod common;

use common::*;
use reference::bytes::from_words;
use reference::configuration::Configuration;
use reference::generate::cabinets::{deep_here_long_there, Outcome, Seen};
use reference::generate::edges::{acting_deep, deep, long, result_deep, result_long, WAYS};
use reference::generate::run::{Origin, Run, ORIGINS};
use reference::journal::{journal_enough, sock_step_journal_within};
use reference::{
    check_readable, check_start, sock_check_readable_within, sock_check_start_within,
    sock_step_within, step, Limits, Numbers, SMALL, STANDARD,
};

/// The numbers that the small and the large cabinet answer.
fn both(before: &Configuration, numbers: Numbers) -> [u8; 2] {
    [SMALL, STANDARD].map(|limits| {
        let mut output = vec![FILL; STANDARD.words];
        step(&limits, &words(before), numbers, &mut output).number
    })
}

#[test]
fn inputs_of_32_levels_and_2048_words_are_read_and_no_more() {
    for way in WAYS {
        for (depth, number) in [(31, 0), (32, 0), (33, 1), (64, 1)] {
            let configuration = deep(*way, depth);
            assert_eq!(check_start(&SMALL, &words(&configuration)), number, "{way:?} {depth}");
            assert_eq!(check_readable(&STANDARD, &words(&configuration)), 0);
            assert_eq!(
                both(&acting_deep(*way, depth), alone(0, 4)),
                [number, 0],
                "{way:?} {depth}"
            );
        }
    }
    for (length, number) in [(2047, 0), (2048, 0), (2049, 1), (8192, 1)] {
        let configuration = long(length).expect("long enough");
        assert_eq!(check_start(&SMALL, &words(&configuration)), number, "{length}");
        assert_eq!(check_readable(&SMALL, &words(&configuration)), number, "{length}");
        let comp = alone(0, position(&configuration, 0, 14));
        assert_eq!(both(&configuration, comp), [number, 0], "{length}");
    }
}

#[test]
fn results_of_32_levels_and_2048_words_are_accepted_and_no_more() {
    for way in WAYS {
        assert_eq!(both(&result_deep(*way, 32), alone(0, 3)), [0, 0], "{way:?}");
        assert_eq!(both(&result_deep(*way, 33), alone(0, 3)), [8, 0], "{way:?}");
        assert_eq!(both(&result_deep(*way, 34), alone(0, 3)), [1, 0], "{way:?}");
    }
    for (length, number) in [(2047, 0), (2048, 0), (2049, 9), (2050, 9), (2051, 1)] {
        let before = result_long(length).expect("long enough");
        assert_eq!(both(&before, alone(0, 4)), [number, 0], "{length}");
    }
}

#[test]
fn a_result_too_deep_here_may_be_too_long_there() {
    let (before, position) = deep_here_long_there();
    assert!(before.size() <= SMALL.words && before.depth() <= SMALL.depth);
    assert_eq!(both(&before, alone(0, position)), [8, 9]);
}

/// The step on bytes of a cabinet, with and without a journal.
fn outcome<'a>(
    limits: &Limits,
    words: &[u16],
    numbers: Numbers,
    (output, journal): (&'a mut [u8], Option<&'a mut [u8]>),
) -> Outcome<'a> {
    let config = from_words(words);
    let (packed, noted): (u64, &[u8]) = match journal {
        None => (sock_step_within(limits, numbers, &config, output), &[]),
        Some(journal) => {
            (sock_step_journal_within(limits, numbers, &config, output, journal), journal)
        }
    };
    let answer = reference::Answer {
        number: (packed >> 56) as u8,
        kind: (packed >> 48) as u8,
        fault: (packed >> 40) as u8,
        serial: (packed >> 16) as u16,
        length: packed as u16,
    };
    let result = reference::bytes::to_words(&output[..2 * usize::from(answer.length)]);
    Outcome { answer, result: result.expect("whole words"), left: vec![output, noted] }
}

#[test]
fn the_small_one_accepts_where_the_large_one_does_inside_its_figures() {
    let mut seen = Seen::default();
    for seed in 0..800 {
        let origin = ORIGINS[seed as usize % ORIGINS.len()];
        let steps = if origin == Origin::Growing && seed < 100 { 120 } else { 30 };
        let mut run = Run::new(0xCA_0000 + seed, origin);
        for step in 0..steps {
            let Some(call) = run.call() else { break };
            // The last journal is enough for every step of the small one, not of the large one.
            let lent = [None, Some(40), Some(2 * journal_enough(&SMALL))][step % 3];
            let mut outputs = [0, 1].map(|_| vec![0x5a; 2 * call.room]);
            let mut journals = [0, 1].map(|_| lent.map(|length| vec![0x5a; length]));
            let [large, small] = &mut outputs;
            let [noted, other] = &mut journals;
            let lent = (&mut large[..], noted.as_deref_mut());
            let large = outcome(&STANDARD, &run.words, call.numbers, lent);
            let lent = (&mut small[..], other.as_deref_mut());
            let small = outcome(&SMALL, &run.words, call.numbers, lent);
            seen.judge(&run.words, &large, &small);
            run.take(&large.answer, &large.result.clone());
        }
    }
    println!("{seen:?}");
    assert!(seen.both > 5000 && seen.alike > 1000 && seen.input_beyond > 50, "{seen:?}");
    assert!(seen.deep > 5 && seen.long > 5 && seen.differ > 5, "{seen:?}");
}

#[test]
fn bytes_agree_with_words() {
    for seed in 0..200 {
        let run = Run::new(0xCB_0000 + seed, ORIGINS[seed as usize % ORIGINS.len()]);
        let config = from_words(&run.words);
        assert_eq!(sock_check_start_within(&SMALL, &config), check_start(&SMALL, &run.words));
        assert_eq!(sock_check_readable_within(&SMALL, &config), check_readable(&SMALL, &run.words));
        assert_eq!(sock_check_readable_within(&SMALL, &config[1..]), 1);
        assert_eq!(sock_check_start_within(&SMALL, &config[1..]), 1);
    }
}
