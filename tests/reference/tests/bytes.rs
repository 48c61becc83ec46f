//! The calls on bytes agree with the calls on words, field by field.

mod common;

use common::*;
use reference::bytes::{from_words, to_words};
use reference::generate::damage::random_damage;
use reference::generate::run::{Run, ORIGINS};
use reference::{
    check_readable, check_start, ends, process_range, sock_check_readable, sock_check_start,
    sock_ends, sock_process, sock_step, step, Answer, Numbers, STANDARD,
};

fn packed_step(numbers: Numbers, config: &[u8], output: &mut [u8]) -> u64 {
    sock_step(
        numbers.engine,
        numbers.position,
        numbers.second_engine,
        numbers.second_position,
        numbers.branch,
        config,
        output,
    )
}

/// Number 8, kind 8, fault 8, zero 8, serial 16, length 16.
fn unpacked(packed: u64) -> Answer {
    assert_eq!(packed >> 32 & 0xFF, 0);
    Answer {
        number: (packed >> 56) as u8,
        kind: (packed >> 48) as u8,
        fault: (packed >> 40) as u8,
        serial: (packed >> 16) as u16,
        length: packed as u16,
    }
}

fn same_step(words: &[u16], numbers: Numbers, room: usize, odd: bool) -> (Answer, Vec<u16>) {
    let mut output = vec![FILL; room];
    let answer = step(&STANDARD, words, numbers, &mut output);
    let mut bytes = from_words(&vec![FILL; room]);
    bytes.extend(odd.then_some(0x77));
    let packed = packed_step(numbers, &from_words(words), &mut bytes);
    assert_eq!(unpacked(packed), answer);
    let mut expected = from_words(&output);
    expected.extend(odd.then_some(0x77));
    assert_eq!(bytes, expected);
    (answer, output)
}

fn same_checks(words: &[u16], serial: u16) {
    let bytes = from_words(words);
    assert_eq!(to_words(&bytes).as_deref(), Some(words));
    assert_eq!(sock_check_start(&bytes), check_start(&STANDARD, words));
    assert_eq!(sock_check_readable(&bytes), check_readable(&STANDARD, words));
    let counts = ends(&STANDARD, words, serial);
    let packed = sock_ends(&bytes, serial);
    assert_eq!(packed >> 56, u64::from(counts.number));
    assert_eq!(packed >> 32 & 0xFF_FFFF, 0);
    assert_eq!((packed >> 16) as u16, counts.waiters);
    assert_eq!(packed as u16, counts.workers);
    for engine in [0, 1, 7, 8, 65_535] {
        let range = process_range(&STANDARD, words, engine);
        let packed = sock_process(&bytes, engine);
        assert_eq!(((packed >> 32) as usize, packed as u32 as usize), (range.start, range.len()));
    }
}

#[test]
fn bytes_agree_with_words() {
    for origin in ORIGINS {
        for seed in 0..60 {
            let mut run = Run::new(0xB000 + seed, *origin);
            for _ in 0..10 {
                let Some(call) = run.call() else { break };
                let odd = run.random.percent(50);
                let (answer, output) = same_step(&run.words, call.numbers, call.room, odd);
                run.take(&answer, &output);
                let serial = 1 + run.random.below(4) as u16;
                same_checks(&run.words, serial);
                let damaged = random_damage(&mut run.random, &run.words);
                same_checks(&damaged, serial);
                same_step(&damaged, call.numbers, call.room, odd);
            }
        }
    }
}

#[test]
fn an_odd_length_is_unreadable() {
    let run = Run::new(1, ORIGINS[0]);
    let mut config = from_words(&run.words);
    assert_eq!(sock_check_start(&config), 0);
    config.push(0);
    assert_eq!(to_words(&config), None);
    assert_eq!(sock_check_start(&config), 1);
    assert_eq!(sock_check_readable(&config), 1);
    assert_eq!(sock_ends(&config, 0), 1 << 56);
    assert_eq!(sock_process(&config, 0), 0);
    let mut output = vec![0x77; 20_000];
    assert_eq!(packed_step(alone(0, 0), &config, &mut output), 1 << 56);
    assert!(output.iter().all(|byte| *byte == 0x77));
    config.truncate(config.len() - 2);
    assert_eq!(sock_check_start(&config), 1);
}

#[test]
fn an_odd_last_byte_is_no_room() {
    let before = reference::generate::edges::result_long(100).expect("some");
    let config = from_words(&words(&before));
    let mut output = vec![0x77; 199];
    assert_eq!(packed_step(alone(0, 4), &config, &mut output), 10 << 56);
    assert!(output.iter().all(|byte| *byte == 0x77));
    let mut output = vec![0x77; 201];
    assert_eq!(packed_step(alone(0, 4), &config, &mut output), 5 << 48 | 100);
    assert_eq!(output[200], 0x77);
    assert_eq!(output[..4], [0, 1, 0, 0]);
}
