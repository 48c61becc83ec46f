//! Document 01's handover example with the counts of document 02 c, and the program's other texts.

mod common;

use common::FILL;
use reference::bytes::from_words;
use reference::handover::handover;
use reference::{step, Answer, Numbers, STANDARD};

const STEPS: [[u16; 5]; 5] =
    [[0, 3, 1, 3, 0], [1, 3, 0, 3, 0], [1, 3, 0, 3, 0], [0, 3, 0, 0, 0], [0, 0, 0, 0, 0]];

fn start() -> Vec<u16> {
    let mut words = vec![2, 0];
    let mut values = vec![0; 64];
    values[3] = 1;
    words.extend(&values);
    words.extend([0x5800, 0, 0, 0x5020, 0x0880, 1, 1, 0]);
    words.extend([0; 64]);
    words.extend([0x5800, 0, 0, 0x4020, 0, 1, 1, 0]);
    words
}

fn numbers(step: [u16; 5]) -> Numbers {
    Numbers::new(step[0], step[1], step[2], step[3], step[4])
}

/// The words after a step with this many words of output.
fn after(words: &[u16], step_numbers: [u16; 5], room: usize) -> (Answer, Vec<u16>) {
    let mut output = vec![FILL; room];
    let answer = step(&STANDARD, words, numbers(step_numbers), &mut output);
    (answer, output)
}

fn input(words: &[u16], steps: &[[u16; 5]]) -> Vec<u8> {
    let mut all = vec![words.len() as u16];
    all.extend(words);
    all.extend(steps.iter().flatten());
    from_words(&all)
}

fn text(input: &[u8]) -> String {
    String::from_utf8(handover(input)).expect("text")
}

#[test]
fn the_whole_text() {
    let expected = "start 0\n1 0 10 1 0\n2 0 16 1 0\n3 3 0 0 0\n4 0 12 0 0\n5 0 11 0 0\nend 135\n";
    assert_eq!(text(&input(&start(), &STEPS)), expected);
}

#[test]
fn lengths_and_short_output() {
    let (first, one) = after(&start(), STEPS[0], 8192);
    assert_eq!(start().len(), 146);
    assert_eq!((first.number, first.length), (0, 146));
    let one = &one[..146];
    let (second, two) = after(one, STEPS[1], 8192);
    assert_eq!((second.number, second.length), (0, 139));
    assert_eq!(after(one, STEPS[1], 139).0, second);
    let (short, untouched) = after(one, STEPS[1], 138);
    assert_eq!(short, Answer { number: 10, ..Answer::default() });
    assert!(untouched.iter().all(|word| *word == FILL));
    let (fourth, four) = after(&two[..139], STEPS[3], 8192);
    assert_eq!((fourth.number, fourth.length), (0, 138));
    let (last, _) = after(&four[..138], STEPS[4], 8192);
    assert_eq!((last.number, last.length), (0, 135));
}

#[test]
fn words_after_the_first_step() {
    let (_, words) = after(&start(), STEPS[0], 146);
    assert_eq!(words[..2], [2, 1]);
    // Engine 0: scope around a live waiter, operation 1, x 2, server 1, serial 1, count 1 of x, empty
    // list.
    assert_eq!(words[66..74], [0x5800, 0, 0, 0x8822, 0x1000, 1, 1, 0]);
    // Engine 1: scope around an executor, operation 1, y 0, client 0, serial 1, count 1 of y, nil
    // body.
    assert_eq!(words[138..146], [0x5800, 0, 0, 0x8020, 0x0000, 1, 1, 0]);
}

#[test]
fn end_with_no_steps_prints_the_current_length() {
    assert_eq!(text(&input(&start(), &[])), "start 0\nend 146\n");
}

#[test]
fn one_to_nine_bytes_more_are_cut() {
    let whole = input(&start(), &STEPS[..2]);
    for missing in 1..10 {
        let cut = text(&whole[..whole.len() - missing]);
        assert_eq!(cut, "start 0\n1 0 10 1 0\ncut\n");
    }
}

#[test]
fn missing_words_and_great_lengths_are_start_1() {
    let whole = input(&start(), &[]);
    for length in 0..whole.len() {
        assert_eq!(text(&whole[..length]), "start 1\n", "{length} bytes");
    }
    assert_eq!(text(&[0, 0]), "start 1\n");
    assert_eq!(text(&[0, 0, 0, 2]), "start 1\n");
    let mut long = from_words(&[8193]);
    long.extend(vec![0; 2 * 8193]);
    assert_eq!(text(&long), "start 1\n");
}

#[test]
fn a_start_that_is_not_fresh_is_start_11() {
    let (_, words) = after(&start(), STEPS[0], 146);
    assert_eq!(text(&input(&words, &STEPS)), "start 11\n");
}
