//! Change h by hand: what enters, what goes, every refusal, and windows that no run gives.

use reference::window::{
    bytes, sock_window_count, sock_window_next, Answer, Run, OPERATIONS, WINDOW_BYTES,
    WINDOW_WIDTH, WORDS,
};

const REFUSED: u64 = 18 << 56;

fn empty() -> Vec<u8> {
    vec![0; WINDOW_BYTES]
}

fn fault(operation: u16) -> Answer {
    Answer { number: 0, fault: 1, operation }
}

fn accepted(operation: u16) -> Answer {
    Answer { number: 0, fault: 0, operation }
}

/// A window after these answers, all of number 0.
fn after(width: u16, answers: &[Answer]) -> Vec<u8> {
    let mut window = empty();
    for answer in answers {
        assert_eq!(sock_window_next(width, *answer, &mut window), 0);
    }
    window
}

#[test]
fn the_last_two_are_counted() {
    let window = after(2, &[fault(5), accepted(5), fault(63)]);
    let mut words = vec![0; WORDS];
    words[63] = 1;
    words[64] = 2;
    words[66] = 64;
    assert_eq!(window, bytes(&words));
    assert_eq!(sock_window_count(63, &window), 1);
    assert_eq!(sock_window_count(5, &window), 0);
}

#[test]
fn only_fault_1_of_an_accepted_answer_counts() {
    let mut window = after(3, &[fault(7)]);
    let before = window.clone();
    for number in [1, 6, 12, 18, 255] {
        assert_eq!(sock_window_next(3, Answer { number, ..fault(7) }, &mut window), 0);
        assert_eq!(window, before);
    }
    for other in [0, 2, 255] {
        assert_eq!(sock_window_next(3, Answer { fault: other, ..fault(7) }, &mut window), 0);
    }
    assert_eq!(window, after(3, &[accepted(0); 3]));
}

#[test]
fn a_width_or_an_operation_out_of_range_is_18_and_changes_nothing() {
    let mut window = after(1, &[fault(0)]);
    let before = window.clone();
    for width in [0, 1025, u16::MAX] {
        assert_eq!(sock_window_next(width, fault(0), &mut window), WINDOW_WIDTH);
    }
    for operation in [64, 256, u16::MAX] {
        for number in [0, 4] {
            let answer = Answer { number, ..fault(operation) };
            assert_eq!(sock_window_next(1, answer, &mut window), WINDOW_WIDTH);
        }
        assert_eq!(sock_window_count(operation, &window), REFUSED);
    }
    assert_eq!(window, before);
}

#[test]
fn a_wider_run_takes_a_window_over_and_a_narrower_one_refuses_it() {
    let mut window = after(2, &[fault(1), fault(2)]);
    assert_eq!(sock_window_next(1, accepted(0), &mut window), WINDOW_WIDTH);
    assert_eq!(sock_window_next(1024, fault(1), &mut window), 0);
    assert_eq!(sock_window_count(1, &window), 2);
}

/// One word of a window changed.
fn damaged(window: &[u8], word: usize, content: u16) -> Vec<u8> {
    let mut other = window.to_vec();
    other[2 * word..][..2].copy_from_slice(&content.to_be_bytes());
    other
}

#[test]
fn windows_that_no_run_gives_are_18() {
    let window = after(4, &[fault(9), accepted(3), fault(9)]);
    let first = OPERATIONS + 1;
    let cases = [
        ("a count too high", 9, 3),
        ("a count too low", 9, 1),
        ("a count without entry", 0, 1),
        ("an entry not counted in", OPERATIONS, 2),
        ("more entries than there are words", OPERATIONS, u16::MAX),
        ("another entry than was counted", first, 9),
        ("an entry above 64", first + 1, 65),
        ("a word behind the entries", first + 3, 1),
        ("the last word", WORDS - 1, 10),
    ];
    for (name, word, content) in cases {
        let mut other = damaged(&window, word, content);
        let before = other.clone();
        for number in [0, 1] {
            let answer = Answer { number, ..accepted(0) };
            assert_eq!(sock_window_next(4, answer, &mut other), WINDOW_WIDTH, "{name}");
        }
        assert_eq!(other, before, "{name}");
        assert_eq!(sock_window_count(9, &other), REFUSED, "{name}");
    }
}

#[test]
fn one_entry_more_is_another_window_and_one_more_than_the_width_is_18() {
    let window = after(4, &[fault(9), accepted(3), fault(9)]);
    let mut full = damaged(&window, OPERATIONS, 4);
    let mut wide = damaged(&window, OPERATIONS, 5);
    assert_eq!(sock_window_next(4, accepted(0), &mut full), 0);
    assert_eq!(sock_window_count(9, &full), 1);
    assert_eq!(sock_window_next(4, accepted(0), &mut wide), WINDOW_WIDTH);
    assert_eq!(sock_window_count(9, &wide), 2);
}

#[test]
fn fewer_bytes_are_18_and_more_stay() {
    let mut short = vec![0; WINDOW_BYTES - 1];
    assert_eq!(sock_window_next(1, fault(0), &mut short), WINDOW_WIDTH);
    assert_eq!(short, vec![0; WINDOW_BYTES - 1]);
    assert_eq!(sock_window_count(0, &short), REFUSED);
    let mut long = [empty(), vec![7; 3]].concat();
    assert_eq!(sock_window_next(1, fault(0), &mut long), 0);
    assert_eq!(long[WINDOW_BYTES..], [7; 3]);
}

#[test]
fn a_run_recounts_what_the_window_counts() {
    let mut run = Run::new(3);
    let mut window = empty();
    for step in 0..200u16 {
        let answer =
            Answer { number: (step % 5 / 4) as u8, fault: (step % 3) as u8, operation: step % 67 };
        assert_eq!(run.hand_on(answer), sock_window_next(3, answer, &mut window));
        assert_eq!(window, bytes(&run.words()));
    }
    assert_eq!(run.last().len(), 3);
}
