//! Windows of faults through the static library: long runs against a recount of all that entered,
//! windows that no run gives, every bad number, every length; then on memory that ends or begins at
//! an inaccessible page.

use library::guard::{Edge, Guarded};
use library::input::Source;
use library::memory::{Memory, Plain};
use library::memory_fault;
use library::window::{answer, Windows};
use reference::generate::random::Random;
use reference::window::{bytes, Answer, Run, OPERATIONS, WIDEST, WINDOW_BYTES, WORDS};

const ACCEPTED: Answer = Answer { number: 0, fault: 1, operation: 5 };

/// What a run meets, and the window that it ends in: after each answer the window's words are those
/// of the last that entered, and a count is their recount.
fn run<M: Memory>(
    windows: &mut Windows<M>,
    class: &'static str,
    seed: u64,
    width: u16,
    answers: usize,
    past: usize,
) -> Vec<u8> {
    let mut random = Random::new(seed);
    let mut history = Run::new(width);
    let beyond: Vec<u8> = (0..past).map(|_| random.small(255)).collect();
    let mut window = [vec![0; WINDOW_BYTES], beyond.clone()].concat();
    for step in 0..answers {
        let source = Source { class, seed, step };
        let answer = answer(&mut random);
        let answered = windows.next(source, width, answer, &mut window);
        assert_eq!(answered, history.hand_on(answer), "{source}");
        assert!(window[..WINDOW_BYTES] == bytes(&history.words()), "{source}");
        let operation = random.below(OPERATIONS) as u16;
        let counted = windows.count(source, operation, &window);
        assert_eq!(counted, u64::from(history.recount(operation)), "{source}");
    }
    let source = Source { class, seed, step: answers };
    for operation in 0..OPERATIONS as u16 {
        let counted = windows.count(source, operation, &window);
        assert_eq!(counted, u64::from(history.recount(operation)), "{source}");
    }
    assert_eq!(window[WINDOW_BYTES..], beyond, "{source}");
    window
}

#[test]
fn long_runs_count_what_a_recount_gives() {
    let mut windows = Windows::new(Plain::default());
    let runs = [(1, 400), (2, 400), (3, 400), (64, 700), (1023, 4500), (1024, 4500)];
    for (width, answers) in runs {
        for seed in 0..4 {
            run(&mut windows, "run", seed, width, answers, seed as usize);
        }
    }
    for width in 4..64 {
        run(&mut windows, "short run", u64::from(width), width, 200, 0);
    }
    let wanted = [
        ("run", "next", 0, 40_000),
        ("run", "next", 18, 800),
        ("run", "count", 0, 40_000),
        ("short run", "next", 0, 11_000),
        ("short run", "next", 18, 200),
        ("short run", "count", 0, 12_000),
    ];
    windows.report("runs", &wanted);
}

#[test]
fn runs_of_widths_out_of_range_leave_the_window_empty() {
    let mut windows = Windows::new(Plain::default());
    for (seed, width) in [0, 1025, 1026, 2048, 32_768, u16::MAX].into_iter().enumerate() {
        let window = run(&mut windows, "width", seed as u64, width, 50, 2);
        assert!(window[..WINDOW_BYTES].iter().all(|byte| *byte == 0));
    }
    windows.report("widths", &[("width", "next", 18, 300), ("width", "count", 0, 300)]);
}

/// Every width, on a window with so many entries.
#[test]
fn every_width_takes_a_window_that_it_can_hold() {
    let mut windows = Windows::new(Plain::default());
    for entries in [0, 1, 700, 1024] {
        let mut history = Run::new(WIDEST);
        for _ in 0..entries {
            history.hand_on(ACCEPTED);
        }
        let window = bytes(&history.words());
        for width in (0..=1030).chain([65_534, 65_535]) {
            let source = Source { class: "width", seed: entries, step: usize::from(width) };
            let answered = windows.next(source, width, ACCEPTED, &mut window.clone());
            let fits = (1..=WIDEST).contains(&width) && entries <= u64::from(width);
            assert_eq!(answered, if fits { 0 } else { 18 }, "{source}");
        }
    }
    windows.report("widths", &[("width", "next", 0, 2374), ("width", "next", 18, 1700)]);
}

#[test]
fn every_number_fault_and_operation_is_answered_alike() {
    let mut windows = Windows::new(Plain::default());
    let mut spare = Windows::new(Plain::default());
    let window = run(&mut spare, "run", 1, 300, 500, 0);
    for byte in 0..=255 {
        let source = Source { class: "byte", seed: 0, step: usize::from(byte) };
        let refused = Answer { number: byte, ..ACCEPTED };
        windows.next(source, 300, refused, &mut window.clone());
        windows.next(source, 300, Answer { fault: byte, ..ACCEPTED }, &mut window.clone());
        windows.next(
            source,
            300,
            Answer { fault: byte, number: 1, ..ACCEPTED },
            &mut window.clone(),
        );
    }
    for operation in (0..=u16::MAX).filter(|o| *o < 300 || o % 257 == 0 || o % 256 < 3) {
        let class = if usize::from(operation) < OPERATIONS { "operation" } else { "no operation" };
        let source = Source { class, seed: 0, step: usize::from(operation) };
        for number in [0, 1, 18] {
            let answer = Answer { number, fault: 1, operation };
            windows.next(source, 300, answer, &mut window.clone());
        }
        windows.count(source, operation, &window);
    }
    let wanted = [
        ("byte", "next", 0, 768),
        ("operation", "next", 0, 192),
        ("operation", "count", 0, 64),
        ("no operation", "next", 18, 3000),
        ("no operation", "count", 18, 1000),
    ];
    windows.report("numbers", &wanted);
}

fn word(window: &[u8], at: usize) -> u16 {
    u16::from_be_bytes([window[2 * at], window[2 * at + 1]])
}

fn put(window: &mut [u8], at: usize, content: u16) {
    window[2 * at..][..2].copy_from_slice(&content.to_be_bytes());
}

/// A window tried with an accepted and with a refused answer, and asked.
fn tried<M: Memory>(windows: &mut Windows<M>, source: Source, width: u16, window: &[u8]) {
    let refused = Answer { number: 4, ..ACCEPTED };
    let taken = windows.next(source, width, ACCEPTED, &mut window.to_vec());
    assert_eq!(windows.next(source, width, refused, &mut window.to_vec()), taken, "{source}");
    windows.count(source, source.seed as u16 % OPERATIONS as u16, window);
}

/// One word changed in every place, to its neighbours, to 0, to the bounds and to any.
#[test]
fn windows_with_a_changed_word_are_answered_alike() {
    let mut windows = Windows::new(Plain::default());
    let mut spare = Windows::new(Plain::default());
    for (seed, width, answers) in [(0, 1, 0), (1, 2, 9), (2, 900, 300), (3, 1024, 1600)] {
        let window = run(&mut spare, "run", seed, width, answers, 0);
        let mut random = Random::new(seed);
        for at in 0..WORDS {
            let own = word(&window, at);
            let others = [own.wrapping_add(1), own.wrapping_sub(1), own ^ 0x100, random.word()];
            for (kind, content) in others.into_iter().chain([0, 64, 65]).enumerate() {
                let mut damaged = window.clone();
                put(&mut damaged, at, content);
                let class = match (content == own, at) {
                    (true, _) => "unchanged",
                    (_, ..OPERATIONS) => "count",
                    (_, OPERATIONS) => "entries held",
                    _ => "entry",
                };
                let source = Source { class, seed, step: 10 * at + kind };
                tried(&mut windows, source, width, &damaged);
            }
        }
    }
    let wanted = [
        ("unchanged", "next", 0, 4000),
        ("unchanged", "count", 0, 2000),
        ("count", "next", 18, 3000),
        ("count", "count", 18, 1500),
        // One entry more or less that is 0 is another run's window.
        ("entries held", "next", 0, 4),
        ("entries held", "next", 18, 40),
        ("entries held", "count", 0, 4),
        ("entries held", "count", 18, 10),
        ("entry", "next", 18, 30_000),
        ("entry", "count", 18, 15_000),
    ];
    windows.report("changed words", &wanted);
}

/// Entries and counts changed together, so that some windows are other runs'.
#[test]
fn windows_with_several_changes_are_answered_alike() {
    let mut windows = Windows::new(Plain::default());
    let mut spare = Windows::new(Plain::default());
    for seed in 0..1500 {
        let mut random = Random::new(seed);
        let width = [2, 40, 1024][random.below(3)];
        let mut window = run(&mut spare, "run", seed, width, random.between(3, 90), 0);
        let held = usize::from(word(&window, OPERATIONS));
        let source = |class| Source { class, seed, step: held };
        let (one, other) =
            (OPERATIONS + 1 + random.below(held), OPERATIONS + 1 + random.below(held));
        let (first, second) = (word(&window, one), word(&window, other));
        put(&mut window, one, second);
        put(&mut window, other, first);
        tried(&mut windows, source("two entries swapped"), width, &window);
        let old = word(&window, one);
        let new = random.below(OPERATIONS + 1) as u16;
        put(&mut window, one, new);
        if old > 0 {
            let count = word(&window, usize::from(old) - 1);
            put(&mut window, usize::from(old) - 1, count - 1);
        }
        if new > 0 {
            let count = word(&window, usize::from(new) - 1);
            put(&mut window, usize::from(new) - 1, count + 1);
        }
        tried(&mut windows, source("entry and counts changed"), width, &window);
        let (least, most) = (random.below(OPERATIONS), random.below(OPERATIONS));
        let (low, high) = (word(&window, least), word(&window, most));
        put(&mut window, least, high);
        put(&mut window, most, low);
        let class = if low == high { "entry and counts changed" } else { "two counts swapped" };
        tried(&mut windows, source(class), width, &window);
    }
    let wanted = [
        ("two entries swapped", "next", 0, 3000),
        ("two entries swapped", "count", 0, 1500),
        ("entry and counts changed", "next", 0, 3000),
        ("entry and counts changed", "count", 0, 1500),
        ("two counts swapped", "next", 18, 500),
        ("two counts swapped", "count", 18, 250),
    ];
    windows.report("changes", &wanted);
}

#[test]
fn every_length_is_answered_alike() {
    let mut windows = Windows::new(Plain::default());
    let mut spare = Windows::new(Plain::default());
    let window = run(&mut spare, "run", 5, 100, 150, 40);
    for length in 0..=window.len() {
        let class = if length < WINDOW_BYTES { "cut" } else { "whole" };
        let source = Source { class, seed: 0, step: length };
        tried(&mut windows, source, 100, &window[..length]);
    }
    let wanted = [
        ("cut", "next", 18, 2 * WINDOW_BYTES as u64),
        ("cut", "count", 18, WINDOW_BYTES as u64),
        ("whole", "next", 0, 80),
        ("whole", "count", 0, 40),
    ];
    windows.report("lengths", &wanted);
}

fn guarded(edge: Edge, name: &'static str) {
    memory_fault::report(name);
    let mut windows = Windows::new(Guarded::new(edge));
    for (seed, width) in [1, 2, 1023, 1024].into_iter().enumerate() {
        let answers = 60 + usize::from(width);
        let window = run(&mut windows, "run", seed as u64, width, answers, seed);
        for length in [0, 1, 2, 128, 130, WINDOW_BYTES - 2, WINDOW_BYTES - 1] {
            let source = Source { class: "cut", seed: seed as u64, step: length };
            tried(&mut windows, source, width, &window[..length]);
        }
        for content in [1025, 0x7FFF, u16::MAX] {
            let mut damaged = window.clone();
            put(&mut damaged, OPERATIONS, content);
            let source = Source { class: "entries held", seed: seed as u64, step: content.into() };
            tried(&mut windows, source, width, &damaged);
            put(&mut damaged, OPERATIONS, word(&window, OPERATIONS));
            put(&mut damaged, OPERATIONS + 1, content);
            let source = Source { class: "entry", ..source };
            tried(&mut windows, source, width, &damaged);
        }
    }
    let wanted = [
        ("run", "next", 0, 1800),
        ("run", "next", 18, 30),
        ("run", "count", 0, 1800),
        ("cut", "next", 18, 56),
        ("cut", "count", 18, 28),
        ("entries held", "next", 18, 24),
        ("entries held", "count", 18, 12),
        ("entry", "next", 18, 24),
        ("entry", "count", 18, 12),
    ];
    windows.report(name, &wanted);
}

#[test]
fn nothing_behind_a_window_is_touched() {
    guarded(Edge::End, "windows end at a guard page");
}

#[test]
fn nothing_before_a_window_is_touched() {
    guarded(Edge::Begin, "windows begin behind a guard page");
}
