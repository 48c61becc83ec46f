//! Calls from several threads on one configuration at the same time, and from a signal handler in the
//! midst of another call, in either cabinet: each answers and writes as if it were alone.

use library::cabinet::{Cabinet, CABINETS};
use library::deep::{shapes, Extent};
use library::memory::Lent;
use reference::bytes::from_words;
use reference::generate::steps::fitting;
use reference::{write, Numbers};
use std::sync::atomic::{AtomicBool, AtomicUsize, Ordering::SeqCst};
use std::sync::OnceLock;

extern "C" {
    fn signal(number: i32, handler: usize) -> usize;
    fn pthread_self() -> usize;
    fn pthread_kill(thread: usize, number: i32) -> i32;
}

const USER_SIGNAL: i32 = 10;
const ROOM: usize = 16_384;

/// A step on a long configuration, and what the second implementation makes of it.
struct Case {
    cabinet: Cabinet,
    config: Vec<u8>,
    numbers: Numbers,
    answer: u64,
    output: Vec<u8>,
}

impl Case {
    /// Makes the step over `output`; whether all is as it should be. Allocates nothing.
    fn holds(&self, output: &mut [u8; ROOM]) -> bool {
        let config = Lent { start: self.config.as_ptr().cast_mut(), length: self.config.len() };
        output.fill(7);
        let lent = Lent { start: output.as_mut_ptr(), length: ROOM };
        self.cabinet.step(self.numbers, config, lent) == self.answer
            && *output == self.output[..]
            && self.cabinet.check_readable(config) == 0
    }
}

fn cases_of(cabinet: Cabinet) -> Vec<Case> {
    let case = |shape: (String, _)| {
        let config = from_words(&write::configuration(&shape.1));
        let numbers = fitting(&shape.1).first()?.0;
        let mut output = vec![7; ROOM];
        let answer = reference::sock_step_within(&cabinet.limits(), numbers, &config, &mut output);
        Some(Case { cabinet, config, numbers, answer, output })
    };
    let accepted = |case: &Case| case.answer >> 56 == 0;
    let shapes = shapes(Extent::of(cabinet));
    let cases: Vec<Case> =
        shapes.into_iter().step_by(7).filter_map(case).filter(accepted).collect();
    assert!(cases.len() > 10, "{} cases of {cabinet:?}", cases.len());
    cases
}

/// Those of the cabinets in turn.
fn cases() -> Vec<Case> {
    let [large, small] = CABINETS.map(cases_of);
    large.into_iter().zip(small).flat_map(|(one, other)| [one, other]).collect()
}

#[test]
fn threads_read_one_configuration_at_once() {
    let cases = &cases();
    std::thread::scope(|scope| {
        for thread in 0..4 {
            scope.spawn(move || {
                let mut output = [0; ROOM];
                for round in 0..40 * cases.len() {
                    // Two of the threads are on the same configuration in every round.
                    let case = &cases[(round + thread / 2) % cases.len()];
                    assert!(case.holds(&mut output), "thread {thread}, {:?}", case.numbers);
                }
            });
        }
    });
}

/// What the handler calls.
static CASES: OnceLock<Vec<Case>> = OnceLock::new();
/// Whether a call is under way in the thread that gets the signals.
static CALLING: AtomicBool = AtomicBool::new(false);
/// Signals that came while one was, those among them that were answered right, and all.
static INSIDE: AtomicUsize = AtomicUsize::new(0);
static RIGHT: AtomicUsize = AtomicUsize::new(0);
static HANDLED: AtomicUsize = AtomicUsize::new(0);

extern "C" fn handler(_: i32) {
    let Some(cases) = CASES.get() else { return };
    let count = HANDLED.load(SeqCst);
    let mut output = [0; ROOM];
    let right = cases[count % cases.len()].holds(&mut output);
    if CALLING.load(SeqCst) {
        INSIDE.fetch_add(1, SeqCst);
        RIGHT.fetch_add(usize::from(right), SeqCst);
    }
    HANDLED.fetch_add(1, SeqCst);
}

/// Signals inside a call that are wanted.
const WANTED: usize = 500;

/// Sends a signal, waits until it was handled, and sends the next.
fn send(to: usize) {
    while INSIDE.load(SeqCst) < WANTED {
        let handled = HANDLED.load(SeqCst);
        // The thread runs until as many were handled.
        assert_eq!(unsafe { pthread_kill(to, USER_SIGNAL) }, 0);
        while HANDLED.load(SeqCst) == handled {
            std::thread::yield_now();
        }
    }
}

#[test]
fn a_signal_handler_calls_in_the_midst_of_a_call() {
    let cases = CASES.get_or_init(cases);
    unsafe { signal(USER_SIGNAL, handler as *const () as usize) };
    let this = unsafe { pthread_self() };
    let mut wrong = Vec::new();
    std::thread::scope(|scope| {
        let sender = scope.spawn(move || send(this));
        let mut output = [0; ROOM];
        // The sender waits for this thread, so nothing here ends before it.
        let mut all = cases.iter().cycle();
        while let (false, Some(case)) = (sender.is_finished(), all.next()) {
            CALLING.store(true, SeqCst);
            let right = case.holds(&mut output);
            CALLING.store(false, SeqCst);
            if !right {
                wrong.push(case.numbers);
            }
        }
    });
    assert!(wrong.is_empty(), "interrupted and wrong: {wrong:?}");
    assert_eq!(RIGHT.load(SeqCst), INSIDE.load(SeqCst), "wrong in the handler");
}
