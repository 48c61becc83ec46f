//! Document 02, k: over runs in which engines come and go ends match, and no open serial names an
//! engine that has left since it was issued; the refusals and their order; the limits; and why a step
//! is not taken back across a leaving.

mod common;

use common::*;
use reference::build;
use reference::configuration::{Configuration, Engine};
use reference::engines::{join, leave, HOUSE};
use reference::generate::comers::{basin, ending, pump, unfit, words as engine_words, UNFIT};
use reference::generate::random::Random;
use reference::generate::run::Run;
use reference::generate::steps::stands;
use reference::journal::{journal_of, take_back};
use reference::process::Process;
use reference::{check_start, ends, Limits, Numbers, STANDARD};

fn joined(house: &[u16], newcomer: &[u16]) -> (u8, Vec<u16>) {
    let mut output = vec![FILL; STANDARD.words + 1];
    let (number, length) = join(&STANDARD, house, newcomer, &mut output);
    finish(number, length, output)
}

fn left(house: &[u16]) -> (u8, Vec<u16>) {
    let mut output = vec![FILL; STANDARD.words + 1];
    let (number, length) = leave(&STANDARD, house, &mut output);
    finish(number, length, output)
}

/// Words past the length stay; a refusal has length 0.
fn finish(number: u8, length: u16, mut output: Vec<u16>) -> (u8, Vec<u16>) {
    let past = output.split_off(usize::from(length));
    assert!(past.iter().all(|word| *word == FILL));
    assert!(number == 0 || length == 0);
    (number, output)
}

/// Who is in the house, by arrival, and for each serial issued the two who are its ends.
#[derive(Default)]
struct Book {
    arrivals: usize,
    present: Vec<usize>,
    between: Vec<(usize, usize)>,
    delivered: Vec<u16>,
}

impl Book {
    fn arrive(&mut self) {
        self.present.push(self.arrivals);
        self.arrivals += 1;
    }

    fn step(&mut self, numbers: Numbers, serial: u16, kind: u8) {
        match kind {
            10 => {
                let at = |engine: u16| self.present[usize::from(engine)];
                self.between.push((at(numbers.engine), at(numbers.second_engine)));
                self.delivered.push(0);
                assert_eq!(usize::from(serial), self.between.len());
            }
            16 | 18 => self.delivered[usize::from(serial) - 1] += 1,
            _ => {}
        }
    }

    /// Ends match, and both ends of an open serial stand with, and name, those it was issued between.
    fn holds(&self, house: &Configuration) {
        let house_words = words(house);
        for (delivered, serial) in self.delivered.iter().zip(1u16..) {
            let found = ends(&STANDARD, &house_words, serial);
            assert_eq!((found.number, found.waiters), (0, found.workers));
            assert_eq!(found.waiters + delivered, 1);
        }
        for stand in stands(house) {
            let (serial, here, there) = match &*stand.process {
                Process::Waiter(end) => (end.serial, stand.engine, usize::from(end.server)),
                Process::Executor(end, _) => (end.serial, usize::from(end.client), stand.engine),
                Process::Notice(end) => (end.serial, usize::from(end.client), stand.engine),
                _ => continue,
            };
            let between = (self.present[here], self.present[there]);
            assert_eq!(between, self.between[usize::from(serial) - 1]);
        }
    }
}

#[test]
fn ends_match_while_engines_come_and_go() {
    let (mut joinings, mut leavings, mut full, mut working, mut reused) = (0, 0, 0, 0, 0);
    for seed in 0..300 {
        let mut random = Random::new(0x6b_0000 + seed);
        let start = words(&basin(&mut random));
        assert_eq!(check_start(&STANDARD, &start), 0);
        let mut run = Run { random, words: start, limits: STANDARD };
        let mut book = Book::default();
        (0..run.words[0]).for_each(|_| book.arrive());
        for _ in 0..120 {
            let house = read(&run.words);
            book.holds(&house);
            match run.random.below(10) {
                0 | 1 => {
                    let newcomer = engine_words(&pump(&mut run.random));
                    let (number, result) = joined(&run.words, &newcomer);
                    assert_eq!(number, if house.engines.len() == HOUSE { 21 } else { 0 });
                    if number == 0 {
                        run.words = result;
                        reused += usize::from(book.arrivals > book.present.len());
                        book.arrive();
                        joinings += 1;
                    }
                    full += usize::from(number == 21);
                }
                2 | 3 => {
                    let (number, result) = left(&run.words);
                    let last = house.engines.last().expect("an engine");
                    let may = house.engines.len() > 1 && last.process.is_nil();
                    assert_eq!(number, if may { 0 } else { 22 }, "being named never decides");
                    if may {
                        run.words = result;
                        book.present.pop();
                        leavings += 1;
                    }
                    working += usize::from(!may);
                }
                _ => {
                    let chosen = ending(&house).filter(|_| run.random.percent(50));
                    let Some(call) = run.call() else { continue };
                    let numbers = chosen.unwrap_or(call.numbers);
                    let mut output = vec![FILL; STANDARD.words];
                    let answer = reference::step(&STANDARD, &run.words, numbers, &mut output);
                    if answer.number == 0 {
                        book.step(numbers, answer.serial, answer.kind);
                    }
                    run.take(&answer, &output);
                }
            }
        }
    }
    println!("{joinings} joined ({reused} with a number used before), {leavings} left, {full} found the house full, {working} were at work");
    assert!(joinings > 1000 && leavings > 300 && full > 50 && working > 1000 && reused > 200);
}

fn idle(count: usize) -> Vec<u16> {
    words(&build::configuration(0, vec![build::nil(); count]))
}

#[test]
fn joining_is_refused_in_order() {
    let mut random = Random::new(7);
    let pump = engine_words(&Engine { values: [9; 32], process: build::scope(1, build::nil()) });
    for way in UNFIT {
        let newcomer = unfit(&mut random, way);
        assert_eq!(joined(&idle(8), &newcomer).0, 21, "{way}");
        assert_eq!(joined(&idle(7), &newcomer).0, 11, "{way}");
        assert_eq!(joined(&idle(7)[1..], &newcomer).0, 1, "{way}");
        assert_eq!(join(&STANDARD, &idle(7), &newcomer, &mut []).0, 11, "{way}");
    }
    let (number, result) = joined(&idle(7), &pump);
    assert_eq!(number, 0);
    assert_eq!(result, [&[8], &idle(7)[1..], &pump].concat());
    let mut short = vec![FILL; result.len() - 1];
    assert_eq!(join(&STANDARD, &idle(7), &pump, &mut short), (10, 0));
    let tight = Limits { words: result.len() - 1, depth: 64 };
    assert_eq!(join(&tight, &idle(7), &pump, &mut short), (9, 0));
}

/// An engine whose process has this many words, at least 4.
fn long(count: usize) -> Vec<u16> {
    let mut process = vec![0x5800, 0, 0];
    balanced(&mut process, count - 3);
    [vec![0; 64], process].concat()
}

/// A process of so many words and little depth.
fn balanced(to: &mut Vec<u16>, words: usize) {
    match words {
        1 => to.push(0x6800),
        2 => to.extend([0x0800, 0x2000]),
        _ => {
            to.push(0x1800);
            let left = (words - 1) / 2;
            balanced(to, left);
            balanced(to, words - 1 - left);
        }
    }
}

#[test]
fn the_limit_of_words_is_the_configurations() {
    let house = idle(1);
    let most = STANDARD.words - house.len() - 64;
    let (number, result) = joined(&house, &long(most));
    assert_eq!((number, result.len()), (0, STANDARD.words));
    assert_eq!(joined(&house, &long(most + 1)).0, 9);
    assert_eq!(joined(&house, &long(20_000)).0, 9);
    let mut spoiled = long(20_000);
    *spoiled.last_mut().expect("a word") = 0;
    assert_eq!(joined(&house, &spoiled).0, 11);
}

#[test]
fn leaving_is_refused_in_order() {
    assert_eq!(left(&idle(1)).0, 22);
    assert_eq!(left(&idle(2)), (0, idle(1)));
    assert_eq!(left(&idle(2)[1..]).0, 1);
    let mut short = vec![FILL; idle(1).len() - 1];
    assert_eq!(leave(&STANDARD, &idle(2), &mut short), (10, 0));
    let busy = build::configuration(0, vec![build::nil(), build::scope(1, build::nil())]);
    assert_eq!(left(&words(&busy)).0, 22);
    assert_eq!(leave(&STANDARD, &words(&busy), &mut []).0, 22);
}

/// In input that no run gives, an end elsewhere decides; an end that names another does not.
#[test]
fn an_end_elsewhere_keeps_the_last_engine() {
    let sorts: [fn(u8) -> reference::process::Part; 3] = [
        |engine| build::waiter(1, 1, false, engine, 1, build::list([])),
        |engine| build::executor(1, 1, engine, 1, build::nil()),
        |engine| build::notice(1, 1, engine, 1),
    ];
    for sort in sorts {
        for (named, number) in [(2, 22), (1, 0), (0, 0)] {
            let inside =
                build::scope(1, build::par(build::throw(1), build::seq(sort(named), build::nil())));
            let house = build::configuration(1, vec![build::nil(), inside, build::nil()]);
            assert_eq!(left(&words(&house)).0, number);
        }
    }
}

/// A step that ends the last engine, then two leavings and a joining of the right length: the step's
/// journal matches again, and puts a scope into the newcomer that nobody wrote.
#[test]
fn an_old_journal_may_match_again() {
    let done = || build::scope(1, build::nil());
    let start = build::configuration(0, vec![done(), done(), done()]);
    let (_, earlier) = accept(&start, alone(1, 0));
    let (_, later) = accept(&earlier, alone(2, 0));
    let journal = journal_of(&words(&earlier), &words(&later));
    let house = left(&left(&words(&later)).1).1;
    let row = (0..31).fold(build::nil(), |rest, _| build::seq(build::throw(1), rest));
    let newcomer = engine_words(&Engine { values: [0; 32], process: build::scope(1, row) });
    let (number, again) = joined(&house, &newcomer);
    assert_eq!((number, again.len()), (0, words(&later).len()));
    let mut output = vec![FILL; STANDARD.words];
    let (number, length) = take_back(&STANDARD, &again, &journal, &mut output);
    assert_eq!(number, 0);
    let restored = read(&output[..usize::from(length)]);
    assert_eq!(restored.engines.len(), 2);
    assert_ne!(words(&restored), words(&earlier));
    assert_ne!(restored.engines[1], read(&again).engines[1]);
}
