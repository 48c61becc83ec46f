//! Writes the cases of the program crate `reading_cases`: its standard input (big-endian words: the count, a serial, an
//! engine, a position, then the configuration) and the lines that it has to print. The argument is the crate's folder.

use reference::build;
use reference::bytes::from_words;
use reference::configuration::Configuration;
use reference::generate::random::Random;
use reference::generate::run::{Run, ORIGINS};
use reference::generate::{damage, edges};
use reference::{check_readable, check_start, ends, pending_at, process_of, step, write, STANDARD};
use std::fs;
use std::path::Path;

struct Cases {
    input: Vec<u8>,
    output: String,
    count: usize,
}

impl Cases {
    fn add(&mut self, words: &[u16], serial: u16, engine: u16) {
        // Positions differ from case to case; one in three is the root's.
        let position = [0, 3, (self.count % 13) as u16][self.count % 3];
        self.input.extend(from_words(&[words.len() as u16, serial, engine, position]));
        self.input.extend(from_words(words));
        let e = ends(&STANDARD, words, serial);
        let p = process_of(&STANDARD, words, engine);
        let pending = pending_at(&STANDARD, words, engine, position);
        let sum = p.iter().fold(0u16, |s, w| s.wrapping_mul(3).wrapping_add(*w));
        self.output += &format!(
            "{} {} {} {} {} {} {} {} {} {}\n",
            check_readable(&STANDARD, words),
            check_start(&STANDARD, words),
            e.number,
            e.waiters,
            e.workers,
            p.len(),
            sum,
            pending.number,
            u8::from(pending.found),
            pending.count
        );
        self.count += 1;
    }
}

fn of_runs(cases: &mut Cases) {
    for seed in 0..40 {
        let origin = ORIGINS[seed as usize % ORIGINS.len()];
        let mut run = Run::new(seed, origin);
        let mut random = Random::new(seed + 1000);
        for turn in 0..24 {
            if turn % 6 == 0 && run.words.len() < 1000 {
                cases.add(&run.words, random.below(4) as u16, random.below(5) as u16);
                let damaged = damage::random_damage(&mut random, &run.words);
                cases.add(&damaged, random.below(4) as u16, random.below(3) as u16);
            }
            let Some(call) = run.call() else { break };
            let mut output = vec![0; call.room];
            let answer = step(&STANDARD, &run.words, call.numbers, &mut output);
            run.take(&answer, &output);
        }
    }
}

/// One case for each way to break a condition of readable.
fn of_damage(cases: &mut Cases) {
    let mut random = Random::new(7);
    for (_, broken) in damage::CONDITIONS {
        for seed in 0..200 {
            let origin = ORIGINS[seed as usize % ORIGINS.len()];
            let start: Option<Configuration> = Run::new(seed, origin).configuration();
            let words = start.and_then(|c| broken(&mut random, &c));
            if let Some(words) = words.filter(|w| w.len() < 1000) {
                cases.add(&words, 1, 0);
                break;
            }
        }
    }
}

fn of_edges(cases: &mut Cases) {
    for way in edges::WAYS {
        for depth in [64, 65] {
            cases.add(&write::configuration(&edges::deep(*way, depth)), 1, 0);
        }
    }
    for words in [8192, 8193] {
        if let Some(long) = edges::long(words) {
            cases.add(&write::configuration(&long), 1, 0);
        }
    }
    for issued in [65_534, 65_535] {
        cases.add(&write::configuration(&edges::serials(issued)), issued, 1);
    }
    cases.add(&[], 0, 0);
    cases.add(&[1], 0, 0);
}

/// Lists of one to five variables in each place, of which five are too many, and one that has a variable twice: lists that are sent may.
fn of_lists(cases: &mut Cases) {
    let lists = (1..=5).map(|count| (5..5 + count).collect::<Vec<u8>>());
    for list in lists.chain([vec![5, 6, 5]]) {
        let list = || list.clone();
        let none = || build::list([]);
        for process in [
            build::one_way(1, list()),
            build::request(1, list(), 2, build::nil()),
            build::request(1, 2, list(), build::nil()),
            build::notify(1, list(), 2),
            build::solicit(1, list(), 2, 3, none()),
            build::solicit(1, 2, 3, list(), none()),
            build::executor(1, list(), 0, 1, build::nil()),
            build::waiter(1, list(), false, 0, 1, none()),
        ] {
            let processes = vec![build::scope(1, process), build::scope(2, build::nil())];
            let both = build::configuration(1, processes);
            cases.add(&write::configuration(&both), 1, 0);
        }
    }
}

fn main() -> std::io::Result<()> {
    let folder = std::env::args().nth(1).unwrap_or_else(|| ".".to_string());
    let mut cases = Cases { input: Vec::new(), output: String::new(), count: 0 };
    of_runs(&mut cases);
    of_damage(&mut cases);
    of_edges(&mut cases);
    of_lists(&mut cases);
    fs::write(Path::new(&folder).join("stdin"), &cases.input)?;
    fs::write(Path::new(&folder).join("stdout"), &cases.output)?;
    println!("{} cases", cases.count);
    Ok(())
}
