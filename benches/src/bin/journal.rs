//! Times `sock_step_journal` beside `sock_step`, which writes no journal, and `sock_take_back` of what it wrote: every rule, at about 200,
//! 2,000 and 8,192 words. Prints a table.

use benches::clock;
use benches::rules::{by_rule, Case, RULES};
use reference::Numbers;
use std::hint::black_box;

extern "C" {
    fn sock_step(
        e: u16,
        p: u16,
        s: u16,
        q: u16,
        b: u16,
        config: *const u8,
        length: usize,
        out: *mut u8,
        room: usize,
    ) -> u64;
    fn sock_step_journal(
        e: u16,
        p: u16,
        s: u16,
        q: u16,
        b: u16,
        config: *const u8,
        length: usize,
        out: *mut u8,
        room: usize,
        journal: *mut u8,
        journal_length: usize,
    ) -> u64;
    fn sock_take_back(
        config: *const u8,
        length: usize,
        journal: *const u8,
        journal_length: usize,
        out: *mut u8,
        room: usize,
    ) -> u64;
}

fn plain(n: Numbers, config: &[u8], out: &mut [u8], _: &mut [u8]) -> u64 {
    // The library reads the configuration's bytes and writes those of output and journal, no others.
    unsafe {
        sock_step(
            n.engine,
            n.position,
            n.second_engine,
            n.second_position,
            n.branch,
            config.as_ptr(),
            config.len(),
            out.as_mut_ptr(),
            out.len(),
        )
    }
}

fn noted(n: Numbers, config: &[u8], out: &mut [u8], journal: &mut [u8]) -> u64 {
    unsafe {
        sock_step_journal(
            n.engine,
            n.position,
            n.second_engine,
            n.second_position,
            n.branch,
            config.as_ptr(),
            config.len(),
            out.as_mut_ptr(),
            out.len(),
            journal.as_mut_ptr(),
            journal.len(),
        )
    }
}

type Step = fn(Numbers, &[u8], &mut [u8], &mut [u8]) -> u64;

/// Nanoseconds of a step on these, taken in turn.
fn time(cases: &[Case], step: Step) -> f64 {
    let (mut out, mut journal) = (vec![0; 16_384], vec![0; 32_772]);
    let pass = || {
        for case in cases {
            black_box(step(case.numbers, black_box(&case.config), &mut out, &mut journal));
        }
    };
    clock::nanoseconds(pass) / cases.len() as f64
}

/// Nanoseconds of taking back what each of these wrote, with its journal and no more.
fn back(cases: &[Case]) -> f64 {
    let made: Vec<(Vec<u8>, Vec<u8>)> = cases
        .iter()
        .map(|case| {
            let (mut out, mut journal) = (vec![0; 16_384], vec![0; 32_772]);
            let answer = noted(case.numbers, &case.config, &mut out, &mut journal);
            assert_eq!(answer >> 56, 0);
            out.truncate(2 * usize::from(answer as u16));
            let word =
                |i: usize| usize::from(u16::from_be_bytes([journal[2 * i], journal[2 * i + 1]]));
            let needed = 4 + word(0) + word(1) - 2 * (word(2) + word(3));
            journal.truncate(2 * needed);
            (out, journal)
        })
        .collect();
    let mut out = vec![0u8; 16_384];
    let pass = || {
        for (config, journal) in &made {
            black_box(unsafe {
                sock_take_back(
                    config.as_ptr(),
                    config.len(),
                    journal.as_ptr(),
                    journal.len(),
                    out.as_mut_ptr(),
                    out.len(),
                )
            });
        }
    };
    clock::nanoseconds(pass) / cases.len() as f64
}

fn main() {
    println!(
        "| step | words | without a journal, ns | with a journal, ns | times | taking back, ns |"
    );
    println!("|---|---|---|---|---|---|");
    for rule in &RULES {
        for words in [200, 2_000, 8_192] {
            let cases: Vec<Case> = (0..20).map(|seed| by_rule(rule, seed, words)).collect();
            let mean = cases.iter().map(|case| case.config.len() / 2).sum::<usize>() / cases.len();
            let (without, with) = (time(&cases, plain), time(&cases, noted));
            println!(
                "| {} | {mean} | {without:.0} | {with:.0} | {:.2} | {:.0} |",
                rule.0,
                with / without,
                back(&cases)
            );
        }
    }
}
