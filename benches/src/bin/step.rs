//! Times `sock_step`: beside the second implementation, which builds trees, and beside a bare copy of the configuration. Every rule, at
//! about 200, 2,000 and 8,192 words, eight engines at work, and the worst shapes. Prints a table, which `tools/plot.awk` draws.

use benches::clock;
use benches::rules::{by_rule, in_eight, worst, Case, EIGHT, RULES};
use reference::Numbers;
use std::hint::black_box;

extern "C" {
    fn sock_step(
        engine: u16,
        position: u16,
        second: u16,
        second_position: u16,
        branch: u16,
        config: *const u8,
        config_length: usize,
        out: *mut u8,
        out_length: usize,
    ) -> u64;
}

fn proved(numbers: Numbers, config: &[u8], out: &mut [u8]) -> u64 {
    let Numbers { engine, position, second_engine, second_position, branch } = numbers;
    // The library reads the configuration's bytes and writes the output's, no others.
    unsafe {
        sock_step(
            engine,
            position,
            second_engine,
            second_position,
            branch,
            config.as_ptr(),
            config.len(),
            out.as_mut_ptr(),
            out.len(),
        )
    }
}

fn tree(numbers: Numbers, config: &[u8], out: &mut [u8]) -> u64 {
    let Numbers { engine, position, second_engine, second_position, branch } = numbers;
    reference::sock_step(engine, position, second_engine, second_position, branch, config, out)
}

fn copy(_: Numbers, config: &[u8], out: &mut [u8]) -> u64 {
    out[..config.len()].copy_from_slice(config);
    0
}

type Step = fn(Numbers, &[u8], &mut [u8]) -> u64;

/// Nanoseconds of a step on these, taken in turn.
fn time(cases: &[Case], step: Step) -> f64 {
    let mut out = vec![0; 16_384];
    let pass = || {
        for case in cases {
            black_box(step(case.numbers, black_box(&case.config), &mut out));
        }
    };
    clock::nanoseconds(pass) / cases.len() as f64
}

/// Words of a configuration, and nanoseconds a word.
struct Point {
    words: f64,
    proved: f64,
    tree: f64,
    copy: f64,
}

/// Both implementations answer the same, with the number, and write the same.
fn agree(name: &str, case: &Case, number: u64) {
    let (mut ours, mut theirs) = (vec![0; 16_384], vec![0; 16_384]);
    let answers = [
        proved(case.numbers, &case.config, &mut ours),
        tree(case.numbers, &case.config, &mut theirs),
    ];
    assert_eq!(answers[0], answers[1], "{name}");
    assert_eq!(answers[0] >> 56, number, "{name}");
    assert_eq!(ours, theirs, "{name}");
}

/// Times a step on the cases, which have to answer the number.
fn measure(name: &str, cases: &[Case], number: u64) -> Point {
    cases.iter().for_each(|case| agree(name, case, number));
    let words =
        cases.iter().map(|case| case.config.len() / 2).sum::<usize>() as f64 / cases.len() as f64;
    let [proved, tree, copy] = [proved as Step, tree, copy].map(|step| time(cases, step) / words);
    Point { words, proved, tree, copy }
}

/// One line: a column for each length.
fn print(name: &str, points: &[Point]) {
    let columns =
        |value: &dyn Fn(&Point) -> String| points.iter().map(value).collect::<Vec<_>>().join(" / ");
    println!(
        "| {name} | {} | {} | {} | {} | {} |",
        columns(&|p| format!("{:.0}", p.words)),
        columns(&|p| format!("{:.1}", p.proved)),
        columns(&|p| format!("{:.1}", p.tree)),
        columns(&|p| format!("{:.1}", p.tree / p.proved)),
        columns(&|p| format!("{:.0}", p.proved / p.copy)),
    );
}

fn rules() {
    for rule in &RULES {
        let cases = |words| (0..20).map(|seed| by_rule(rule, seed, words)).collect::<Vec<_>>();
        print(rule.0, &[200, 2_000, 8_192].map(|words| measure(rule.0, &cases(words), 0)));
    }
}

fn eight_engines() {
    for others in &EIGHT {
        let cases = |words| (0..20).map(|seed| in_eight(others, seed, words)).collect::<Vec<_>>();
        print(others.0, &[1_000, 2_000, 8_192].map(|words| measure(others.0, &cases(words), 0)));
    }
}

fn worst_shapes() {
    for ((name, short), (_, long)) in worst(2_000).into_iter().zip(worst(8_192)) {
        let number = match name.strip_prefix("refused ") {
            Some(refused) => u64::from(refused.as_bytes()[0] - b'0'),
            None => 0,
        };
        print(name, &[short, long].map(|case| measure(name, &[case], number)));
    }
}

fn main() {
    println!("| step | words | proved, ns a word | tree, ns a word | times faster | bare copies |");
    println!("|---|---|---|---|---|---|");
    rules();
    eight_engines();
    worst_shapes();
}
