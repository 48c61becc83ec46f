//! Runs the program handover on named inputs and on random ones and holds what it prints to the second implementation's text. The
//! first argument is the program; the second, how many random inputs.

use reference::build;
use reference::bytes::from_words;
use reference::configuration::Configuration;
use reference::generate::damage::random_damage;
use reference::generate::edges;
use reference::generate::random::Random;
use reference::generate::run::{Origin, Run, ORIGINS};
use reference::generate::steps;
use reference::handover::handover;
use reference::{readable, step, write, Numbers, STANDARD};
use std::io::{self, Write};
use std::process::{Command, Stdio};

struct Input {
    name: String,
    bytes: Vec<u8>,
    /// How its text begins and ends.
    first: &'static str,
    last: &'static str,
}

/// The word L, words, steps and bytes behind them.
fn input(length: usize, words: &[u16], calls: &[Numbers], behind: &[u8]) -> Vec<u8> {
    let mut all = vec![length as u16];
    all.extend(words);
    for n in calls {
        all.extend([n.engine, n.position, n.second_engine, n.second_position, n.branch]);
    }
    let mut bytes = from_words(&all);
    bytes.extend(behind);
    bytes
}

/// The numbers that `choose` gives, one after the other, and the words after them.
fn run(
    words: &[u16],
    most: usize,
    mut choose: impl FnMut(&Configuration) -> Option<Numbers>,
) -> (Vec<Numbers>, Vec<u16>) {
    let mut words = words.to_vec();
    let mut calls = Vec::new();
    while calls.len() < most {
        let Some(before) = readable::read(&STANDARD, &words) else { break };
        let Some(numbers) = choose(&before) else { break };
        let mut output = vec![0; STANDARD.words];
        let answer = step(&STANDARD, &words, numbers, &mut output);
        if answer.number == 0 {
            output.truncate(usize::from(answer.length));
            words = output;
        }
        calls.push(numbers);
    }
    (calls, words)
}

/// Document 01's configuration, with counts of variables, and its steps.
fn worked() -> (Vec<u16>, Vec<Numbers>) {
    let mut words = vec![2, 0];
    words.extend([0; 64]);
    words[2 + 3] = 1;
    words.extend([0x5800, 0, 0, 0x5020, 0x0880, 1, 1, 0]);
    words.extend([0; 64]);
    words.extend([0x5800, 0, 0, 0x4020, 0, 1, 1, 0]);
    let numbers =
        |engine, position, second, place| Numbers::new(engine, position, second, place, 0);
    let reply = numbers(1, 3, 0, 3);
    (words, vec![numbers(0, 3, 1, 3), reply, reply, numbers(0, 3, 0, 0), numbers(0, 0, 0, 0)])
}

/// Inputs that are no start, and starts that are refused.
fn refused() -> Vec<Input> {
    let (words, calls) = worked();
    let n = words.len();
    let of = |name: &str, bytes: Vec<u8>, first: &'static str| Input {
        name: name.to_string(),
        bytes,
        first,
        last: first,
    };
    let mut changed = words.clone();
    changed[2 + 64] = 0xF800;
    let mut issued = words.clone();
    issued[1] = 1;
    let (_, later) = run(&words, 1, |_| calls.first().copied());
    vec![
        of("empty", vec![], "start 1\n"),
        of("one byte", vec![0], "start 1\n"),
        of("no words", vec![0, 0], "start 1\n"),
        of("no words, then steps", input(0, &[], &calls, &[]), "start 1\n"),
        of("8,193 words", input(8193, &[0; 8193], &calls, &[]), "start 1\n"),
        of("65,535 words", input(65_535, &words, &calls, &[]), "start 1\n"),
        of("words missing", input(n, &words[..n - 1], &[], &[]), "start 1\n"),
        of("a byte missing", input(n, &words[..n - 1], &[], &[0]), "start 1\n"),
        of("one word less", input(n - 1, &words, &calls, &[]), "start 1\n"),
        of("one word more", input(n + 1, &words, &calls, &[]), "start 1\n"),
        of("unreadable", input(n, &changed, &calls, &[]), "start 1\n"),
        of("a serial issued", input(n, &issued, &calls, &[]), "start 11\n"),
        of("not fresh", input(later.len(), &later, &calls, &[]), "start 11\n"),
    ]
}

/// A client that asks and a server that serves again and again, until the serials are spent.
fn asking() -> Vec<u16> {
    let again = |body| build::while_true(build::constant(1), body);
    let asks = build::scope(1, again(build::solicit(1, 2, 3, 4, build::list([]))));
    let serves = build::scope(2, again(build::request(1, 5, 6, build::nil())));
    let mut both = build::configuration(0, vec![asks, serves]);
    both.engines[0].values[3] = 1;
    write::configuration(&both)
}

/// Runs to the end: document 01's, one cut anywhere, long ones and long configurations.
fn accepted() -> Vec<Input> {
    let (words, calls) = worked();
    let mut all = Vec::new();
    let mut add = |name: &str, words: &[u16], calls: &[Numbers], left: usize, last| {
        let bytes = input(words.len(), words, calls, &vec![7; left]);
        all.push(Input { name: name.to_string(), bytes, first: "start 0\n", last });
    };
    add("document 01's", &words, &calls, 0, "\n5 0 11 0 0\nend 135\n");
    add("no steps", &words, &[], 0, "start 0\nend 146\n");
    for left in 1..10 {
        add("cut", &words, &calls, left, "\n5 0 11 0 0\ncut\n");
        add("cut at once", &words, &[], left, "start 0\ncut\n");
    }
    let grows = |words| write::configuration(&edges::result_long(words).expect("words enough"));
    let repeat = [Numbers::new(0, 4, 0, 0, 0)];
    add("to 8,192 words", &grows(8192), &repeat, 0, "\n1 0 5 0 0\nend 8192\n");
    add("to 8,193 words", &grows(8193), &repeat, 0, "\n1 9 0 0 0\nend 8191\n");
    let mut random = Random::new(1);
    let first = |c: &Configuration| steps::fitting(c).first().map(|s| s.0);
    let full = write::configuration(&edges::long(8192).expect("words enough"));
    let (calls, _) = run(&full, 300, |c| Some(steps::choose(&mut random, c)));
    add("8,192 words", &full, &calls, 0, "\n");
    let asking = asking();
    let (calls, after) = run(&asking, 328_000, first);
    assert_eq!(after[1], 65_535, "all serials issued");
    add("all serials", &asking, &calls, 0, "\n");
    for seed in 0..40 {
        let start = Run::new(seed, Origin::Fresh).words;
        let mut random = Random::new(seed);
        let (calls, _) = run(&start, 500, |c| Some(steps::choose(&mut random, c)));
        add("500 steps", &start, &calls, 0, "\n");
    }
    all
}

/// A run from any origin, sometimes damaged, cut or longer than it says.
fn random_input(seed: u64) -> Input {
    let mut random = Random::new(seed);
    let origin = match random.percent(70) {
        true => Origin::Fresh,
        false => *random.pick(ORIGINS).unwrap_or(&Origin::Growing),
    };
    let mut words = Run::new(seed, origin).words;
    let most = random.below(60);
    let (calls, _) = run(&words, most, |c| Some(steps::choose(&mut random, c)));
    let mut length = words.len();
    match random.below(20) {
        0 => words = random_damage(&mut random, &words),
        1 => length = random.below(70_000) & 0xFFFF,
        2 => length = words.len().saturating_sub(random.below(3)),
        3 => length = words.len() + random.below(3),
        _ => {}
    }
    let behind: Vec<u8> = (0..random.below(12)).map(|_| random.word() as u8).collect();
    let mut bytes = input(length, &words, &calls, &behind);
    if random.percent(5) {
        bytes.truncate(random.below(bytes.len()));
    }
    Input { name: format!("seed {seed}"), bytes, first: "start ", last: "\n" }
}

/// What the program prints. It may end before it has read all.
fn printed(program: &str, input: &[u8]) -> io::Result<Vec<u8>> {
    let mut child = Command::new(program).stdin(Stdio::piped()).stdout(Stdio::piped()).spawn()?;
    let Some(mut pipe) = child.stdin.take() else { return Ok(vec![]) };
    let bytes = input.to_vec();
    let writer = std::thread::spawn(move || pipe.write_all(&bytes));
    let output = child.wait_with_output()?;
    assert!(output.status.success(), "{}", output.status);
    let _ended_early = writer.join();
    Ok(output.stdout)
}

fn main() -> io::Result<()> {
    let program =
        std::env::args().nth(1).unwrap_or_else(|| "../../target/bin/handover".to_string());
    let count = std::env::args().nth(2).and_then(|c| c.parse().ok()).unwrap_or(2000);
    let mut inputs = refused();
    inputs.extend(accepted());
    inputs.extend((0..count).map(random_input));
    let (mut steps, mut accepted) = (0, 0);
    for Input { name, bytes, first, last } in &inputs {
        let expected = String::from_utf8(handover(bytes)).expect("text");
        assert!(expected.starts_with(first) && expected.ends_with(last), "{name}: {expected}");
        let text = String::from_utf8_lossy(&printed(&program, bytes)?).into_owned();
        assert_eq!(text, expected, "{name}");
        for line in text.lines().map(|l| l.split(' ').collect::<Vec<_>>()) {
            steps += usize::from(line.len() == 5);
            accepted += usize::from(line.len() == 5 && line[1] == "0");
        }
    }
    println!("{} inputs, {steps} steps, {accepted} accepted", inputs.len());
    Ok(())
}
