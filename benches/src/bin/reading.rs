//! Times the readable check: the proved one on words, and the second implementation's, which builds a tree. Both read the same
//! configurations; a row says how many words one has and the nanoseconds that each takes a word.

use benches::{clock, shapes, walker};
use reference::generate::random::Random;
use reference::process::Part;
use reference::{build, check_readable, write, STANDARD};
use std::hint::black_box;

extern "C" {
    fn timing_check_readable(words: *const u16, count: usize) -> u8;
}

fn proved(words: &[u16]) -> u8 {
    // The library reads `count` words from the pointer and writes nothing.
    unsafe { timing_check_readable(words.as_ptr(), words.len()) }
}

fn row(name: &str, configurations: &[Vec<u16>]) {
    for c in configurations {
        assert_eq!((proved(c), check_readable(&STANDARD, c)), (0, 0), "{name} is readable");
    }
    let words = configurations.iter().map(Vec::len).sum::<usize>() as f64;
    let a_word = |check: &dyn Fn(&[u16]) -> u8| {
        let pass =
            || configurations.iter().for_each(|c| assert_eq!(black_box(check(black_box(c))), 0));
        clock::nanoseconds(pass) / words
    };
    let ours = a_word(&proved);
    let rival = a_word(&walker::check_readable);
    let tree = a_word(&|c| check_readable(&STANDARD, c));
    let each = words / configurations.len() as f64;
    println!("| {name} | {each:.0} | {ours:.2} | {rival:.2} | {:.2} | {tree:.2} | {:.1} |", ours / rival, tree / ours);
}

/// A configuration of one engine, whose root is a scope around the process.
fn configuration(process: Part) -> Vec<u16> {
    write::configuration(&build::configuration(0, vec![build::scope(1, process)]))
}

/// Words that stand beside the process in such a configuration.
const AROUND: usize = 69;

fn mixed(seed: u64, words: usize) -> Vec<u16> {
    configuration(shapes::mixed(&mut Random::new(seed), words - AROUND))
}

fn main() {
    println!("| configuration | words | proved, ns a word | plain walk, ns a word | proved / plain walk | tree, ns a word | times faster |");
    println!("|---|---|---|---|---|---|---|");
    for words in [200, 2_000, 8_192] {
        row("all kinds, one configuration", &[mixed(3, words)]);
        row(
            "all kinds, sixty configurations",
            &(0..60).map(|s| mixed(s, words)).collect::<Vec<_>>(),
        );
    }
    for words in [2_000, 8_192] {
        let inside = words - AROUND;
        row("leaves of one word, balanced", &[configuration(shapes::leaves(inside))]);
        row("pars nested to the left", &[configuration(shapes::leftward(inside, build::throw(1)))]);
        row("lists in lists", &[configuration(shapes::lists(inside))]);
    }
}
