//! The diagnosis: there is one exactly when the proved check refuses, on a hundred thousand damaged configurations; and one for not fresh
//! exactly when the proved start check answers 11.

use reference::generate::damage::{random_damage, CONDITIONS};
use reference::generate::random::Random;
use reference::generate::run::{Run, ORIGINS};
use sock::diagnose::{not_fresh, read};
use sock::library::{check_readable, check_start};
use std::collections::BTreeSet;

/// Compares, and answers the sentence that is broken.
fn compare(words: &[u16], what: &str) -> Option<&'static str> {
    let refused = check_readable(words) != 0;
    match read(words) {
        Ok(tree) => {
            assert!(
                !refused,
                "{what}: the proved check refuses, and no reason is found: {words:04x?}"
            );
            assert_eq!(tree.words(), words, "{what}");
            let start = check_start(words);
            assert_eq!(not_fresh(&tree).is_some(), start == 11, "{what}: {words:04x?}");
            None
        }
        Err(why) => {
            assert!(refused, "{what}: {why:?}, and the proved check accepts: {words:04x?}");
            assert_eq!(why.content, words.get(why.word).copied(), "{what}");
            assert!(why.word <= words.len(), "{what}: {why:?}");
            Some(why.sentence)
        }
    }
}

#[test]
fn a_hundred_thousand_damaged_configurations() {
    let mut sentences = BTreeSet::new();
    let (mut refused, mut accepted, mut count) = (0, 0, 0);
    for seed in 0..1000 {
        let run = Run::new(seed, ORIGINS[seed as usize % ORIGINS.len()]);
        let mut random = Random::new(seed);
        for turn in 0..100 {
            let words = random_damage(&mut random, &run.words);
            count += 1;
            match compare(&words, &format!("seed {seed}, turn {turn}")) {
                Some(sentence) => {
                    refused += 1;
                    sentences.insert(sentence);
                }
                None => accepted += 1,
            }
        }
    }
    assert_eq!(count, 100_000);
    assert!(refused > 50_000 && accepted > 5_000, "{refused} refused, {accepted} accepted");
    assert!(sentences.len() > 20, "{sentences:?}");
}

/// What is said where a condition of readable is broken by itself: a part of the sentence, or of one of two where the damage breaks either.
const SENTENCES: &[(&str, &[&str])] = &[
    ("no engine", &["word n is the number of engines"]),
    ("nine engines", &["word n is the number of engines"]),
    (
        "an engine missing",
        &["ends with the last process, not before", "word n is the number of engines"],
    ),
    ("an engine too many", &["words follow it", "names is below n"]),
    ("many engines by a high bit", &["word n is the number of engines"]),
    ("cut", &["ends with the last process, not before"]),
    ("words after the last process", &["words follow it"]),
    ("unused bit in a head", &["this head has one"]),
    ("unused bit in a word of fields", &["this word of fields has one"]),
    ("unused bit in a further variable", &["this further variable has one"]),
    ("unused bit in a key", &["this key has one"]),
    ("unused bit in an expression", &["this word of an expression has one"]),
    ("kind above 18", &["a kind, 0 to 18"]),
    ("choice of none", &["1 to 8 branches"]),
    ("choice of nine", &["1 to 8 branches"]),
    ("branch without receiver", &["a process of kind 7 or 8"]),
    ("mark 3", &["3 is unreadable"]),
    ("marked fault without mark 1", &["the marked fault is 0 unless mark is 1"]),
    ("no variables", &["1 to 4 variables"]),
    ("five variables", &["1 to 4 variables"]),
    ("count of variables in the top bits", &["1 to 4 variables"]),
    ("count of variables by a high bit", &["1 to 4 variables"]),
    ("x twice in a one-way", &["twice in a list of x"]),
    ("x twice in a request", &["twice in a list of x"]),
    ("x twice in a solicit", &["twice in a list of x"]),
    ("x twice in a waiter", &["twice in a list of x"]),
    ("key repeated", &["strictly rise"]),
    ("keys falling", &["strictly rise", "no scope key with nil"]),
    ("root neither nil nor scope", &["an engine's process is nil or a scope"]),
    ("seq begins with nil, enabled", &["no seq begins with nil"]),
    ("seq begins with nil, in code", &["no seq begins with nil"]),
    ("par with nil side, enabled", &["no par has a nil side"]),
    ("par with nil side, in code", &["no par has a nil side"]),
    ("executor not enabled", &["stand only enabled"]),
    ("waiter not enabled", &["stand only enabled"]),
    ("notice not enabled", &["stand only enabled"]),
    ("serial 0", &["a serial is from 1 to issued"]),
    ("serial above issued", &["a serial is from 1 to issued"]),
    ("engine of an executor not below n", &["names is below n"]),
    ("engine of a waiter not below n", &["names is below n"]),
    ("engine of a notice not below n", &["names is below n"]),
    ("marked scope in code", &["a scope that is not enabled"]),
    ("zombie in code", &["a scope that is not enabled"]),
    ("scope with entries in code", &["a scope that is not enabled"]),
    ("mark 2 on a live scope", &["mark 2 stands only on a zombie"]),
    ("mark 1 without the fault", &["with mark 1 the list holds"]),
    ("scope key with nil in a scope's list", &["no scope key with nil"]),
    ("cH enabled", &["cH stands only inside"]),
    ("cH in a scope's list", &["cH stands only inside"]),
    ("cH in code outside handlers", &["cH stands only inside"]),
    ("too deep", &["depth is at most 64"]),
    ("too long", &["at most 8,192 words"]),
];

#[test]
fn every_condition_has_its_sentence() {
    assert_eq!(SENTENCES.len(), CONDITIONS.len());
    for ((name, breaks), (of, sentences)) in CONDITIONS.iter().zip(SENTENCES) {
        assert_eq!(name, of);
        let mut broken = 0;
        for seed in 0..200 {
            let mut run = Run::new(seed, ORIGINS[seed as usize % ORIGINS.len()]);
            let Some(configuration) = run.configuration() else { continue };
            let Some(words) = breaks(&mut run.random, &configuration) else { continue };
            let said = compare(&words, name).unwrap_or_else(|| panic!("{name}: not refused"));
            assert!(sentences.iter().any(|sentence| said.contains(sentence)), "{name}: {said}");
            broken += 1;
        }
        assert!(broken > 10, "{name} is broken {broken} times");
    }
}

#[test]
fn short_words() {
    for length in 0..70 {
        for word in [0, 1, 2, 0x5800, 0xffff] {
            compare(&vec![word; length], "short");
        }
    }
}
