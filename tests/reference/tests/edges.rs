//! The edges: depth 64 and 65, 8,192 and 8,193 words, issued 65,534 and 65,535, and the same
//! edges of a step's result.

mod common;

use common::*;
use reference::build::*;
use reference::configuration::Configuration;
use reference::generate::edges::{deep, filler, long, result_deep, result_long, serials, WAYS};
use reference::process::{Key, List, Mark, Part};
use reference::{check_readable, check_start, step, STANDARD};

#[test]
fn depth_64_is_readable_and_65_is_not() {
    for way in WAYS {
        for depth in [2, 3, 4, 63, 64] {
            let configuration = deep(*way, depth);
            assert_eq!(configuration.depth(), depth, "{way:?}");
            assert_eq!(check_start(&STANDARD, &words(&configuration)), 0, "{way:?} {depth}");
        }
        for depth in [65, 66, 200] {
            let configuration = deep(*way, depth);
            assert_eq!(configuration.depth(), depth, "{way:?}");
            assert_eq!(check_readable(&STANDARD, &words(&configuration)), 1, "{way:?} {depth}");
        }
    }
}

/// A configuration of this depth, nested by processes that only stand enabled.
fn running(depth: usize, innermost: Part, around: impl Fn(Part) -> Part) -> Configuration {
    let mut process = innermost;
    while reference::measure::depth(&process) + 1 < depth {
        process = around(process);
    }
    configuration(1, vec![scope(1, process)])
}

#[test]
fn depth_counts_enabled_executors_and_list_entries() {
    let in_executor = |part: Part| executor(1, 2, 0, 1, part);
    let in_scope_list = |part: Part| {
        let entries = list([(Key::Scope(3), part)]);
        inst(entries)
    };
    for (depth, answer) in [(64, 0), (65, 1)] {
        let executors = running(depth, notice(1, 2, 0, 1), in_executor);
        assert_eq!(check_readable(&STANDARD, &words(&executors)), answer);
        let entries = running(depth - 1, throw(1), in_scope_list);
        let inner = body(&entries, 0).clone();
        let entry = list([(Key::Fault(1), inner)]);
        let waiting = waiter(1, 2, true, 0, 1, entry.clone());
        let waits = configuration(1, vec![scope(1, waiting)]);
        assert_eq!(waits.depth(), depth);
        assert_eq!(check_readable(&STANDARD, &words(&waits)), answer);
        let holds = scope_with(1, Mark::None, false, entry, nil());
        let holds = configuration(1, vec![scope(1, holds)]);
        assert_eq!(holds.depth(), depth);
        assert_eq!(check_readable(&STANDARD, &words(&holds)), answer);
    }
}

#[test]
fn words_8192_are_readable_and_8193_are_not() {
    for (length, answer) in [(8191, 0), (8192, 0), (8193, 1), (9000, 1)] {
        let configuration = long(length).expect("long enough");
        assert_eq!(words(&configuration).len(), length);
        assert_eq!(check_start(&STANDARD, &words(&configuration)), answer, "{length}");
    }
}

#[test]
fn solicit_at_65534_is_accepted_and_at_65535_refused() {
    let before = serials(65_534);
    let (answer, after) = accept(&before, between(&before, (0, 10), (1, 8)));
    assert_eq!((answer.kind, answer.serial, answer.fault), (10, 65_535, 0));
    assert_eq!(after.issued, 65_535);
    assert_eq!(*body(&after, 0), waiter(1, 4, false, 1, 65_535, List::new()));
    let spent = serials(65_535);
    assert_eq!(refuse(&spent, between(&spent, (0, 10), (1, 8))), 7);
    assert_eq!(accept(&serials(0), between(&spent, (0, 10), (1, 8))).0.serial, 1);
}

#[test]
fn a_result_of_depth_64_is_accepted_and_65_refused() {
    for way in WAYS {
        let before = result_deep(*way, 64);
        assert_eq!(before.depth(), 63);
        assert_eq!(accept(&before, alone(0, 3)).1.depth(), 64, "{way:?}");
        let before = result_deep(*way, 65);
        assert_eq!(before.depth(), 64);
        assert_eq!(refuse(&before, alone(0, 3)), 8, "{way:?}");
    }
}

#[test]
fn a_result_of_8192_words_is_accepted_and_8193_refused() {
    let before = result_long(8192).expect("long enough");
    assert_eq!(before.size(), 8190);
    let (answer, _) = accept(&before, alone(0, 4));
    assert_eq!(answer.length, 8192);
    let before = result_long(8193).expect("long enough");
    assert_eq!(refuse(&before, alone(0, 4)), 9);
    assert_eq!(refuse_words(&words(&before), alone(0, 4), 0), 9);
    assert_eq!(refuse_words(&words(&before), alone(0, 4), 10_000), 9);
}

/// A handler of many cH over a long old entry: millions of words, refused and not built.
#[test]
fn a_result_of_millions_of_words_is_refused_as_long() {
    let mut many = current_handler();
    for _ in 0..11 {
        many = par(many.clone(), many);
    }
    let key = Key::Fault(1);
    let old = list([(key, filler(3900).expect("some"))]);
    let root = scope_with(1, Mark::None, false, old, inst(list([(key, many)])));
    let before = configuration(0, vec![root]);
    assert!(words(&before).len() <= 8192);
    assert_eq!(run_refused(&before, 12), 9);
}

#[test]
fn an_output_longer_than_the_limit_is_fine() {
    let before = long(8192).expect("long enough");
    let mut output = vec![FILL; 9000];
    let first_comp = position(&before, 0, 14);
    let answer = step(&STANDARD, &words(&before), alone(0, first_comp), &mut output);
    assert_eq!((answer.number, answer.kind, answer.length), (0, 14, 8190));
    assert!(output[8190..].iter().all(|word| *word == FILL));
}

#[test]
fn positions_reach_to_the_end_of_8192_words() {
    let rest = filler(8192 - 66 - 3 - 2).expect("some");
    let before = configuration(0, vec![scope(1, par(rest, throw(1)))]);
    assert_eq!(before.size(), 8192);
    let last = 8192 - 66 - 1;
    let (answer, after) = accept(&before, alone(0, last));
    assert_eq!((answer.kind, answer.length), (13, 66 + 4));
    assert_eq!(*process(&after, 0), scope_with(1, Mark::None, true, List::new(), nil()));
    assert_eq!(refuse(&before, alone(0, last + 1)), 2);
    assert_eq!(refuse(&before, alone(0, 65_535)), 2);
}
