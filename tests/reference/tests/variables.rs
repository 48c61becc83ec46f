//! Lists of variables (document 02, c): how they are laid out, what is unreadable, which counts have
//! to agree, what is stored, and what becomes of the lists.

mod common;

use common::*;
use reference::build::*;
use reference::configuration::Configuration;
use reference::generate::edges::{filler, nest, Way};
use reference::process::{Key, List, Part};
use reference::{check_readable, step, write, Numbers, STANDARD};

/// Two engines; engine 0's variable 1 holds the second engine's number, and each engine's other
/// values are its own.
fn pair(issued: u16, first: Part, second: Part) -> Configuration {
    let mut both = configuration(issued, vec![scope(0, first), scope(0, second)]);
    for (number, engine) in (0u32..).zip(&mut both.engines) {
        for (variable, value) in (0u32..).zip(&mut engine.values) {
            *value = 1000 * (number + 1) + variable;
        }
    }
    both.engines[0].values[1] = 1;
    both
}

fn is_readable(process: Part) -> bool {
    check_readable(&STANDARD, &words(&configuration(1, vec![scope(0, process)]))) == 0
}

const MEET: Numbers =
    Numbers { engine: 0, position: 3, second_engine: 1, second_position: 3, branch: 0 };
const REPLY: Numbers =
    Numbers { engine: 1, position: 3, second_engine: 0, second_position: 3, branch: 0 };

#[test]
fn lists_stand_behind_the_words_of_their_kind() {
    let words = |process: Part| write::process(&process);
    let further = |variable: u16| variable << 11;
    assert_eq!(words(one_way(3, [4, 5, 6])), [7 << 11 | 3 << 5 | 4, 3, further(5), further(6)]);
    let expected = [8 << 11 | 3 << 5 | 4, 6 << 11, 2, further(5), 3, further(7), further(31), 0];
    assert_eq!(words(request(3, [4, 5], [6, 7, 31], nil())), expected);
    assert_eq!(words(notify(3, [4, 4], 5)), [9 << 11 | 3 << 5 | 4, 5 << 11, 2, further(4)]);
    let list = list([(Key::Fault(1), nil())]);
    let (head, fixed) = (10 << 11 | 3 << 5 | 4, 5 << 11 | 8 << 6);
    let expected = [head, fixed, 3, further(6), further(7), 2, further(9), 1, 1 << 9, 0];
    assert_eq!(words(solicit(3, [4, 6, 7], 5, [8, 9], list.clone())), expected);
    let expected = [16 << 11 | 3 << 5 | 4, 2 << 13, 9, 2, further(5), 0];
    assert_eq!(words(executor(3, [4, 5], 2, 9, nil())), expected);
    let expected = [17 << 11 | 3 << 5 | 4, 0x8000 | 2 << 12, 9, 2, further(5), 1, 1 << 9, 0];
    assert_eq!(words(waiter(3, [4, 5], true, 2, 9, list)), expected);
}

/// Each kind with lists, a list in each place: of the count, with x or y first.
fn each_list(count: usize) -> Vec<(u8, usize, Part)> {
    let all: Vec<u8> = (5..).take(count).collect();
    let list = || all.clone();
    vec![
        (7, 4, one_way(1, list())),
        (8, 5, request(1, list(), 2, nil())),
        (8, 6, request(1, 2, list(), nil())),
        (9, 5, notify(1, list(), 2)),
        (10, 5, solicit(1, list(), 2, 3, List::new())),
        (10, 6, solicit(1, 2, 3, list(), List::new())),
        (16, 6, executor(1, list(), 0, 1, nil())),
        (17, 6, waiter(1, list(), false, 0, 1, List::new())),
    ]
}

#[test]
fn counts_are_plain_numbers_from_1_to_4() {
    for count in 1..=5 {
        for (kind, _, process) in each_list(count) {
            assert_eq!(is_readable(process), count <= 4, "kind {kind}, {count} variables");
        }
    }
    for (kind, place, process) in each_list(1) {
        let before = words(&configuration(1, vec![scope(0, process)]));
        assert_eq!(before[66 + place], 1, "kind {kind}");
        for count in [0, 5, 6, 8, 0x0101, 0x0800, 0x1000, 0x2000, 0x8001, 0xFFFF] {
            let mut changed = before.clone();
            changed[66 + place] = count;
            assert_eq!(check_readable(&STANDARD, &changed), 1, "kind {kind}, count {count:x}");
        }
    }
    // A count that takes words which stand there for others.
    let mut swallows = words(&configuration(0, vec![scope(0, par(one_way(1, 2), comp(3)))]));
    swallows[66 + 5] = 2;
    assert_eq!(check_readable(&STANDARD, &swallows), 1);
}

#[test]
fn unused_bits_of_a_further_variable_are_0() {
    for (kind, place, process) in each_list(4) {
        let before = words(&configuration(1, vec![scope(0, process)]));
        for further in 1..4 {
            for bit in 0..11 {
                let mut changed = before.clone();
                changed[66 + place + further] |= 1 << bit;
                assert_eq!(check_readable(&STANDARD, &changed), 1, "kind {kind}, bit {bit}");
            }
        }
    }
}

#[test]
fn a_variable_stands_twice_in_no_list_that_receives() {
    for twice in
        [[5, 5, 6, 7], [5, 6, 5, 7], [5, 6, 7, 5], [5, 6, 6, 7], [5, 6, 7, 6], [5, 6, 7, 7]]
    {
        assert!(!is_readable(one_way(1, twice)));
        assert!(!is_readable(request(1, twice, 1, nil())));
        assert!(!is_readable(solicit(1, 1, 1, twice, List::new())));
        assert!(!is_readable(waiter(1, twice, false, 0, 1, List::new())));
        assert!(!is_readable(waiter(1, twice, true, 0, 1, List::new())));
        assert!(is_readable(request(1, 1, twice, nil())));
        assert!(is_readable(notify(1, twice, 1)));
        assert!(is_readable(solicit(1, twice, 1, 1, List::new())));
        assert!(is_readable(executor(1, twice, 0, 1, nil())));
        // Wherever it stands: in code behind a seq, in a branch, in a list.
        assert!(!is_readable(seq(comp(1), one_way(1, twice))));
        assert!(!is_readable(choice(vec![(one_way(1, twice), nil())])));
        assert!(!is_readable(inst(list([(Key::Fault(1), request(1, twice, 1, nil()))]))));
    }
    // The two lists of one process may have a variable in common.
    assert!(is_readable(request(1, [5, 6], [6, 5], nil())));
    assert!(is_readable(solicit(1, [5, 6], 5, [6, 5], List::new())));
}

#[test]
fn each_variable_takes_its_value() {
    for count in 1..=4 {
        let (y, x) = ([31, 6, 6, 4], [7, 31, 0, 12]);
        let sender = notify(9, y[..count].to_vec(), 1);
        for (receiver, branch) in [
            (one_way(9, x[..count].to_vec()), 0),
            (choice(vec![(one_way(9, 1), nil()), (one_way(9, x[..count].to_vec()), nil())]), 2),
        ] {
            let before = pair(0, sender.clone(), receiver);
            let (answer, after) = accept(&before, Numbers { branch, ..MEET });
            assert_eq!((answer.kind, answer.serial, answer.fault), (9, 0, 0));
            let mut expected = before.engines[1].values;
            for (x, y) in x.iter().zip(y).take(count) {
                expected[usize::from(*x)] = 1000 + u32::from(y);
            }
            assert_eq!(after.engines[1].values, expected);
            assert_eq!(after.engines[0].values, before.engines[0].values);
        }
    }
}

#[test]
fn counts_of_a_message_have_to_agree() {
    let variables = |count: usize| (10..).take(count).collect::<Vec<u8>>();
    for (sent, received) in (1..=4).flat_map(|s| (1..=4).map(move |r| (s, r))) {
        let before = pair(0, notify(9, variables(sent), 1), one_way(9, variables(received)));
        match sent == received {
            true => drop(accept(&before, MEET)),
            false => assert_eq!(refuse(&before, MEET), 5),
        }
    }
}

#[test]
fn counts_of_a_request_and_of_its_reply_have_to_agree() {
    let variables = |count: usize| (10..).take(count).collect::<Vec<u8>>();
    let counts = || (1..=4).flat_map(|one| (1..=4).map(move |other| (one, other)));
    for (sent, awaited) in counts() {
        for (received, replied) in counts() {
            let asks = solicit(9, variables(sent), 1, variables(awaited), List::new());
            let serves = request(9, variables(received), variables(replied), nil());
            let before = pair(65_534, asks.clone(), serves.clone());
            let branch = choice(vec![(serves.clone(), nil())]);
            let offered = pair(65_534, asks, branch);
            let spent = Configuration { issued: 65_535, ..before.clone() };
            if (sent, awaited) == (received, replied) {
                accept(&before, MEET);
                accept(&offered, Numbers { branch: 1, ..MEET });
                assert_eq!(refuse(&spent, MEET), 7);
            } else {
                assert_eq!(refuse(&before, MEET), 5);
                assert_eq!(refuse(&offered, Numbers { branch: 1, ..MEET }), 5);
                assert_eq!(refuse(&spent, MEET), 5, "5 goes before 7");
                assert_eq!(refuse_words(&words(&spent), MEET, 0), 5);
            }
        }
    }
}

#[test]
fn lists_are_carried_along_to_the_reply() {
    let list = || list([(Key::Scope(1), throw(1))]);
    let (y, x) = ([2, 3, 2, 4], [8, 9, 1]);
    let (into, answer) = ([20, 21, 22, 23], [21, 21, 30]);
    let before = pair(0, solicit(9, y, 1, x, list()), request(9, into, answer, comp(5)));
    let (asked, open) = accept(&before, MEET);
    assert_eq!((asked.kind, asked.serial), (10, 1));
    assert_eq!(*body(&open, 0), waiter(9, x, false, 1, 1, list()));
    assert_eq!(*body(&open, 1), executor(9, answer, 0, 1, comp(5)));
    assert_eq!(open.engines[1].values[20..24], [1002, 1003, 1002, 1004]);
    // The body of the executor stands behind its list.
    let (_, done) = accept(&open, alone(1, 3 + 3 + 3));
    let (told, replied) = accept(&done, REPLY);
    assert_eq!((told.kind, told.serial, told.fault), (16, 1, 0));
    assert_eq!((body(&replied, 0), body(&replied, 1)), (&inst(list()), &nil()));
    let mut expected = before.engines[0].values;
    (expected[8], expected[9], expected[1]) = (1003, 1003, 2030);
    assert_eq!(replied.engines[0].values, expected);
}

/// Configurations that no run gives.
#[test]
fn counts_of_a_reply_have_to_agree() {
    let variables = |count: usize| (10..).take(count).collect::<Vec<u8>>();
    for (replied, awaited) in (1..=4).flat_map(|r| (1..=4).map(move |a| (r, a))) {
        for dead in [false, true] {
            let waits = waiter(9, variables(awaited), dead, 1, 3, List::new());
            let before = pair(3, waits.clone(), executor(9, variables(replied), 0, 3, nil()));
            match replied == awaited {
                true => drop(accept(&before, REPLY)),
                false => assert_eq!(refuse(&before, REPLY), 5),
            }
            // A notice has no values, so it fits every waiter, and stores nothing.
            let fault = pair(3, waits, notice(9, 7, 0, 3));
            let (answer, after) = accept(&fault, REPLY);
            assert_eq!((answer.kind, answer.fault), (18, 1));
            assert_eq!(after.engines[0].values, fault.engines[0].values);
        }
    }
}

/// A waiter is not longer than its solicit and an executor not longer than its request, so a solicit
/// is never 8 or 9 and a delivery needs no more output than the configuration is long.
#[test]
fn neither_a_solicit_nor_a_delivery_lengthens() {
    let variables = |count: usize| (10..).take(count).collect::<Vec<u8>>();
    for (sent, awaited) in (1..=4).flat_map(|s| (1..=4).map(move |a| (s, a))) {
        let entries = list([(Key::Fault(1), nest(Way::ParLeft, 61))]);
        let asks = solicit(9, variables(sent), 1, variables(awaited), entries);
        let serves = request(9, variables(sent), variables(awaited), nest(Way::ParLeft, 62));
        let mut before = pair(0, asks, serves);
        let rest = filler(8192 - before.size() - 1).expect("some");
        before.engines[0].process = scope(0, par(body(&before, 0).clone(), rest));
        assert_eq!((before.size(), before.depth()), (8192, 64));
        let numbers = between(&before, (0, 10), (1, 8));
        let (answer, after) = accept(&before, numbers);
        assert_eq!(usize::from(answer.length), 8192 + 2 - 2 * sent);
        assert_eq!(after.depth(), 64);
        let waits = waiter(9, variables(awaited), false, 1, 3, List::new());
        for works in [executor(9, variables(awaited), 0, 3, nil()), notice(9, 7, 0, 3)] {
            let open = pair(3, waits.clone(), works);
            let mut output = vec![FILL; open.size()];
            assert_eq!(step(&STANDARD, &words(&open), REPLY, &mut output).number, 0);
        }
    }
}
