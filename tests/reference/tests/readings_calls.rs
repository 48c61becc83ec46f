//! Readings 7 to 11: which refusal, what a message carries, depth, layout. Reading 12 is in
//! `worked_example`.

mod common;

use common::*;
use reference::build::*;
use reference::configuration::Configuration;
use reference::expression::Operator;
use reference::process::{Key, List, Mark, Part};
use reference::{check_readable, write, Numbers, STANDARD};

/// Two engines; engine 0's variable 1 holds the second engine's number.
fn pair(issued: u16, first: Part, second: Part) -> Configuration {
    let mut both = configuration(issued, vec![scope(0, first), scope(0, second)]);
    both.engines[0].values[1] = 1;
    both
}

fn is_readable(configuration: &Configuration) -> bool {
    check_readable(&STANDARD, &words(configuration)) == 0
}

#[test]
fn reading_7_enabled_nil_seq_and_par_heads_are_found() {
    let found = [nil(), seq(one_way(1, 1), nil()), par(one_way(1, 1), one_way(1, 2))];
    for process in found {
        let before = pair(0, notify(1, 0, 1), process);
        assert_eq!(refuse(&before, Numbers::new(1, 3, 0, 0, 0)), 3);
        assert_eq!(refuse(&before, Numbers::new(0, 3, 1, 3, 0)), 5);
    }
    let ended = configuration(0, vec![nil(), scope(0, notify(1, 0, 0))]);
    assert_eq!(refuse(&ended, Numbers::new(0, 0, 0, 0, 0)), 3);
    assert_eq!(refuse(&ended, Numbers::new(1, 3, 0, 0, 0)), 5);
}

#[test]
fn reading_7_the_parts_of_a_choice_are_not_enabled() {
    let before = pair(0, notify(1, 0, 1), choice(vec![(one_way(1, 2), throw(1))]));
    accept(&before, Numbers::new(0, 3, 1, 3, 1));
    for position in [4, 5] {
        assert_eq!(refuse(&before, Numbers::new(1, position, 0, 0, 0)), 2);
        assert_eq!(refuse(&before, Numbers::new(0, 3, 1, position, 0)), 4);
    }
}

#[test]
fn reading_7_the_same_engine_twice() {
    let mut before = pair(0, par(notify(1, 0, 2), one_way(1, 3)), nil());
    let receiver = position(&before, 0, 7);
    let sender = position(&before, 0, 9);
    before.engines[0].values[2] = 0;
    assert_eq!(refuse(&before, Numbers::new(0, sender, 0, receiver, 0)), 5);
    assert_eq!(refuse(&before, Numbers::new(0, sender, 0, receiver + 1, 0)), 4);
}

#[test]
fn reading_8_the_address_is_compared_as_a_32_bit_value() {
    for (address, number) in [(1, 0), (0x1_0001, 5), (0x8000_0001, 5), (257, 5), (0, 5)] {
        let mut before = pair(0, notify(1, 0, 1), one_way(1, 3));
        before.engines[0].values[1] = address;
        let numbers = Numbers::new(0, 3, 1, 3, 0);
        match number {
            0 => drop(accept(&before, numbers)),
            _ => assert_eq!(refuse(&before, numbers), number, "{address}"),
        }
    }
}

#[test]
fn reading_8_the_reply_reads_y_when_it_is_delivered() {
    let serves = request(1, 5, 5, assign(5, binary(Operator::Sum, variable(5), constant(1))));
    let mut before = pair(0, solicit(1, 6, 1, 7, List::new()), serves);
    before.engines[0].values[6] = 40;
    let (asked, open) = accept(&before, between(&before, (0, 10), (1, 8)));
    assert_eq!((asked.kind, asked.serial, asked.fault), (10, 1, 0));
    assert_eq!(open.engines[1].values[5], 40);
    let (_, done) = accept(&open, alone(1, position(&open, 1, 1)));
    let (told, replied) = accept(&done, between(&done, (1, 16), (0, 17)));
    assert_eq!((told.kind, told.serial, told.fault), (16, 1, 0));
    assert_eq!(replied.engines[0].values[7], 41);
    assert_eq!((body(&replied, 0), body(&replied, 1)), (&inst(List::new()), &nil()));
}

#[test]
fn reading_8_faults_to_live_and_dead_waiters() {
    for (dead, left) in [(false, throw(33)), (true, nil())] {
        let waits = waiter(1, 2, dead, 1, 7, list([(Key::Scope(1), throw(1))]));
        let mut before = pair(9, waits, seq(notice(1, 33, 0, 7), throw(2)));
        before.engines[0].values[2] = 5;
        let (answer, after) = accept(&before, between(&before, (1, 18), (0, 17)));
        assert_eq!((answer.kind, answer.serial, answer.fault), (18, 7, 1));
        assert_eq!((body(&after, 0), body(&after, 1)), (&left, &throw(2)));
        assert_eq!((after.issued, after.engines[0].values[2]), (9, 5));
    }
}

#[test]
fn a_message_may_go_to_and_from_the_same_variable_numbers() {
    let mut before = pair(0, notify(63, 31, 1), one_way(63, 31));
    before.engines[0].values[31] = u32::MAX;
    let (answer, after) = accept(&before, Numbers::new(0, 3, 1, 3, 0));
    assert_eq!((answer.kind, answer.serial, answer.fault), (9, 0, 0));
    assert_eq!(after.engines[1].values[31], u32::MAX);
    assert_eq!((body(&after, 0), body(&after, 1)), (&nil(), &nil()));
}

#[test]
fn reading_9_depths() {
    let depth = |process: Part| reference::measure::depth(&process);
    assert_eq!(depth(nil()), 1);
    assert_eq!(depth(assign(1, constant(1))), 2);
    assert_eq!(depth(assign(1, binary(Operator::Sum, constant(1), variable(1)))), 3);
    assert_eq!(depth(inst(List::new())), 1);
    assert_eq!(depth(inst(list([(Key::Fault(1), nil())]))), 2);
    assert_eq!(depth(solicit(1, 1, 1, 1, list([(Key::Fault(1), nil())]))), 2);
    assert_eq!(depth(scope(1, nil())), 2);
    let marked = scope_with(1, Mark::None, false, list([(Key::Fault(1), scope(1, nil()))]), nil());
    assert_eq!(depth(marked), 3);
    assert_eq!(depth(choice(vec![(one_way(1, 1), nil())])), 2);
    assert_eq!(depth(choice(vec![(request(1, 1, 1, nil()), nil())])), 3);
    assert_eq!(depth(request(1, 1, 1, nil())), 2);
    assert_eq!(depth(executor(1, 1, 0, 1, nil())), 2);
    assert_eq!(depth(waiter(1, 1, false, 0, 1, list([(Key::Scope(1), nil())]))), 2);
    assert_eq!(depth(notice(1, 1, 0, 1)), 1);
    assert_eq!(depth(if_else(constant(1), nil(), nil())), 2);
}

#[test]
fn reading_10_words_of_each_kind() {
    let key = write::key;
    assert_eq!([key(Key::Fault(0)), key(Key::Fault(63))], [0, 63 << 9]);
    assert_eq!([key(Key::Scope(0)), key(Key::Scope(63))], [0x8000, 0x8000 | 63 << 9]);
    let words = |process: Part| write::process(&process);
    assert_eq!(words(nil()), [0]);
    assert_eq!(words(assign(31, constant(0x1234_5678))), [1 << 11 | 31 << 6, 0, 0x1234, 0x5678]);
    assert_eq!(words(assign(1, variable(31))), [1 << 11 | 1 << 6, 1 << 13 | 31 << 8]);
    let sum = |operator| binary(operator, variable(0), variable(1));
    let operators = [
        Operator::Sum,
        Operator::Difference,
        Operator::Less,
        Operator::Equal,
        Operator::DecimalSum,
        Operator::DecimalDifference,
    ];
    for (operator, code) in operators.into_iter().zip(2u16..) {
        let expected = [1 << 11, code << 13, 1 << 13, 1 << 13 | 1 << 8];
        assert_eq!(words(assign(0, sum(operator))), expected);
    }
    assert_eq!(words(seq(throw(1), nil())), [2 << 11, 13 << 11 | 1 << 5, 0]);
    assert_eq!(words(par(throw(63), comp(2))), [3 << 11, 13 << 11 | 63 << 5, 14 << 11 | 2 << 5]);
    assert_eq!(words(if_else(variable(0), nil(), comp(0))), [4 << 11, 1 << 13, 0, 14 << 11]);
    assert_eq!(words(while_true(variable(0), nil())), [5 << 11, 1 << 13, 0]);
    let branches = vec![(one_way(63, 31), nil()), (request(1, 2, 31, nil()), comp(0))];
    let mut expected = vec![6 << 11 | 2, 7 << 11 | 63 << 5 | 31, 1, 0];
    expected.extend([8 << 11 | 1 << 5 | 2, 31 << 11, 1, 1, 0, 14 << 11]);
    assert_eq!(words(choice(branches)), expected);
    assert_eq!(words(notify(3, 4, 5)), [9 << 11 | 3 << 5 | 4, 5 << 11, 1]);
    let entries = || list([(Key::Fault(2), nil()), (Key::Scope(1), comp(0))]);
    let listed = [2, 2 << 9, 0, 0x8000 | 1 << 9, 14 << 11];
    let mut expected = vec![10 << 11 | 3 << 5 | 4, 5 << 11 | 6 << 6, 1, 1];
    expected.extend(listed);
    assert_eq!(words(solicit(3, 4, 5, 6, entries())), expected);
    let zombie = scope_with(63, Mark::Fault(62), true, entries(), nil());
    let mut expected = vec![11 << 11 | 63 << 5 | 1 << 3 | 1 << 2, 62 << 10];
    expected.extend(listed);
    expected.push(0);
    assert_eq!(words(zombie), expected);
    let own = scope_with(0, Mark::OwnName, true, List::new(), nil());
    assert_eq!(words(own), [11 << 11 | 2 << 3 | 1 << 2, 0, 0, 0]);
    assert_eq!(words(inst(List::new())), [12 << 11, 0]);
    assert_eq!(words(current_handler()), [15 << 11]);
    let expected = [16 << 11 | 3 << 5 | 4, 7 << 13, 0xFFFF, 1, 0];
    assert_eq!(words(executor(3, 4, 7, 65_535, nil())), expected);
    let expected = [17 << 11 | 3 << 5 | 4, 0x8000 | 7 << 12, 9, 1, 0];
    assert_eq!(words(waiter(3, 4, true, 7, 9, List::new())), expected);
    assert_eq!(words(notice(3, 63, 7, 9)), [18 << 11 | 3 << 5, 63 << 10 | 7 << 7, 9]);
}

#[test]
fn reading_10_what_is_legal_though_odd() {
    let zero = list([(Key::Fault(0), nil())]);
    let marked = scope_with(1, Mark::Fault(0), false, zero, nil());
    assert!(is_readable(&configuration(0, vec![marked])));
    // An end may name its own engine, and serials may repeat.
    let own =
        par(executor(1, 1, 0, 1, nil()), par(notice(1, 1, 0, 1), executor(1, 1, 0, 1, nil())));
    let own = par(own, waiter(1, 1, false, 0, 1, List::new()));
    assert!(is_readable(&configuration(1, vec![scope(0, own)])));
    // Scope keys with nil in the lists of kinds 10, 12 and 17.
    let entries = || list([(Key::Scope(1), nil())]);
    let all = par(
        inst(entries()),
        par(solicit(1, 1, 1, 1, entries()), waiter(1, 1, false, 0, 1, entries())),
    );
    assert!(is_readable(&configuration(1, vec![scope(0, all)])));
    // Zombies with mark 1 and 2, and an end deep in executors.
    let deep = executor(1, 1, 0, 1, seq(executor(1, 1, 0, 1, notice(1, 1, 0, 1)), throw(1)));
    let zombie = scope_with(1, Mark::OwnName, true, List::new(), deep);
    assert!(is_readable(&configuration(1, vec![scope(0, zombie)])));
}

#[test]
fn current_handlers_at_any_depth_in_handler_entries_only() {
    let ch = current_handler;
    let entries = |process: Part| list([(Key::Fault(1), process)]);
    let deep =
        choice(vec![(request(1, 1, 1, seq(ch(), scope(1, ch()))), while_true(variable(1), ch()))]);
    let nested = inst(entries(seq(deep, solicit(1, 1, 1, 1, entries(ch())))));
    for good in [
        inst(entries(ch())),
        nested.clone(),
        solicit(1, 1, 1, 1, entries(nested.clone())),
        waiter(1, 1, false, 0, 1, entries(nested.clone())),
        scope_with(1, Mark::None, false, entries(nested.clone()), nil()),
        seq(throw(1), nested.clone()),
    ] {
        assert!(is_readable(&configuration(1, vec![scope(0, good)])));
    }
    for bad in [
        ch(),
        seq(throw(1), ch()),
        scope(1, ch()),
        scope_with(1, Mark::None, false, entries(ch()), nil()),
        scope_with(1, Mark::None, false, entries(seq(throw(1), ch())), nil()),
        executor(1, 1, 0, 1, ch()),
        request(1, 1, 1, ch()),
        par(nested, ch()),
    ] {
        assert!(!is_readable(&configuration(1, vec![scope(0, bad)])));
    }
}

#[test]
fn reading_11_a_true_while_with_nil_body_changes_no_word() {
    let before = configuration(0, vec![scope(0, par(throw(1), while_true(constant(2), nil())))]);
    let (answer, after) = accept(&before, alone(0, position(&before, 0, 5)));
    assert_eq!((answer.kind, usize::from(answer.length)), (5, before.size()));
    assert_eq!(after, before);
}
