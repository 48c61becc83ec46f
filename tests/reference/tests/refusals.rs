//! Each refusal by its number, and the order in which they are tried.

mod common;

use common::*;
use reference::build::*;
use reference::configuration::Configuration;
use reference::generate::edges::{filler, long, nest, result_long, serials, Way};
use reference::process::{Key, List, Mark, Part};
use reference::{check_readable, check_start, ends, step, Answer, Ends, Numbers, STANDARD};

fn single(body: Part) -> Configuration {
    configuration(0, vec![scope(0, body)])
}

/// Two engines; engine 0's variable 1 holds 1, the other engine's number.
fn pair(issued: u16, first: Part, second: Part) -> Configuration {
    let mut both = configuration(issued, vec![scope(0, first), scope(0, second)]);
    both.engines[0].values[1] = 1;
    both
}

fn numbers(engine: u16, position: u16, second: u16, second_position: u16, branch: u16) -> Numbers {
    Numbers::new(engine, position, second, second_position, branch)
}

#[test]
fn number_1_unreadable_goes_first() {
    let mut words = words(&single(throw(1)));
    words.push(0);
    assert_eq!(refuse_words(&words, numbers(0, 3, 0, 0, 0), 8192), 1);
    assert_eq!(refuse_words(&words, numbers(9, 3, 1, 1, 1), 0), 1);
    assert_eq!(refuse_words(&[], numbers(0, 0, 0, 0, 0), 8192), 1);
    assert_eq!(check_readable(&STANDARD, &words), 1);
    assert_eq!(check_start(&STANDARD, &words), 1);
    assert_eq!(ends(&STANDARD, &words, 0), Ends { number: 1, waiters: 0, workers: 0 });
}

#[test]
fn number_2_nobody_there() {
    let before = single(seq(assign(1, constant(5)), throw(1)));
    // scope 0, fault 1, list 2, seq 3, assign 4, expression 5 to 7, throw 8.
    for position in [1, 2, 5, 6, 7, 8, 9, 65_535] {
        assert_eq!(refuse(&before, numbers(0, position, 0, 0, 0)), 2, "{position}");
        assert_eq!(refuse(&before, numbers(0, position, 7, 7, 7)), 2, "{position}");
    }
    for engine in [1, 2, 65_535] {
        assert_eq!(refuse(&before, numbers(engine, 0, 0, 0, 0)), 2);
        assert_eq!(refuse(&before, numbers(engine, 0, 9, 9, 9)), 2);
    }
    accept(&before, numbers(0, 4, 0, 0, 0));
}

#[test]
fn number_3_no_move() {
    let still = [
        seq(one_way(1, 1), nil()),
        par(one_way(1, 1), one_way(2, 2)),
        one_way(1, 1),
        request(1, 1, 1, nil()),
        choice(vec![(one_way(1, 1), nil())]),
        waiter(1, 1, false, 0, 1, List::new()),
    ];
    for process in still {
        let before = configuration(1, vec![scope(0, process)]);
        assert_eq!(refuse(&before, numbers(0, 3, 0, 0, 0)), 3);
        // The scope's body is not nil.
        assert_eq!(refuse(&before, numbers(0, 0, 0, 0, 0)), 3);
        // 3 goes before 4.
        assert_eq!(refuse(&before, numbers(0, 3, 9, 9, 9)), 3);
    }
    let nothing = configuration(0, vec![nil(), scope(0, nil())]);
    assert_eq!(refuse(&nothing, numbers(0, 0, 0, 0, 0)), 3);
    assert_eq!(refuse(&nothing, numbers(1, 3, 0, 0, 0)), 3);
    let busy = configuration(1, vec![scope(0, executor(1, 1, 0, 1, throw(1)))]);
    assert_eq!(refuse(&busy, numbers(0, 3, 9, 9, 9)), 3);
}

#[test]
fn number_3_when_moving_alone_with_second_fields() {
    let alone = [
        assign(1, constant(1)),
        if_else(constant(1), nil(), nil()),
        while_true(constant(1), nil()),
        scope(1, nil()),
        inst(List::new()),
        throw(1),
        comp(1),
    ];
    for process in alone {
        let before = single(process);
        accept(&before, numbers(0, 3, 0, 0, 0));
        for other in [(1, 0, 0), (0, 1, 0), (0, 0, 1), (0, 3, 0), (65_535, 0, 0)] {
            assert_eq!(refuse(&before, numbers(0, 3, other.0, other.1, other.2)), 3);
        }
    }
}

#[test]
fn number_4_no_partner() {
    let before = pair(1, notify(1, 0, 1), seq(one_way(1, 2), throw(1)));
    accept(&before, numbers(0, 3, 1, 4, 0));
    for (engine, position) in [(2, 0), (65_535, 0), (1, 1), (1, 5), (1, 6), (1, 65_535)] {
        assert_eq!(refuse(&before, numbers(0, 3, engine, position, 0)), 4);
    }
    // 4 goes before 5, also within the same engine.
    assert_eq!(refuse(&before, numbers(0, 3, 0, 1, 0)), 4);
    assert_eq!(refuse(&before, numbers(0, 3, 0, 3, 0)), 5);
    let waits = pair(1, waiter(1, 1, false, 1, 1, List::new()), executor(1, 1, 0, 1, nil()));
    assert_eq!(refuse(&waits, numbers(1, 3, 0, 4, 0)), 4);
    assert_eq!(refuse(&waits, numbers(1, 3, 2, 3, 0)), 4);
}

#[test]
fn number_5_no_fit_for_messages() {
    let cases = [
        (notify(1, 0, 1), one_way(2, 2), 0),
        (notify(1, 0, 2), one_way(1, 2), 0),
        (notify(1, 0, 1), one_way(1, 2), 1),
        (notify(1, 0, 1), request(1, 2, 3, nil()), 0),
        (notify(1, 0, 1), nil(), 0),
        (notify(1, 0, 1), notify(1, 0, 1), 0),
        (notify(1, 0, 1), choice(vec![(one_way(1, 2), nil())]), 0),
        (notify(1, 0, 1), choice(vec![(one_way(1, 2), nil())]), 2),
        (notify(1, 0, 1), choice(vec![(one_way(1, 2), nil())]), 65_535),
        (notify(1, 0, 1), choice(vec![(request(1, 2, 3, nil()), nil())]), 1),
        (solicit(1, 0, 1, 4, List::new()), one_way(1, 2), 0),
        (solicit(1, 0, 2, 4, List::new()), request(1, 2, 3, nil()), 0),
        (solicit(1, 0, 1, 4, List::new()), request(2, 2, 3, nil()), 0),
        (solicit(1, 0, 1, 4, List::new()), request(1, 2, 3, nil()), 1),
        (solicit(1, 0, 1, 4, List::new()), choice(vec![(one_way(1, 2), nil())]), 1),
    ];
    for (sender, receiver, branch) in cases {
        let before = pair(0, sender, receiver);
        assert_eq!(refuse(&before, numbers(0, 3, 1, 3, branch)), 5, "{before:?}");
    }
}

#[test]
fn number_5_no_fit_for_deliveries() {
    let good = || waiter(1, 2, false, 1, 1, List::new());
    let worker = || [executor(1, 1, 0, 1, nil()), notice(1, 2, 0, 1)];
    for works in worker() {
        let before = pair(2, good(), works.clone());
        accept(&before, numbers(1, 3, 0, 3, 0));
        assert_eq!(refuse(&before, numbers(1, 3, 0, 3, 1)), 5);
        let bad = [
            waiter(2, 2, false, 1, 1, List::new()),
            waiter(1, 2, false, 0, 1, List::new()),
            waiter(1, 2, false, 1, 2, List::new()),
            inst(List::new()),
            request(1, 2, 3, nil()),
        ];
        for receiver in bad {
            assert_eq!(refuse(&pair(2, receiver, works.clone()), numbers(1, 3, 0, 3, 0)), 5);
        }
        // Within one engine, even where the two name each other's engine.
        let own = waiter(1, 2, false, 1, 1, List::new());
        let both = pair(2, nil(), par(works.clone(), own));
        let kind = works.kind();
        assert_eq!(refuse(&both, between(&both, (1, kind), (1, 17))), 5);
    }
    let other_client = pair(2, good(), executor(1, 1, 1, 1, nil()));
    assert_eq!(refuse(&other_client, numbers(1, 3, 0, 3, 0)), 5);
    let other_client = pair(2, good(), notice(1, 2, 1, 1));
    assert_eq!(refuse(&other_client, numbers(1, 3, 0, 3, 0)), 5);
}

#[test]
fn number_6_installing_after_3_and_before_10() {
    let before = single(par(throw(1), inst(List::new())));
    let throws = position(&before, 0, 13);
    assert_eq!(refuse(&before, numbers(0, throws, 0, 0, 0)), 6);
    assert_eq!(refuse(&before, numbers(0, throws, 0, 0, 1)), 3);
    assert_eq!(refuse_words(&words(&before), numbers(0, throws, 0, 0, 0), 0), 6);
}

#[test]
fn number_7_serials_spent_after_5_and_before_10() {
    let spent = serials(65_535);
    let fits = between(&spent, (0, 10), (1, 8));
    assert_eq!(refuse(&spent, fits), 7);
    assert_eq!(refuse_words(&words(&spent), fits, 0), 7);
    assert_eq!(refuse(&spent, Numbers { branch: 1, ..fits }), 5);
    assert_eq!(refuse(&spent, Numbers { second_engine: 0, ..fits }), 5);
    // A solicit does not lengthen a configuration, so a full one is no hindrance; room for it is
    // asked for after the serials.
    for (issued, refusal) in [(65_534, 10), (65_535, 7)] {
        let mut full = serials(issued);
        let rest = filler(8192 - full.size() - 1).expect("some");
        full.engines[1].process = scope(2, par(body(&full, 1).clone(), rest));
        assert_eq!(full.size(), 8192);
        let numbers = between(&full, (0, 10), (1, 8));
        assert_eq!(refuse_words(&words(&full), numbers, 8191), refusal);
        if issued < 65_535 {
            assert_eq!(accept(&full, numbers).0.length, 8192);
        }
    }
}

/// A while whose result is too deep, too long, or both.
fn grows(depth: usize, length: usize) -> Configuration {
    let repeats = while_true(constant(1), nest(Way::ParLeft, depth - 4));
    let before = single(par(repeats.clone(), comp(1)));
    let after = accept_or_measure(&before);
    let rest = filler(length - after + 1).expect("some");
    single(par(repeats, rest))
}

/// The length that the while's step gives, without asking for limits.
fn accept_or_measure(before: &Configuration) -> usize {
    let numbers = alone(0, position(before, 0, 5));
    let result = reference::calls::transition(before, numbers).expect("a while moves");
    result.configuration.size()
}

#[test]
fn numbers_8_9_and_10_in_this_order() {
    let try_with = |before: &Configuration, room: usize| {
        let mut output = vec![FILL; room];
        let numbers = alone(0, position(before, 0, 5));
        step(&STANDARD, &words(before), numbers, &mut output).number
    };
    assert_eq!(try_with(&grows(65, 8193), 0), 8);
    assert_eq!(try_with(&grows(65, 8192), 0), 8);
    assert_eq!(try_with(&grows(64, 8193), 0), 9);
    assert_eq!(try_with(&grows(64, 8192), 8191), 10);
    assert_eq!(try_with(&grows(64, 8192), 8192), 0);
    assert_eq!(try_with(&grows(64, 8193), 8193), 9);
}

#[test]
fn number_10_short_output() {
    let before = result_long(500).expect("some");
    for room in [0, 1, 498, 499] {
        assert_eq!(refuse_words(&words(&before), alone(0, 4), room), 10);
    }
    let mut output = vec![FILL; 500];
    let answer = step(&STANDARD, &words(&before), alone(0, 4), &mut output);
    assert_eq!(answer, Answer { number: 0, kind: 5, serial: 0, fault: 0, length: 500 });
}

#[test]
fn number_11_not_fresh() {
    let fresh = || single(throw(1));
    assert_eq!(check_start(&STANDARD, &words(&fresh())), 0);
    let mut issued = fresh();
    issued.issued = 1;
    let entries = || list([(Key::Fault(1), nil())]);
    let not_fresh = [
        issued,
        configuration(0, vec![nil()]),
        configuration(0, vec![scope(0, nil()), nil()]),
        configuration(0, vec![scope_with(0, Mark::None, true, List::new(), throw(1))]),
        configuration(0, vec![scope_with(0, Mark::None, false, entries(), throw(1))]),
        configuration(0, vec![scope_with(0, Mark::Fault(1), false, entries(), throw(1))]),
        configuration(0, vec![scope_with(0, Mark::OwnName, true, List::new(), throw(1))]),
        single(par(throw(1), seq(scope_with(0, Mark::None, true, List::new(), nil()), nil()))),
        configuration(1, vec![scope(0, executor(1, 1, 0, 1, nil()))]),
        configuration(1, vec![scope(0, waiter(1, 1, false, 0, 1, List::new()))]),
        configuration(1, vec![scope(0, notice(1, 1, 0, 1))]),
    ];
    for configuration in not_fresh {
        assert_eq!(check_readable(&STANDARD, &words(&configuration)), 0);
        assert_eq!(check_start(&STANDARD, &words(&configuration)), 11, "{configuration:?}");
    }
    assert_eq!(check_start(&STANDARD, &words(&long(8192).expect("some"))), 0);
}

#[test]
fn number_12_unknown_serial() {
    let waits = || waiter(1, 1, false, 0, 3, List::new());
    let works = par(executor(1, 1, 0, 3, notice(1, 1, 0, 2)), notice(2, 2, 1, 3));
    let words = words(&pair(4, par(waits(), waits()), works));
    let count = |serial: u16| ends(&STANDARD, &words, serial);
    assert_eq!(count(0), Ends { number: 12, waiters: 0, workers: 0 });
    assert_eq!(count(1), Ends { number: 0, waiters: 0, workers: 0 });
    assert_eq!(count(2), Ends { number: 0, waiters: 0, workers: 1 });
    assert_eq!(count(3), Ends { number: 0, waiters: 2, workers: 2 });
    assert_eq!(count(4), Ends { number: 0, waiters: 0, workers: 0 });
    assert_eq!(count(5), Ends { number: 12, waiters: 0, workers: 0 });
    assert_eq!(count(65_535), Ends { number: 12, waiters: 0, workers: 0 });
}
