//! Readings 1 to 3: promotion, substitution of cH, and what a rebuilt term drops.

mod common;

use common::*;
use reference::build::*;
use reference::configuration::Configuration;
use reference::expression::Operator;
use reference::process::{Key, List, Mark, Part};
use reference::Numbers;

const F: Key = Key::Fault(5);
const Q: Key = Key::Scope(9);

fn p() -> Part {
    assign(1, constant(1))
}

fn r() -> Part {
    comp(33)
}

fn live(name: u8, list: List, body: Part) -> Part {
    scope_with(name, Mark::None, false, list, body)
}

fn root(list: List, body: Part) -> Configuration {
    configuration(0, vec![live(0, list, body)])
}

/// What installing `new` for the key makes of the root's list that holds `old`.
fn updated(old: List, new: List) -> List {
    let after = run(&root(old, inst(new)), 12);
    match &**process(&after, 0) {
        reference::process::Process::Scope(scope, body) if body.is_nil() => scope.list.clone(),
        other => panic!("{other:?}"),
    }
}

/// The step of the n-th enabled scope of engine 0.
fn end_scope(before: &Configuration, index: usize) -> Configuration {
    accept(before, alone(0, nth(before, 0, 11, index))).1
}

#[test]
fn reading_1_promotion_of_an_absent_entry_removes_the_outer_one() {
    let before = root(list([(F, p()), (Q, p())]), scope(9, nil()));
    assert_eq!(end_scope(&before, 1), root(list([(F, p())]), nil()));
    let none_there = root(list([(F, p())]), scope(9, nil()));
    assert_eq!(end_scope(&none_there, 1), root(list([(F, p())]), nil()));
}

#[test]
fn reading_1_only_the_own_name_is_promoted() {
    let entries = list([(F, r()), (Key::Fault(9), r()), (Key::Scope(8), r()), (Q, p())]);
    let before = root(list([(Q, r())]), live(9, entries, nil()));
    assert_eq!(end_scope(&before, 1), root(list([(Q, p())]), nil()));
}

#[test]
fn reading_1_nearest_looks_through_executors_and_counts_zombies() {
    let moves = [inst(list([(Q, p())])), live(9, list([(Q, p())]), nil())];
    for moving in moves {
        for zombie in [false, true] {
            let around = |inner: Part, entries: List| {
                let works = executor(1, 2, 0, 1, seq(inner, r()));
                let near = scope_with(3, Mark::None, zombie, entries, works);
                configuration(1, vec![live(0, list([(F, p())]), near)])
            };
            let before = around(moving.clone(), List::new());
            let kind = moving.kind();
            let index = if kind == 11 { 2 } else { 0 };
            let (_, after) = accept(&before, alone(0, nth(&before, 0, kind, index)));
            let works = executor(1, 2, 0, 1, r());
            let near = scope_with(3, Mark::None, zombie, list([(Q, p())]), works);
            assert_eq!(after, configuration(1, vec![live(0, list([(F, p())]), near)]));
        }
    }
    let works = executor(1, 2, 0, 1, comp(9));
    let near = scope_with(3, Mark::None, true, list([(Q, p())]), works);
    let before = configuration(1, vec![live(0, list([(Q, r())]), near)]);
    let works = executor(1, 2, 0, 1, p());
    let near = scope_with(3, Mark::None, true, List::new(), works);
    let after = configuration(1, vec![live(0, list([(Q, r())]), near)]);
    assert_eq!(run(&before, 14), after);
}

#[test]
fn a_root_updates_nothing_when_it_ends() {
    let before = root(list([(Key::Scope(0), p())]), nil());
    assert_eq!(end_scope(&before, 0), configuration(0, vec![nil()]));
}

#[test]
fn reading_2_substitution_rebuilds_at_any_depth() {
    let old = current_handler;
    let cases = [
        (seq(old(), r()), r(), seq(p(), r())),
        (seq(r(), old()), seq(r(), nil()), seq(r(), p())),
        (par(old(), r()), r(), par(p(), r())),
        (par(r(), old()), r(), par(r(), p())),
        (seq(par(old(), old()), r()), r(), seq(par(p(), p()), r())),
        (par(seq(old(), old()), r()), r(), par(seq(p(), p()), r())),
        (
            if_else(variable(1), old(), seq(old(), r())),
            if_else(variable(1), nil(), r()),
            if_else(variable(1), p(), seq(p(), r())),
        ),
        (
            while_true(variable(1), par(old(), r())),
            while_true(variable(1), r()),
            while_true(variable(1), par(p(), r())),
        ),
        (
            choice(vec![(request(1, 2, 3, seq(old(), r())), old()), (one_way(1, 2), old())]),
            choice(vec![(request(1, 2, 3, r()), nil()), (one_way(1, 2), nil())]),
            choice(vec![(request(1, 2, 3, seq(p(), r())), p()), (one_way(1, 2), p())]),
        ),
        (request(1, 2, 3, old()), request(1, 2, 3, nil()), request(1, 2, 3, p())),
        (scope(4, seq(old(), r())), scope(4, r()), scope(4, seq(p(), r()))),
        (old(), nil(), p()),
    ];
    for (new, absent, present) in cases {
        let new = list([(F, new)]);
        assert_eq!(updated(List::new(), new.clone()), list([(F, absent.clone())]));
        assert_eq!(updated(list([(F, nil())]), new.clone()), list([(F, absent)]));
        assert_eq!(updated(list([(F, p())]), new), list([(F, present)]));
    }
}

#[test]
fn reading_2_each_key_uses_its_own_old_entry() {
    let old = list([(F, p()), (Key::Fault(6), r()), (Q, throw(1))]);
    let wrap = || seq(throw(2), current_handler());
    let new = list([(F, wrap()), (Q, wrap()), (Key::Scope(10), wrap())]);
    let expected = list([
        (F, seq(throw(2), p())),
        (Key::Fault(6), r()),
        (Q, seq(throw(2), throw(1))),
        (Key::Scope(10), seq(throw(2), nil())),
    ]);
    assert_eq!(updated(old, new), expected);
}

#[test]
fn reading_2_scope_keys_with_nil_are_dropped_after_substitution() {
    assert_eq!(updated(list([(Q, p())]), list([(Q, nil())])), List::new());
    assert_eq!(updated(List::new(), list([(Q, nil())])), List::new());
    assert_eq!(updated(List::new(), list([(Q, current_handler())])), List::new());
    let both = par(current_handler(), current_handler());
    assert_eq!(updated(List::new(), list([(Q, both)])), List::new());
    assert_eq!(updated(list([(Q, p())]), list([(Q, current_handler())])), list([(Q, p())]));
    // Lists of kinds 10, 12 and 17 may hold scope keys with nil, also nested ones.
    let nested = inst(list([(Q, nil())]));
    assert_eq!(updated(List::new(), list([(F, nested.clone())])), list([(F, nested)]));
}

#[test]
fn reading_2_a_fault_key_with_nil_stays_and_counts_as_present() {
    assert_eq!(updated(list([(F, p())]), list([(F, nil())])), list([(F, nil())]));
    assert_eq!(updated(List::new(), list([(F, current_handler())])), list([(F, nil())]));
    let before = root(list([(F, nil())]), throw(5));
    let caught = scope_with(0, Mark::Fault(5), false, list([(F, nil())]), nil());
    assert_eq!(*process(&run(&before, 13), 0), caught);
}

#[test]
fn comp_runs_and_loses_the_entry() {
    let before = root(list([(Key::Fault(9), r()), (Q, p())]), seq(comp(9), comp(9)));
    let after = run(&before, 14);
    assert_eq!(after, root(list([(Key::Fault(9), r())]), seq(p(), comp(9))));
    let again = run(&run(&after, 1), 14);
    let expected = live(0, list([(Key::Fault(9), r())]), nil());
    assert_eq!(*process(&again, 0), expected);
}

#[test]
fn reading_3_seq_with_nil_second_stays_until_its_first_is_done() {
    let before = root(List::new(), par(seq(p(), nil()), seq(seq(p(), nil()), r())));
    let one = run(&before, 1);
    assert_eq!(*body(&one, 0), seq(seq(p(), nil()), r()));
    let two = run(&one, 1);
    assert_eq!(*body(&two, 0), r());
}

#[test]
fn reading_3_dropping_cascades_upwards() {
    let before = root(List::new(), par(seq(par(seq(p(), nil()), r()), throw(1)), throw(2)));
    let after = run(&before, 1);
    assert_eq!(*body(&after, 0), par(seq(r(), throw(1)), throw(2)));
    let before = root(List::new(), seq(seq(seq(p(), nil()), nil()), nil()));
    assert_eq!(*body(&run(&before, 1), 0), nil());
}

#[test]
fn reading_3_chosen_branches() {
    let branches = || {
        choice(vec![
            (one_way(1, 2), nil()),
            (one_way(1, 3), r()),
            (request(2, 4, 5, p()), nil()),
            (request(2, 6, 7, nil()), r()),
        ])
    };
    let with = |sender: Part| {
        let mut before = configuration(0, vec![scope(0, sender), scope(0, branches())]);
        before.engines[0].values[8] = 1;
        before.engines[0].values[9] = 99;
        before
    };
    let step = |sender: Part, branch: u16| {
        let (_, after) = accept(&with(sender), Numbers::new(0, 3, 1, 3, branch));
        after
    };
    let sent = step(notify(1, 9, 8), 1);
    assert_eq!((body(&sent, 1), sent.engines[1].values[2]), (&nil(), 99));
    let sent = step(notify(1, 9, 8), 2);
    assert_eq!((body(&sent, 1), sent.engines[1].values[3]), (&r(), 99));
    let asks = || solicit(2, 9, 8, 10, list([(Q, nil())]));
    let asked = step(asks(), 3);
    assert_eq!(*body(&asked, 1), seq(executor(2, 5, 0, 1, p()), nil()));
    assert_eq!(asked.engines[1].values[4], 99);
    assert_eq!(*body(&asked, 0), waiter(2, 10, false, 1, 1, list([(Q, nil())])));
    let asked = step(asks(), 4);
    assert_eq!(*body(&asked, 1), seq(executor(2, 7, 0, 1, nil()), r()));
    assert_eq!(asked.issued, 1);
}

#[test]
fn assign_if_and_while_as_usual() {
    let doubled = binary(Operator::Sum, variable(3), variable(3));
    let mut before = root(List::new(), seq(assign(3, doubled), r()));
    before.engines[0].values[3] = 21;
    let after = run(&before, 1);
    assert_eq!((body(&after, 0), after.engines[0].values[3]), (&r(), 42));
    for (value, chosen) in [(0, r()), (1, p()), (0x8000_0000, p()), (u32::MAX, p())] {
        let before = root(List::new(), if_else(constant(value), p(), r()));
        assert_eq!(run(&before, 4), root(List::new(), chosen));
    }
    let loops = while_true(variable(3), seq(p(), nil()));
    let mut before = root(List::new(), seq(loops.clone(), r()));
    assert_eq!(*body(&run(&before, 5), 0), r());
    before.engines[0].values[3] = 7;
    assert_eq!(*body(&run(&before, 5), 0), seq(seq(seq(p(), nil()), loops), r()));
}
