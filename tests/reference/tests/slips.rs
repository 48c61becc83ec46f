//! The five slips seen in such engines, each shown not to happen here.

mod common;

use common::*;
use reference::build::*;
use reference::process::{Key, List, Mark, Part};

const F: u8 = 3;
const Q: u8 = 7;

fn p() -> Part {
    assign(1, constant(1))
}

#[test]
fn current_handler_stays_in_nested_lists() {
    let key = Key::Fault(F);
    let nested = [
        inst(list([(key, seq(current_handler(), throw(1)))])),
        solicit(1, 2, 3, 4, list([(key, current_handler())])),
        scope(Q, inst(list([(Key::Scope(Q), par(current_handler(), throw(1)))]))),
        if_else(constant(1), inst(list([(key, current_handler())])), nil()),
    ];
    for inner in nested {
        let new = seq(current_handler(), inner.clone());
        let old = list([(key, p())]);
        let root = scope_with(0, Mark::None, false, old, inst(list([(key, new)])));
        let after = run(&configuration(0, vec![root]), 12);
        let expected = list([(key, seq(p(), inner))]);
        let expected = scope_with(0, Mark::None, false, expected, nil());
        assert_eq!(*process(&after, 0), expected);
    }
}

#[test]
fn a_killed_waiter_stays() {
    let entries = list([(Key::Scope(Q), p())]);
    let waits = |dead: bool| waiter(1, 2, dead, 0, 1, entries.clone());
    for dead in [false, true] {
        let before = configuration(1, vec![scope(0, par(waits(dead), throw(F)))]);
        let after = run(&before, 13);
        let expected = scope_with(0, Mark::None, true, List::new(), waits(true));
        assert_eq!(*process(&after, 0), expected);
    }
}

#[test]
fn a_reply_to_a_dead_waiter_still_installs() {
    let entries = list([(Key::Scope(Q), seq(p(), current_handler()))]);
    let waits = waiter(1, 2, true, 1, 1, entries.clone());
    let zombie = scope_with(0, Mark::OwnName, true, List::new(), waits);
    let before = configuration(1, vec![zombie, scope(0, executor(1, 4, 0, 1, nil()))]);
    let (_, replied) = accept(&before, between(&before, (1, 16), (0, 17)));
    assert_eq!(*body(&replied, 0), inst(entries));
    let installed = run(&replied, 12);
    let expected = list([(Key::Scope(Q), seq(p(), nil()))]);
    assert_eq!(*process(&installed, 0), scope_with(0, Mark::OwnName, true, expected, nil()));
}

#[test]
fn a_scope_that_handles_its_own_fault_is_still_promoted() {
    let own = (Key::Scope(Q), p());
    let handler = assign(2, constant(5));
    let both = || list([(Key::Fault(F), handler.clone()), own.clone()]);
    let only_own = || list([own.clone()]);
    let inner = scope_with(Q, Mark::None, false, both(), throw(F));
    let before = configuration(0, vec![scope(0, inner)]);

    let caught = run(&before, 13);
    assert_eq!(*body(&caught, 0), scope_with(Q, Mark::Fault(F), false, both(), nil()));
    let (_, handling) = accept(&caught, alone(0, nth(&caught, 0, 11, 1)));
    let running = scope_with(Q, Mark::None, false, only_own(), handler.clone());
    assert_eq!(*body(&handling, 0), running);
    let handled = run(&handling, 1);
    let (_, ended) = accept(&handled, alone(0, nth(&handled, 0, 11, 1)));
    let promoted = scope_with(0, Mark::None, false, only_own(), nil());
    assert_eq!(*process(&ended, 0), promoted);
}

#[test]
fn a_rethrowing_scope_does_not_run_its_termination_entry() {
    let own = list([(Key::Scope(Q), p())]);
    let inner = scope_with(Q, Mark::None, false, own.clone(), throw(F));
    let outer = list([(Key::Fault(F), nil())]);
    let before = scope_with(0, Mark::None, false, outer.clone(), inner);
    let thrown = run(&configuration(0, vec![before]), 13);
    let inner = scope_with(Q, Mark::None, true, own, nil());
    let expected = scope_with(0, Mark::Fault(F), false, outer.clone(), inner);
    assert_eq!(*process(&thrown, 0), expected);
    // The zombie ends at its next step: nothing runs, nothing is promoted.
    let (_, ended) = accept(&thrown, alone(0, nth(&thrown, 0, 11, 1)));
    assert_eq!(*process(&ended, 0), scope_with(0, Mark::Fault(F), false, outer, nil()));
}
