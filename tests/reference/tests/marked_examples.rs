//! The marked examples M1 to M10, each by its name.

mod common;

use common::*;
use reference::build::*;
use reference::expression::Operator;
use reference::process::{Key, List, Mark, Part};

const F: u8 = 5;
const Q: u8 = 9;

/// P, P', B and R of the examples: any processes that can be told apart.
fn p() -> Part {
    assign(1, constant(1))
}

fn p_new() -> Part {
    assign(2, constant(2))
}

fn fault_list(process: Part) -> List {
    list([(Key::Fault(F), process)])
}

/// One engine whose root scope has the list and the body.
fn root(list: List, body: Part) -> reference::configuration::Configuration {
    configuration(0, vec![scope_with(0, Mark::None, false, list, body)])
}

#[test]
fn m1_handler_present_replaces_current_handler() {
    let before = root(fault_list(p()), inst(fault_list(seq(p_new(), current_handler()))));
    let after = run(&before, 12);
    assert_eq!(after, root(fault_list(seq(p_new(), p())), nil()));
}

#[test]
fn m2_handler_absent_gives_nil() {
    let before = root(List::new(), inst(fault_list(seq(p_new(), current_handler()))));
    let after = run(&before, 12);
    assert_eq!(after, root(fault_list(seq(p_new(), nil())), nil()));
}

#[test]
fn m3_nested_list_keeps_its_current_handler() {
    let nested = inst(list([(Key::Scope(Q), seq(current_handler(), throw(1)))]));
    let new = seq(p_new(), nested);
    let before = root(fault_list(p()), inst(fault_list(new.clone())));
    let after = run(&before, 12);
    assert_eq!(after, root(fault_list(new), nil()));
}

#[test]
fn m4_throw_beside_inst_is_refused() {
    let install = inst(fault_list(p()));
    assert_eq!(run_refused(&root(List::new(), par(throw(F), install.clone())), 13), 6);
    assert_eq!(run_refused(&root(List::new(), par(install, throw(F))), 13), 6);
}

#[test]
fn m5_throw_beside_live_scope_with_nil_body_is_refused() {
    let ending = scope(Q, nil());
    assert_eq!(run_refused(&root(List::new(), par(throw(F), ending.clone())), 13), 6);
    assert_eq!(run_refused(&root(List::new(), par(ending, throw(F))), 13), 6);
}

#[test]
fn m6_killed_executor_with_nil_body_leaves_its_notice_alone() {
    let working = executor(3, 4, 1, 1, nil());
    let mut before = root(List::new(), par(throw(F), working));
    before.issued = 1;
    before.engines.push(before.engines[0].clone());
    before.engines[1].process = nil();
    let after = run(&before, 13);
    let zombie = scope_with(0, Mark::None, true, List::new(), notice(3, F, 1, 1));
    assert_eq!(*process(&after, 0), zombie);
}

/// Engine 0 waits for serial 1 beside a throw; engine 1 has the working end given.
fn waiting(working: Part) -> reference::configuration::Configuration {
    let waits = waiter(3, 6, false, 1, 1, fault_list(p()));
    let processes = vec![scope(0, par(throw(F), waits)), scope(0, working)];
    configuration(1, processes)
}

#[test]
fn m7_killed_waiter_then_fault_is_nil() {
    let killed = run(&waiting(notice(3, 2, 0, 1)), 13);
    assert_eq!(*body(&killed, 0), waiter(3, 6, true, 1, 1, fault_list(p())));
    let (answer, after) = accept(&killed, between(&killed, (1, 18), (0, 17)));
    assert_eq!(*body(&after, 0), nil());
    assert_eq!(*body(&after, 1), nil());
    assert_eq!((answer.kind, answer.serial, answer.fault), (18, 1, 1));
}

#[test]
fn m8_killed_waiter_then_reply_is_inst() {
    let mut before = waiting(executor(3, 7, 0, 1, nil()));
    before.engines[1].values[7] = 77;
    let killed = run(&before, 13);
    let (answer, after) = accept(&killed, between(&killed, (1, 16), (0, 17)));
    assert_eq!(*body(&after, 0), inst(fault_list(p())));
    assert_eq!(after.engines[0].values[6], 77);
    assert_eq!((answer.kind, answer.serial, answer.fault), (16, 1, 0));
}

#[test]
fn m9_comp_of_an_absent_name_is_nil() {
    let before = root(fault_list(p()), comp(Q));
    assert_eq!(run(&before, 14), root(fault_list(p()), nil()));
}

#[test]
fn m10_sums_count_round_and_less_has_a_sign() {
    let cases = [
        (Operator::Sum, u32::MAX, 1, 0),
        (Operator::Less, 0, u32::MAX, 0),
        (Operator::Less, u32::MAX, 0, 1),
        (Operator::Less, 0x8000_0000, 0x7fff_ffff, 1),
        (Operator::Less, 0x7fff_ffff, 0x8000_0000, 0),
        (Operator::Difference, 0, 1, u32::MAX),
        (Operator::Equal, 7, 7, 1),
        (Operator::Equal, 7, 8, 0),
    ];
    for (operator, left, right, result) in cases {
        let expression = binary(operator, constant(left), variable(3));
        let mut before = root(List::new(), assign(1, expression));
        before.engines[0].values[1] = 9;
        before.engines[0].values[3] = right;
        assert_eq!(run(&before, 1).engines[0].values[1], result, "{operator:?}");
    }
}
