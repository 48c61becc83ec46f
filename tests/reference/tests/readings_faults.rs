//! Readings 4 to 6: the climb of a throw, killing, and marks.

mod common;

use common::*;
use reference::build::*;
use reference::configuration::Configuration;
use reference::process::{Key, List, Mark, Part};

const F: u8 = 5;
const Q: u8 = 9;

fn p() -> Part {
    assign(1, constant(1))
}

fn handles(process: Part) -> List {
    list([(Key::Fault(F), process)])
}

fn waits(dead: bool) -> Part {
    waiter(1, 2, dead, 0, 1, List::new())
}

fn note() -> Part {
    notice(3, 44, 0, 2)
}

/// One engine with the root scope given, two serials issued.
fn with_root(root: Part) -> Configuration {
    configuration(2, vec![root])
}

/// The root after the throw in it.
fn thrown(root: Part) -> Part {
    process(&run(&with_root(root), 13), 0).clone()
}

/// A root that handles F around the body.
fn handling(body: Part) -> Part {
    scope_with(0, Mark::None, false, handles(p()), body)
}

/// What the root that handles F becomes, with what is left of its body.
fn caught(body: Part) -> Part {
    scope_with(0, Mark::Fault(F), false, handles(p()), body)
}

/// The root after the last throw in it, in word order.
fn thrown_last(root: Part) -> Part {
    let before = with_root(root);
    let enabled = reference::context::enabled(process(&before, 0));
    let mut throws = enabled.iter().filter(|(_, process)| process.kind() == 13);
    let position = throws.next_back().expect("a throw").0 as u16;
    process(&accept(&before, alone(0, position)).1, 0).clone()
}

/// What a kill with F leaves of a process, on either side of a throw.
fn killed(process: Part) -> Part {
    let left = thrown(handling(par(throw(F), process.clone())));
    let right = thrown_last(handling(par(process, throw(F))));
    assert_eq!(left, right);
    let reference::process::Process::Scope(_, body) = &*left else { panic!() };
    assert_eq!(left, caught(body.clone()));
    body.clone()
}

fn can_not_be_killed(process: Part) -> bool {
    let before = with_root(handling(par(throw(F), process)));
    let throws = alone(0, position(&before, 0, 13));
    let mut output = vec![FILL; 8192];
    let answer = reference::step(&reference::STANDARD, &words(&before), throws, &mut output);
    assert!(matches!(answer.number, 0 | 6));
    answer.number == 6
}

#[test]
fn reading_4_a_handler_catches_on_zombies_and_over_older_marks() {
    let both = || list([(Key::Fault(F), p()), (Key::Fault(6), p())]);
    for zombie in [false, true] {
        for mark in [Mark::None, Mark::Fault(6), Mark::Fault(F), Mark::OwnName] {
            if mark == Mark::OwnName && !zombie {
                continue;
            }
            let before = scope_with(Q, mark, zombie, both(), throw(F));
            let after = scope_with(Q, Mark::Fault(F), zombie, both(), nil());
            assert_eq!(thrown(before), after);
        }
    }
}

#[test]
fn reading_4_a_rethrowing_scope_loses_a_pending_mark() {
    let other = || list([(Key::Fault(6), p())]);
    let inner = scope_with(Q, Mark::Fault(6), false, other(), par(throw(F), waits(false)));
    let after = scope_with(Q, Mark::None, true, other(), waits(true));
    assert_eq!(thrown(handling(inner)), caught(after));
}

#[test]
fn reading_4_a_zombie_stops_the_throw_unchanged_but_for_its_body() {
    let other = || list([(Key::Fault(6), p()), (Key::Scope(Q), p())]);
    for mark in [Mark::None, Mark::Fault(6), Mark::OwnName] {
        let inner = |body: Part| scope_with(Q, mark, true, other(), body);
        let before = handling(par(inner(seq(par(throw(F), waits(false)), p())), p()));
        // Nothing above the zombie changes: the root handles F but never meets it.
        assert_eq!(thrown(before), handling(par(inner(waits(true)), p())));
    }
}

#[test]
fn reading_4_only_sides_met_before_the_stop_count() {
    let inner = scope_with(Q, Mark::None, false, handles(p()), throw(F));
    let install = inst(List::new());
    let before = scope(0, par(inner, install.clone()));
    let inner = scope_with(Q, Mark::Fault(F), false, handles(p()), nil());
    assert_eq!(thrown(before), scope(0, par(inner, install.clone())));
    let passes = scope(Q, throw(F));
    assert_eq!(run_refused(&with_root(handling(par(passes, install.clone()))), 13), 6);
    let stops = scope_with(Q, Mark::None, true, List::new(), throw(F));
    let stopped = scope_with(Q, Mark::None, true, List::new(), nil());
    assert_eq!(thrown(handling(par(install.clone(), stops))), handling(par(install, stopped)));
}

#[test]
fn the_climb_drops_seconds_and_ends_at_the_root() {
    let before = scope(0, seq(scope(Q, seq(throw(F), p())), p()));
    let inner = scope_with(Q, Mark::None, true, List::new(), nil());
    assert_eq!(thrown(before), scope_with(0, Mark::None, true, List::new(), inner));
}

#[test]
fn the_climb_through_an_executor_leaves_body_and_notice() {
    let works = |body: Part| executor(1, 2, 0, 1, body);
    let told = || notice(1, F, 0, 1);
    assert_eq!(thrown(handling(seq(works(throw(F)), p()))), caught(told()));
    let before = handling(seq(works(seq(par(throw(F), waits(false)), p())), p()));
    assert_eq!(thrown(before), caught(par(waits(true), told())));
    // Two executors: the inner notice is part of the outer one's body.
    let inner = executor(4, 5, 0, 2, throw(F));
    let both = par(notice(4, F, 0, 2), told());
    assert_eq!(thrown(handling(works(inner))), caught(both));
    // Caught inside: the executor stays.
    let inner = scope_with(Q, Mark::None, false, handles(p()), throw(F));
    let after = scope_with(Q, Mark::Fault(F), false, handles(p()), nil());
    assert_eq!(thrown(handling(works(inner))), handling(works(after)));
}

#[test]
fn sides_never_swap() {
    let before = handling(par(par(waits(false), note()), par(throw(F), waits(true))));
    assert_eq!(thrown(before), caught(par(par(waits(true), note()), waits(true))));
    let before = handling(par(par(waits(false), throw(F)), note()));
    assert_eq!(thrown(before), caught(par(waits(true), note())));
    let before = handling(par(note(), par(throw(F), waits(false))));
    assert_eq!(thrown(before), caught(par(note(), waits(true))));
}

#[test]
fn reading_5_what_becomes_nil() {
    let gone = [
        p(),
        if_else(constant(1), p(), p()),
        while_true(constant(1), p()),
        choice(vec![(one_way(1, 1), p())]),
        one_way(1, 1),
        request(1, 1, 1, p()),
        notify(1, 1, 1),
        solicit(1, 1, 1, 1, List::new()),
        throw(F),
        throw(6),
        comp(1),
        par(p(), throw(F)),
        seq(p(), inst(List::new())),
        seq(par(comp(1), p()), nil()),
    ];
    for process in gone {
        assert_eq!(killed(process), nil());
    }
}

#[test]
fn reading_5_what_stays() {
    assert_eq!(killed(waits(false)), waits(true));
    assert_eq!(killed(waits(true)), waits(true));
    assert_eq!(killed(note()), note());
    assert_eq!(killed(seq(waits(false), p())), waits(true));
    assert_eq!(killed(par(waits(false), p())), waits(true));
    assert_eq!(killed(par(p(), note())), note());
    assert_eq!(killed(par(waits(false), note())), par(waits(true), note()));
}

#[test]
fn reading_5_killed_executors() {
    let works = |body: Part| executor(1, 2, 0, 1, body);
    let told = || notice(1, F, 0, 1);
    assert_eq!(killed(works(nil())), told());
    assert_eq!(killed(works(p())), told());
    assert_eq!(killed(works(waits(false))), par(waits(true), told()));
    assert_eq!(killed(seq(works(note()), p())), par(note(), told()));
    let nested = works(executor(4, 5, 0, 2, p()));
    assert_eq!(killed(nested), par(notice(4, F, 0, 2), told()));
}

#[test]
fn reading_5_killed_live_scopes() {
    let entries = || list([(Key::Fault(6), p()), (Key::Scope(Q), p())]);
    for mark in [Mark::None, Mark::Fault(6)] {
        let live = |body: Part| scope_with(Q, mark, false, entries(), body);
        let dead = |body: Part| scope_with(Q, Mark::OwnName, true, entries(), body);
        assert_eq!(killed(live(p())), dead(nil()));
        assert_eq!(killed(live(waits(false))), dead(waits(true)));
        assert_eq!(
            killed(live(scope(3, p()))),
            dead(scope_with(3, Mark::OwnName, true, List::new(), nil(),))
        );
        assert!(can_not_be_killed(live(nil())));
        assert!(can_not_be_killed(live(par(p(), inst(List::new())))));
    }
    // Its own handler for the fault plays no part in a kill.
    let own = scope_with(Q, Mark::None, false, handles(p()), comp(1));
    assert_eq!(killed(own), scope_with(Q, Mark::OwnName, true, handles(p()), nil()));
}

#[test]
fn reading_5_a_zombie_stays_whole_if_its_body_can_be_killed() {
    let entries = || list([(Key::Fault(6), p())]);
    for mark in [Mark::None, Mark::Fault(6), Mark::OwnName] {
        let zombie = |body: Part| scope_with(Q, mark, true, entries(), body);
        let whole = [nil(), p(), par(waits(false), note()), seq(scope(3, p()), p())];
        for body in whole {
            assert_eq!(killed(zombie(body.clone())), zombie(body));
        }
        assert!(can_not_be_killed(zombie(inst(List::new()))));
        assert!(can_not_be_killed(zombie(seq(scope(3, nil()), p()))));
        let inner = scope_with(3, Mark::None, true, List::new(), nil());
        assert_eq!(killed(zombie(inner.clone())), zombie(inner));
    }
}

#[test]
fn reading_5_what_holds_a_pending_one_enabled_can_not_be_killed() {
    let pending = [inst(List::new()), inst(handles(p())), scope(3, nil())];
    for inner in pending {
        let held = [
            inner.clone(),
            seq(inner.clone(), p()),
            par(p(), inner.clone()),
            par(inner.clone(), p()),
            executor(1, 2, 0, 1, inner.clone()),
            scope(4, seq(inner.clone(), p())),
            scope_with(4, Mark::None, true, List::new(), executor(1, 2, 0, 1, inner.clone())),
        ];
        for process in held {
            assert!(can_not_be_killed(process));
        }
        let not_enabled = [
            seq(p(), inner.clone()),
            if_else(constant(1), inner.clone(), inner.clone()),
            while_true(constant(1), inner.clone()),
            choice(vec![(request(1, 1, 1, inner.clone()), inner.clone())]),
            solicit(1, 1, 1, 1, list([(Key::Scope(1), inner.clone())])),
            waiter(1, 2, false, 0, 1, list([(Key::Scope(1), inner.clone())])),
            scope_with(Q, Mark::None, false, list([(Key::Scope(Q), inner.clone())]), p()),
        ];
        for process in not_enabled {
            assert!(!can_not_be_killed(process));
        }
    }
}

/// The root scope after its own step.
fn stepped(root: Part) -> Part {
    process(&accept(&with_root(root), alone(0, 0)).1, 0).clone()
}

#[test]
fn reading_6_marks_run_their_entries_and_are_cleared() {
    let all = |process: Part| list([(Key::Fault(F), process), (Key::Scope(Q), comp(2))]);
    for zombie in [false, true] {
        let before = scope_with(Q, Mark::Fault(F), zombie, all(p()), nil());
        let rest = list([(Key::Scope(Q), comp(2))]);
        assert_eq!(stepped(before), scope_with(Q, Mark::None, zombie, rest.clone(), p()));
        // H(f) nil: a step to a nil body, and a further one ends the scope.
        let before = scope_with(Q, Mark::Fault(F), zombie, all(nil()), nil());
        let after = stepped(before);
        assert_eq!(after, scope_with(Q, Mark::None, zombie, rest, nil()));
        assert_eq!(stepped(after), nil());
    }
    let before = scope_with(Q, Mark::OwnName, true, all(p()), nil());
    assert_eq!(stepped(before), scope_with(Q, Mark::None, true, handles(p()), comp(2)));
    let before = scope_with(Q, Mark::OwnName, true, handles(p()), nil());
    let after = stepped(before);
    assert_eq!(after, scope_with(Q, Mark::None, true, handles(p()), nil()));
    assert_eq!(stepped(after), nil());
}

#[test]
fn reading_6_a_zombie_ends_without_promotion() {
    let own = list([(Key::Scope(Q), p())]);
    let outer = list([(Key::Scope(Q), comp(2))]);
    let zombie = scope_with(Q, Mark::None, true, own, nil());
    let before = with_root(scope_with(0, Mark::None, false, outer.clone(), zombie));
    let (_, after) = accept(&before, alone(0, nth(&before, 0, 11, 1)));
    assert_eq!(*process(&after, 0), scope_with(0, Mark::None, false, outer, nil()));
}
