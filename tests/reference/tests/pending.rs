//! The look before a throw (document 02, b): what counts as an enabled process of a side and what as
//! pending, and that killing and the climb are refused exactly where the look finds something.

use reference::build::*;
use reference::context::{enabled, locate, Frame};
use reference::fault::{climb, kill};
use reference::generate::run::{Run, ORIGINS};
use reference::pending::{search, Search};
use reference::process::{Key, List, Mark, Part, Process};
use reference::{pending_at, step, write, Pending, STANDARD};

fn p() -> Part {
    one_way(1, 1)
}

fn zombie(body: Part) -> Part {
    scope_with(3, Mark::None, true, List::new(), body)
}

fn seen(side: &Part, found: bool, count: usize) {
    assert_eq!(search(side), Search { found, count }, "{side:?}");
}

#[test]
fn heads_of_nil_par_and_seq_count() {
    seen(&nil(), false, 1);
    seen(&par(p(), p()), false, 3);
    seen(&seq(p(), p()), false, 2);
    seen(&seq(seq(p(), p()), inst(List::new())), false, 3);
    seen(&executor(1, 1, 0, 1, nil()), false, 2);
    seen(&waiter(1, 1, true, 0, 1, list([(Key::Fault(1), inst(List::new()))])), false, 1);
    seen(&if_else(constant(1), inst(List::new()), nil()), false, 1);
}

#[test]
fn the_search_ends_at_the_first() {
    seen(&inst(List::new()), true, 1);
    seen(&par(inst(List::new()), inst(List::new())), true, 2);
    seen(&par(p(), inst(List::new())), true, 3);
    seen(&par(par(p(), inst(List::new())), p()), true, 4);
    seen(&par(seq(p(), inst(List::new())), seq(inst(List::new()), p())), true, 5);
}

#[test]
fn a_live_scope_with_nil_body_is_one_and_its_nil_is_not_counted() {
    seen(&scope(1, nil()), true, 1);
    seen(&scope(1, scope(2, nil())), true, 2);
    seen(&scope_with(1, Mark::Fault(2), false, list([(Key::Fault(2), p())]), nil()), true, 1);
    seen(&scope(1, p()), false, 2);
}

#[test]
fn a_zombies_body_is_searched() {
    seen(&zombie(nil()), false, 2);
    seen(&zombie(inst(List::new())), true, 2);
    seen(&zombie(scope(1, nil())), true, 2);
}

#[test]
fn the_call_refuses_1_then_2() {
    let words = write::configuration(&configuration(0, vec![scope(1, par(p(), scope(2, nil())))]));
    let refused = |number| Pending { number, found: false, count: 0 };
    assert_eq!(pending_at(&STANDARD, &words[1..], 9, 9), refused(1));
    assert_eq!(pending_at(&STANDARD, &words, 1, 0), refused(2));
    assert_eq!(pending_at(&STANDARD, &words, 0, 1), refused(2));
    assert_eq!(pending_at(&STANDARD, &words, 0, 0), Pending { number: 0, found: true, count: 4 });
    assert_eq!(pending_at(&STANDARD, &words, 0, 4), Pending { number: 0, found: false, count: 1 });
}

/// Whether a side that the fault meets before it stops has a pending process.
fn meets(frames: &[Frame], fault: u8) -> bool {
    for frame in frames.iter().rev() {
        match frame {
            Frame::ParLeft(side) | Frame::ParRight(side) if search(side).found => return true,
            Frame::ScopeBody(scope)
                if scope.zombie || scope.list.contains_key(&Key::Fault(fault)) =>
            {
                return false
            }
            _ => {}
        }
    }
    false
}

#[test]
fn killing_and_the_climb_are_refused_exactly_where_something_is_found() {
    let (mut killed, mut refused, mut climbs) = (0, 0, [0, 0]);
    for seed in 0..400 {
        let mut run = Run::new(seed, ORIGINS[seed as usize % ORIGINS.len()]);
        for _ in 0..12 {
            let configuration = run.configuration().expect("what a step wrote is readable");
            for engine in &configuration.engines {
                for (position, process) in enabled(&engine.process) {
                    let found = search(&process).found;
                    assert_eq!(kill(&process, 3).is_none(), found, "{process:?}");
                    if found {
                        refused += 1
                    } else {
                        killed += 1
                    }
                    let frames = locate(&engine.process, position).expect("it is enabled").frames;
                    let met = meets(&frames, 3);
                    assert_eq!(climb(frames, 3).is_none(), met);
                    climbs[usize::from(met)] += 1;
                    if matches!(&*process, Process::Nil) {
                        assert!(!found);
                    }
                }
            }
            let Some(call) = run.call() else { break };
            let mut output = vec![0; call.room];
            let answer = step(&STANDARD, &run.words, call.numbers, &mut output);
            run.take(&answer, &output);
        }
    }
    assert!(killed > 1_000 && refused > 1_000 && climbs[0] > 1_000 && climbs[1] > 1_000);
}
