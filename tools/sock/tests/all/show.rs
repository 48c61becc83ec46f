//! What is shown, held to the archive: what is marked as enabled is what a step can name, and the ends of a serial are as many as the call
//! ends counts.

use reference::generate::run::{Run, ORIGINS};
use sock::library::{self, Move};
use sock::moves::able;
use sock::names::Names;
use sock::show::{rows, serials};
use sock::state::State;
use std::collections::BTreeSet;

fn states() -> impl Iterator<Item = (u64, State)> {
    (0..400).map(|seed| {
        let run = Run::new(seed, ORIGINS[seed as usize % ORIGINS.len()]);
        (seed, State::of(&run.words).unwrap())
    })
}

/// Of a process that is not enabled, or that none begins at a position, the step answers 2, and of no other.
#[test]
fn enabled_is_what_a_step_can_name() {
    let (mut enabled, mut other) = (0, 0);
    for (seed, state) in states() {
        for engine in 0..state.tree.engines.len() {
            let rows = rows(&Names::default(), &state, engine, &able(&state));
            let marked: BTreeSet<usize> =
                rows.iter().filter(|row| row.enabled).map(|row| row.position).collect();
            for position in 0..=library::process(&state.words, engine as u16).len() {
                let step = Move::alone(engine as u16, position as u16);
                let (answer, _) = library::step(&state.words, step);
                let named = answer.number != 2;
                assert_eq!(marked.contains(&position), named, "seed {seed}: {engine} {position}");
                enabled += usize::from(named);
                other += usize::from(!named);
            }
        }
    }
    assert!(enabled > 2000 && other > 20_000, "{enabled} enabled, {other} others");
}

#[test]
fn serials_have_the_ends_that_are_counted() {
    let mut seen = 0;
    for (seed, state) in states() {
        let open = serials(&state);
        let issued = state.tree.issued;
        for serial in (1..=issued.min(200)).chain(open.keys().copied()) {
            let ends = open.get(&serial).map_or(&[][..], |ends| ends);
            let waiting = ends.iter().filter(|(_, _, what)| what.ends_with("waiter")).count();
            let counted = library::ends(&state.words, serial).unwrap();
            let found = (waiting as u16, (ends.len() - waiting) as u16);
            assert_eq!(found, counted, "seed {seed}, serial {serial}");
            seen += ends.len();
        }
    }
    assert!(seen > 200, "{seen} ends");
}
