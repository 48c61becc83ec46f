//! The moves there are: exactly the steps that are accepted when everything is tried, and few tries for them.

use reference::generate::run::{Run, ORIGINS};
use sock::library::{self, Move};
use sock::moves::{able, moves};
use sock::state::State;
use sock::tree::places;
use std::time::{Duration, Instant};

/// Every accepted step among these first places, second places and branches 0 to 9.
fn tried(state: &State, firsts: &[(u16, u16)], seconds: &[(u16, u16)]) -> Vec<Move> {
    let mut accepted = Vec::new();
    for &(engine, position) in firsts {
        for &(second, second_position) in seconds {
            for branch in 0..=9 {
                let step = Move { engine, position, second, second_position, branch };
                if library::step(&state.words, step).0.number == 0 {
                    accepted.push(step);
                }
            }
        }
    }
    accepted.sort();
    accepted.dedup();
    accepted
}

fn sorted(state: &State) -> Vec<Move> {
    let found = moves(state, usize::MAX);
    assert!(!found.more() && found.tried >= found.moves.len());
    let mut moves = found.moves;
    moves.sort();
    moves
}

/// All enabled places of a state, and 0 0, which a step that moves alone has for its second.
fn enabled(state: &State) -> Vec<(u16, u16)> {
    let mut all = vec![(0, 0)];
    for (index, engine) in state.tree.engines.iter().enumerate() {
        let here = places(&engine.process).into_iter().filter(|place| place.enabled);
        all.extend(here.map(|place| (index as u16, place.position as u16)));
    }
    all
}

#[test]
fn as_many_as_by_trying_all_that_is_enabled() {
    let (mut seen, mut met) = (0, 0);
    for seed in 0..200 {
        let run = Run::new(seed, ORIGINS[seed as usize % ORIGINS.len()]);
        let mut state = State::of(&run.words).unwrap();
        for turn in 0..8 {
            let places = enabled(&state);
            if places.len() > 25 {
                break;
            }
            let expected = tried(&state, &places, &places);
            assert_eq!(sorted(&state), expected, "seed {seed}, turn {turn}");
            seen += expected.len();
            met += expected.iter().filter(|step| !step.is_alone()).count();
            let Some(step) = expected.get((seed + turn) as usize % expected.len().max(1)) else {
                break;
            };
            state = state.take(*step).1.unwrap();
        }
    }
    assert!(seen > 500 && met > 40, "{seen} moves, {met} between two");
}

/// Every position, enabled or not, of engines small enough.
#[test]
fn as_many_as_by_trying_every_position() {
    let mut seen = 0;
    for (name, content) in [
        ("bridge", include_str!("../../../../examples/bridge.sock")),
        ("choice", include_str!("../../../../examples/choice.sock")),
    ] {
        let loaded = sock::files::load(&format!("{name}.sock"), content.as_bytes()).unwrap();
        let mut state = loaded.start.unwrap();
        for step in loaded.input.steps {
            let all: Vec<(u16, u16)> =
                (0..3).flat_map(|engine| (0..22).map(move |position| (engine, position))).collect();
            let expected = tried(&state, &all, &all);
            assert_eq!(sorted(&state), expected, "{name}");
            seen += expected.len();
            state = state.take(step).1.unwrap_or(state);
        }
    }
    assert!(seen > 15, "{seen}");
}

/// The worst case: many senders beside many receivers, of which few fit. Tries are bounded by what fits, and by --most.
#[test]
fn few_tries() {
    let senders = |operation: usize| format!("notify {operation} ($2) to $1 ");
    let receivers = |operation: usize| format!("one-way {operation} ($2) ");
    let side = |item: &dyn Fn(usize) -> String| {
        let each: Vec<String> = (0..60).map(item).collect();
        each.join("| ")
    };
    let text = format!(
        "engine {{ var $1 = 1 scope 1 {{ {} }} }} engine {{ scope 1 {{ {} }} }}",
        side(&senders),
        side(&receivers)
    );
    let state = sock::files::load("a.sock", text.as_bytes()).unwrap().start.unwrap();
    let found = moves(&state, usize::MAX);
    assert_eq!((found.moves.len(), found.tried), (60, 60));
    let found = moves(&state, 10);
    assert_eq!((found.moves.len(), found.tried, found.more()), (10, 10, true));
    let note = "there may be more: 10 of 60 that can fit were tried";
    assert_eq!(found.note().as_deref(), Some(note));
}

/// Processes beside each other in as few levels as there can be.
fn beside(items: &[String]) -> String {
    match items {
        [one] => one.clone(),
        _ => {
            let (left, right) = items.split_at(items.len() / 2);
            format!("{{ {} | {} }}", beside(left), beside(right))
        }
    }
}

/// The most that can fit: as many senders and receivers of one operation as a configuration holds, and all that they do is refused, since all
/// serials are spent.
#[test]
fn the_worst_case_is_bounded() {
    let side = |item: &str| beside(&vec![item.to_string(); 500]);
    let text = format!(
        "issued 65535 engine {{ var $1 = 1 scope 1 {{ {} }} }} engine {{ scope 1 {{ {} }} }}",
        side("solicit 1 ($2) to $1 reply ($3)"),
        side("request 1 ($2) reply ($3)")
    );
    let state = sock::files::load("a.sock", text.as_bytes()).unwrap().start.unwrap();
    assert!(state.words.len() > 6000);
    let began = Instant::now();
    let found = moves(&state, 1000);
    assert_eq!((found.moves.len(), found.tried, found.fitting), (0, 20_000, 250_000));
    assert!(able(&state).is_empty());
    assert!(began.elapsed() < Duration::from_secs(30), "{:?}", began.elapsed());
}

/// What is marked as able to move is what some accepted step begins with.
#[test]
fn able_is_what_moves() {
    let mut seen = 0;
    for seed in 0..300 {
        let run = Run::new(seed, ORIGINS[seed as usize % ORIGINS.len()]);
        let state = State::of(&run.words).unwrap();
        let firsts = sorted(&state).iter().map(|step| (step.engine, step.position)).collect();
        assert_eq!(able(&state), firsts, "seed {seed}");
        seen += firsts.len();
    }
    assert!(seen > 300, "{seen}");
}
