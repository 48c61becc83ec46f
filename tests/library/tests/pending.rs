//! The look before a throw: sides of thousands of enabled processes whose pending one stands first, in
//! the middle, last or nowhere, searched by the call and thrown past by the step. 6 is answered exactly
//! where the search finds something.

use library::cabinet::{Cabinet, CABINETS};
use library::compare::Comparison;
use library::counts::Wanted;
use library::guard::{Edge, Guarded};
use library::input::{Input, Source};
use library::memory::{Memory, Plain};
use library::outputs::Output;
use reference::build;
use reference::bytes::from_words;
use reference::configuration::Configuration;
use reference::measure::size;
use reference::process::{Key, List, Mark, Part};
use reference::{write, Numbers};

/// A balanced par of the processes; there has to be one.
fn balanced(processes: &[Part]) -> Part {
    match processes {
        [one] => one.clone(),
        _ => {
            let (left, right) = processes.split_at(processes.len() / 2);
            build::par(balanced(left), balanced(right))
        }
    }
}

fn idle() -> Part {
    build::one_way(63, 31)
}

fn zombie(body: Part) -> Part {
    build::scope_with(3, Mark::OwnName, true, List::new(), body)
}

/// What a side is made of, with a name.
const LEAVES: [(&str, fn() -> Part); 6] = [
    ("leaves", idle),
    ("scopes", || build::scope(3, idle())),
    ("zombies", || zombie(build::nil())),
    ("executors", || build::executor(2, 2, 1, 1, build::nil())),
    ("waiters", || build::waiter(2, 2, true, 1, 1, List::new())),
    // The second of a seq is not enabled, whatever it holds.
    ("seqs", || build::seq(idle(), build::inst(List::new()))),
];

/// What can't be killed, and what only looks like it.
const PENDING: [(&str, fn() -> Part, bool); 8] = [
    ("an inst", || build::inst(List::new()), true),
    ("a live scope with nil body", || build::scope(3, build::nil()), true),
    (
        "a marked live scope with nil body",
        || {
            let handler = build::list([(Key::Fault(5), idle())]);
            build::scope_with(3, Mark::Fault(5), false, handler, build::nil())
        },
        true,
    ),
    ("an inst in a zombie", || zombie(build::inst(List::new())), true),
    ("an inst before a seq's second", || build::seq(build::inst(List::new()), idle()), true),
    ("an inst in an executor", || build::executor(2, 2, 1, 1, build::inst(List::new())), true),
    ("a zombie with nil body", || zombie(build::nil()), false),
    ("an inst behind a seq's first", || build::seq(idle(), build::inst(List::new())), false),
];

/// A side of about so many words, with the process at a place among its leaves: 0 first, 1 in the
/// middle, 2 last.
fn side(leaf: fn() -> Part, process: Part, place: usize, words: usize) -> Part {
    let count = (words.saturating_sub(size(&process)) / (size(&leaf()) + 1)).max(2);
    let mut all = vec![leaf(); count];
    all.insert([0, count / 2, count][place], process);
    balanced(&all)
}

/// A root that handles fault 2, if it does, around the side and a throw, either first.
fn around(side: Part, handles: bool, first: bool) -> (Configuration, u16, u16) {
    let handlers = if handles { build::list([(Key::Fault(2), idle())]) } else { List::new() };
    let throw = build::throw(2);
    let own = 2 + 1 + if handles { 1 + size(&idle()) } else { 0 };
    let (body, throws, searched) = if first {
        let at = own + 1 + 1;
        (build::par(throw, side), own + 1, at)
    } else {
        let at = own + 1 + size(&side);
        (build::par(side, throw), at, own + 1)
    };
    let root = build::scope_with(1, Mark::None, false, handlers, body);
    (build::configuration(1, vec![root, build::scope(1, idle())]), throws as u16, searched as u16)
}

/// The call on the side and the step of the throw.
fn compare<M: Memory>(
    comparison: &mut Comparison<M>,
    source: Source,
    (configuration, throws, searched): (Configuration, u16, u16),
) -> bool {
    let config = from_words(&write::configuration(&configuration));
    let input = Input { source, config: &config };
    let (found, count) = comparison.pending(&input, 0, searched);
    assert!(count > 0, "{}", input.source);
    let whole = comparison.pending(&input, 0, 0);
    assert!(found <= whole.0 && count <= whole.1);
    let output = Output { length: comparison.cabinet.longest(), name: "longest" };
    let stepped = comparison.step(&input, Numbers::new(0, throws, 0, 0, 0), output);
    assert_eq!(stepped.answer.number, if found { 6 } else { 0 }, "{}", input.source);
    found
}

fn sides<M: Memory>(cabinet: Cabinet, name: &'static str, memory: M, lengths: &[usize]) {
    let mut comparison = Comparison::new(cabinet, memory);
    for words in lengths {
        for (step, (_, leaf)) in LEAVES.iter().enumerate() {
            for (seed, (_, process, pending)) in PENDING.iter().enumerate() {
                for place in 0..3 {
                    let source = Source { class: "sides", seed: (8 * place + seed) as u64, step };
                    let side = side(*leaf, process(), place, *words);
                    let shape = around(side, (place + step) % 2 == 0, (place + seed) % 2 == 0);
                    assert_eq!(compare(&mut comparison, source, shape), *pending);
                }
            }
        }
    }
    let wanted = Wanted { calls: 400, step: &[0, 6], pending: &[0], ..Wanted::default() };
    comparison.report(name, wanted);
}

#[test]
fn sides_are_searched_up_to_the_first_pending_process() {
    sides(Cabinet::Large, "sides", Plain::default(), &[20, 600, 2_000, 7_900]);
    sides(Cabinet::Small, "sides", Plain::default(), &[20, 600, 1_800]);
}

#[test]
fn nothing_else_is_touched() {
    sides(Cabinet::Large, "sides at guard pages", Guarded::new(Edge::End), &[20, 7_900]);
    sides(Cabinet::Small, "sides at guard pages", Guarded::new(Edge::End), &[20, 1_800]);
}

/// Sides at every level between a throw and the root, each of hundreds of processes: those outside
/// the scope that stops the fault do not count.
#[test]
fn many_sides_are_passed() {
    CABINETS.into_iter().for_each(many_sides);
}

fn many_sides(cabinet: Cabinet) {
    let mut comparison = Comparison::new(cabinet, Plain::default());
    let (levels, half) = match cabinet {
        Cabinet::Large => (40, 30),
        Cabinet::Small => (20, 12),
    };
    let some = vec![idle(); half];
    let plain = balanced(&[&some[..], &some].concat());
    let pending = balanced(&[&some[..], &[build::inst(List::new())], &some].concat());
    for stops in [0, 5, levels / 2, levels] {
        for wrong in [None, Some(0), Some(4), Some(5), Some(6), Some(levels / 2), Some(levels - 1)]
        {
            let mut inside = build::throw(2);
            let mut heads = 0;
            for level in 0..levels {
                let beside = if wrong == Some(level) { &pending } else { &plain };
                inside = build::par(inside, beside.clone());
                heads += 1;
                if level + 1 == stops {
                    let handler = build::list([(Key::Fault(2), idle())]);
                    inside = build::scope_with(4, Mark::None, false, handler, inside);
                    heads += 2 + 1 + 1 + size(&idle()) as u16;
                }
            }
            let root = build::scope(1, inside);
            let configuration = build::configuration(1, vec![root]);
            let config = from_words(&write::configuration(&configuration));
            let source = Source { class: "levels", seed: stops as u64, step: wrong.unwrap_or(99) };
            let input = Input { source, config: &config };
            let output = Output { length: cabinet.longest(), name: "longest" };
            let numbers = Numbers::new(0, 3 + heads, 0, 0, 0);
            let met = wrong.is_some_and(|level| stops == 0 || level < stops);
            let answer = comparison.step(&input, numbers, output).answer;
            assert_eq!(answer.number, if met { 6 } else { 0 }, "{source}");
            assert_eq!(comparison.pending(&input, 0, 0).0, wrong.is_some());
        }
    }
}
