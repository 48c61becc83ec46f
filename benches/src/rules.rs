//! A step by every rule, in configurations of a given length, and steps in the worst shapes.

use crate::shapes::{balanced, leaves, leftward, lists, mixed, pieces, size};
use reference::bytes::from_words;
use reference::expression::Operator;
use reference::generate::random::Random;
use reference::process::{Key, List, Mark, Part};
use reference::{build, write, Numbers};

/// A step on a configuration's bytes.
pub struct Case {
    pub config: Vec<u8>,
    pub numbers: Numbers,
}

/// What acts in engine 0 (`inside` words behind where `actor` begins), what receives in engine 1, and the handlers of the root in engine 0.
pub struct Scene {
    actor: Part,
    inside: usize,
    partner: Option<Part>,
    branch: u16,
    handlers: List,
}

/// Variable 1 holds the other engine's number; the acting process stands last in its engine, and so does its partner.
fn place(scene: &Scene, beside: [Part; 2]) -> Case {
    let Scene { actor, inside, partner, branch, handlers } = scene;
    let [own, other] = beside;
    let second = partner.clone().unwrap_or_else(|| build::throw(1));
    let first =
        build::scope_with(1, Mark::None, false, handlers.clone(), build::par(own, actor.clone()));
    let receiving = build::scope(1, build::par(other, second.clone()));
    let at = |process: &Part, last: &Part| (size(process) - size(last)) as u16;
    let numbers = Numbers {
        engine: 0,
        position: at(&first, actor) + *inside as u16,
        second_engine: u16::from(partner.is_some()),
        second_position: if partner.is_some() { at(&receiving, &second) } else { 0 },
        branch: *branch,
    };
    let mut configuration = build::configuration(1, vec![first, receiving]);
    configuration.engines[0].values[1] = 1;
    Case { config: from_words(&write::configuration(&configuration)), numbers }
}

/// Words left for what stands beside the two in a configuration of `words` words.
fn space(scene: &Scene, words: usize) -> usize {
    let bare = place(scene, [build::throw(1), build::throw(1)]);
    words + 2 - bare.config.len() / 2
}

/// A rule's name and what its scene is, given a piece of code.
type Rule = (&'static str, fn(Part) -> Scene);

fn alone(actor: Part) -> Scene {
    Scene { actor, inside: 0, partner: None, branch: 0, handlers: List::new() }
}

fn between(actor: Part, partner: Part) -> Scene {
    Scene { partner: Some(partner), ..alone(actor) }
}

/// The variables of a message that has as many as there can be.
const FOUR: [u8; 4] = [2, 3, 4, 5];

fn two_branches(piece: Part) -> Part {
    let request = build::request(2, 2, 2, piece.clone());
    build::choice(vec![(build::one_way(2, 2), piece.clone()), (request, piece)])
}

fn handler(name: u8, piece: Part) -> List {
    build::list([(Key::Fault(name), piece.clone()), (Key::Scope(name), piece)])
}

fn scope(mark: Mark, zombie: bool, piece: Part) -> Part {
    build::scope_with(2, mark, zombie, handler(2, piece), build::nil())
}

pub const RULES: [Rule; 20] = [
    ("assign", |_| {
        alone(build::assign(
            2,
            build::binary(Operator::Sum, build::variable(2), build::constant(1)),
        ))
    }),
    ("if", |p| alone(build::if_else(build::variable(1), p, build::nil()))),
    ("while", |p| alone(build::while_true(build::variable(1), p))),
    ("notify", |_| between(build::notify(2, 2, 1), build::one_way(2, 2))),
    ("notify of four values", |_| between(build::notify(2, FOUR, 1), build::one_way(2, FOUR))),
    ("notify to a choice", |p| Scene {
        branch: 1,
        ..between(build::notify(2, 2, 1), two_branches(p))
    }),
    ("solicit", |p| {
        between(build::solicit(2, 2, 1, 2, handler(2, p.clone())), build::request(2, 2, 2, p))
    }),
    ("solicit of four values for four", |p| {
        between(
            build::solicit(2, FOUR, 1, FOUR, handler(2, p.clone())),
            build::request(2, FOUR, FOUR, p),
        )
    }),
    ("solicit to a choice", |p| Scene {
        branch: 2,
        ..between(build::solicit(2, 2, 1, 2, List::new()), two_branches(p))
    }),
    ("reply", |p| {
        between(
            build::executor(2, 2, 1, 1, build::nil()),
            build::waiter(2, 2, false, 0, 1, handler(2, p)),
        )
    }),
    ("reply of four values", |p| {
        between(
            build::executor(2, FOUR, 1, 1, build::nil()),
            build::waiter(2, FOUR, false, 0, 1, handler(2, p)),
        )
    }),
    ("fault", |p| {
        between(build::notice(2, 2, 1, 1), build::waiter(2, 2, false, 0, 1, handler(2, p)))
    }),
    ("inst", |p| {
        let fresh = build::seq(build::one_way(1, 1), build::current_handler());
        Scene { handlers: handler(2, p), ..alone(build::inst(handler(2, fresh))) }
    }),
    ("comp", |p| Scene { handlers: handler(2, p), ..alone(build::comp(2)) }),
    ("scope ends", |p| alone(scope(Mark::None, false, p))),
    ("scope handles its fault", |p| alone(scope(Mark::Fault(2), false, p))),
    ("killed scope runs its own handler", |p| alone(scope(Mark::OwnName, true, p))),
    ("zombie ends", |p| alone(scope(Mark::None, true, p))),
    ("throw, nothing beside it", |p| {
        let body = build::seq(build::throw(2), p.clone());
        let inside = 2 + size(&build::inst(handler(2, p.clone())));
        Scene { inside, ..alone(build::scope_with(2, Mark::None, false, handler(2, p), body)) }
    }),
    ("throw, killing what is beside it", |p| Scene {
        handlers: handler(2, p),
        ..alone(build::throw(2))
    }),
];

/// Code that can be killed: nothing in it that is enabled installs a handler.
fn killable(piece: Part) -> Part {
    build::seq(build::one_way(1, 1), piece)
}

/// A step by the rule, beside code of every kind, in a configuration of about `words` words. A result may be longer than what it came from
/// by what the rule writes twice.
pub fn by_rule(rule: &Rule, seed: u64, words: usize) -> Case {
    let random = &mut Random::new(seed);
    let scene = rule.1(build::seq(build::comp(3), mixed(random, 6)));
    let room = space(&scene, words.min(8_170));
    let (own, other) = match scene.partner {
        Some(_) => (room / 2, room - room / 2),
        None => (room - 1, 1),
    };
    let mut beside = |room| balanced(&pieces(random, room, killable));
    let sides = [beside(own), beside(other)];
    place(&scene, sides)
}

/// The worst shapes: all in engine 0, a step that assigns behind it or in it, or a step that moves all of it.
pub fn worst(words: usize) -> Vec<(&'static str, Case)> {
    let assign = || alone(build::assign(2, build::variable(1)));
    let room = space(&assign(), words.min(8_170)) - 1;
    let beside = |scene: &Scene, own| place(scene, [own, build::throw(1)]);
    let mut nobody = beside(&assign(), leaves(room));
    nobody.numbers.position += 1;
    let inner = assign().actor;
    let nested = leftward(room - size(&inner), inner);
    let mut deep = beside(&alone(build::throw(3)), nested);
    // Behind the root's three words and 61 heads of pars.
    deep.numbers.position = 3 + 61;
    let scopes =
        |room: usize| balanced(&vec![build::scope(3, build::one_way(1, 1)); (room / 6).max(1)]);
    let ends = |room: usize| {
        balanced(&vec![build::executor(2, 2, 1, 1, build::one_way(1, 1)); (room / 10).max(1)])
    };
    let throw = || Scene { handlers: handler(2, build::comp(3)), ..alone(build::throw(2)) };
    // The side of leaves, with an inst before all others, or behind them.
    let pending = |first: bool| {
        let mut all = vec![build::comp(1); room.div_ceil(2) - 14];
        all.insert(if first { 0 } else { all.len() }, build::inst(List::new()));
        balanced(&all)
    };
    vec![
        ("leaves of one word", beside(&assign(), leaves(room))),
        (
            "pars nested to the left, acting behind them",
            beside(&assign(), leftward(room, build::throw(1))),
        ),
        ("pars nested to the left, acting innermost", deep),
        ("lists in lists", beside(&assign(), lists(room))),
        (
            "throw, leaves killed",
            beside(&throw(), balanced(&vec![build::comp(1); room.div_ceil(2) - 12])),
        ),
        ("throw, scopes turned zombies", beside(&throw(), scopes(room - 24))),
        ("throw, executors leaving notices", beside(&throw(), ends(room - 24))),
        ("inst over a long list", beside(&long_inst(room), build::throw(1))),
        ("refused 2, nobody there", nobody),
        ("refused 6, pending first", beside(&throw(), pending(true))),
        ("refused 6, pending last", beside(&throw(), pending(false))),
    ]
}

/// What stands in eight engines at work, made of a seed and a number of words.
type Others = (&'static str, fn(u64, usize) -> Part);

pub const EIGHT: [Others; 2] = [
    ("eight engines, all kinds", |seed, words| mixed(&mut Random::new(seed), words)),
    ("eight engines, leaves of one word", |_, words| leaves(words)),
];

/// An assign in the first of eight engines, about `words` words in all.
pub fn in_eight(others: &Others, seed: u64, words: usize) -> Case {
    let actor = build::assign(2, build::variable(1));
    let room = words.min(8_170) / 8 - 64 - 3;
    let code = |engine, words| others.1(seed * 8 + engine, words);
    let first = build::scope(1, build::par(code(0, room - 1 - size(&actor)), actor.clone()));
    let position = (size(&first) - size(&actor)) as u16;
    let rest = (1..8).map(|engine| build::scope(1, code(engine, room)));
    let engines = std::iter::once(first).chain(rest).collect();
    let config = from_words(&write::configuration(&build::configuration(0, engines)));
    Case { config, numbers: Numbers { position, ..Numbers::default() } }
}

/// An inst of 64 entries over handlers of 64 entries, which fill the room.
fn long_inst(room: usize) -> Scene {
    let each = (room / 64).saturating_sub(8).max(1);
    let old = (0..64).map(|n| (Key::Fault(n), leaves(each))).collect::<List>();
    let fresh = (0..64).map(|n| (Key::Fault(n), build::current_handler())).collect::<List>();
    Scene { handlers: old, ..alone(build::inst(fresh)) }
}
