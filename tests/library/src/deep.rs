//! Configurations that are deep and long at once, on which the calls need the most stack: a step
//! on a long one works in its long arrays, and every walk calls itself once a level.

use crate::cabinet::Cabinet;
use reference::build;
use reference::configuration::Configuration;
use reference::expression::{Expression, Operator};
use reference::generate::edges::{around, filler, nest, Way, WAYS};
use reference::process::{Key, List, Mark, Part};
use std::rc::Rc;

/// What a configuration shows, and the configuration.
pub type Shape = (String, Configuration);

/// How deep and how long.
#[derive(Clone, Copy, Debug)]
pub struct Extent {
    /// Levels of nesting, behind a root, a par and what acts, and before what is innermost.
    pub levels: usize,
    /// Words of code that is not enabled, beside what acts.
    pub beside: usize,
}

impl Extent {
    /// As deep and about as long as the cabinet reads.
    pub fn of(cabinet: Cabinet) -> Extent {
        match cabinet {
            Cabinet::Large => Extent { levels: 60, beside: 6_900 },
            Cabinet::Small => Extent { levels: 28, beside: 1_380 },
        }
    }
}

/// The variables of a message that has as many as there can be.
const FOUR: [u8; 4] = [2, 3, 4, 5];

/// A name, how many levels it adds, and what it makes of the process inside.
type Wrap = (&'static str, usize, fn(Part) -> Part);

/// Ways to nest what is enabled.
const RUNNING: [Wrap; 7] = [
    ("firsts of seq", 1, |inner| build::seq(inner, build::comp(1))),
    ("left sides", 1, |inner| build::par(inner, idle())),
    ("right sides", 1, |inner| build::par(idle(), inner)),
    ("scopes", 1, |inner| build::scope(1, inner)),
    ("zombies", 1, |inner| build::scope_with(1, Mark::None, true, List::new(), inner)),
    ("executors", 1, |inner| build::executor(1, [1, 2, 2, 1], 1, 1, inner)),
    ("all of these", 5, |inner| {
        let executor = build::executor(1, [1, 2], 1, 1, build::seq(inner, build::comp(1)));
        build::par(idle(), build::scope(1, build::par(executor, idle())))
    }),
];

/// Nobody sends to it.
fn idle() -> Part {
    build::one_way(63, 31)
}

/// Wrapped as often as the levels allow; what is left of them are pars.
fn wrapped(wrap: &Wrap, levels: usize, inner: Part) -> Part {
    let inner = (0..levels % wrap.1).fold(inner, |process, _| build::par(idle(), process));
    (0..levels / wrap.1).fold(inner, |process, _| wrap.2(process))
}

/// Nested as often as the levels allow, by a way that nests processes.
fn nested(way: Way, levels: usize, inner: Part) -> Part {
    let each = if way == Way::BranchRequest { 2 } else { 1 };
    (0..levels / each).fold(inner, |process, _| around(way, process))
}

fn fault(process: Part) -> List {
    build::list([(Key::Fault(1), process)])
}

/// Two engines that name each other in variable 1; one serial is issued. Code stands beside what
/// acts in the first.
fn engines(beside: usize, handlers: List, acting: Part, receiving: Part) -> Configuration {
    let code = build::seq(idle(), filler(beside).expect("some words"));
    let root = build::scope_with(2, Mark::None, false, handlers, build::par(code, acting));
    let mut both = build::configuration(1, vec![root, build::scope(2, receiving)]);
    both.engines[0].values[1] = 1;
    both
}

fn alone(beside: usize, handlers: List, acting: Part) -> Configuration {
    engines(beside, handlers, acting, idle())
}

/// An inst: cH nested in every way, an old entry nested in every way, lists in lists.
fn installing(Extent { levels, beside }: Extent) -> Vec<Shape> {
    let mut all = Vec::new();
    for way in WAYS {
        if !matches!(way, Way::LeftOperand | Way::RightOperand) {
            let fresh = nested(*way, levels, build::current_handler());
            let shape = alone(beside, fault(build::comp(1)), build::inst(fault(fresh)));
            all.push((format!("inst, cH in {way:?}"), shape));
        }
        let fresh = build::seq(build::comp(1), build::current_handler());
        let shape = alone(beside, fault(nest(*way, levels)), build::inst(fault(fresh)));
        all.push((format!("inst over {way:?}"), shape));
    }
    all
}

/// A throw that kills what is nested beside it, and one that climbs out of it.
fn throwing(Extent { levels, beside }: Extent) -> Vec<Shape> {
    let mut all = Vec::new();
    for wrap in &RUNNING {
        let side = wrapped(wrap, levels, idle());
        let kills = alone(beside, List::new(), build::par(side, build::throw(2)));
        all.push((format!("throw beside {}", wrap.0), kills));
        let climbs = alone(beside, List::new(), wrapped(wrap, levels, build::throw(2)));
        all.push((format!("throw in {}", wrap.0), climbs));
    }
    all
}

/// What acts innermost in what is enabled: alone, and between two engines.
fn innermost(Extent { levels, beside }: Extent) -> Vec<Shape> {
    let install = || build::inst(fault(build::seq(build::comp(1), build::current_handler())));
    let mut all = Vec::new();
    for wrap in &RUNNING {
        let inside = |process| wrapped(wrap, levels - 1, process);
        let shape = alone(beside, fault(build::comp(3)), inside(install()));
        all.push((format!("inst in {}", wrap.0), shape));
        let ending = build::scope_with(1, Mark::Fault(1), false, fault(build::comp(3)), nil());
        all.push((format!("scope in {}", wrap.0), alone(beside, List::new(), inside(ending))));
        let asks = build::solicit(2, FOUR, 1, FOUR, fault(build::comp(3)));
        let request = build::request(2, FOUR, FOUR, build::comp(3));
        let serves = build::choice(vec![(request, nil())]);
        all.push((
            format!("solicit in {}", wrap.0),
            engines(beside, List::new(), inside(asks), inside(serves)),
        ));
        let notice = build::par(build::notice(2, 2, 1, 1), build::comp(3));
        let waits = build::waiter(2, FOUR, false, 0, 1, List::new());
        all.push((
            format!("notice in {}", wrap.0),
            engines(beside, List::new(), inside(notice), inside(waits)),
        ));
    }
    all
}

fn nil() -> Part {
    build::nil()
}

/// Code nested in every way, as what a process holds.
fn holding(Extent { levels, beside }: Extent) -> Vec<Shape> {
    let mut all = Vec::new();
    for way in WAYS {
        let deep = || nest(*way, levels);
        let entry = || build::list([(Key::Scope(2), deep())]);
        let mut add = |name: &str, shape| all.push((format!("{name} {way:?}"), shape));
        add("comp of", alone(beside, entry(), build::comp(2)));
        let ends = build::scope_with(2, Mark::None, false, entry(), nil());
        add("end of a scope with", alone(beside, List::new(), ends));
        add("while of", alone(beside, List::new(), build::while_true(build::constant(1), deep())));
        add("if of", alone(beside, List::new(), build::if_else(build::constant(1), deep(), nil())));
        let serves =
            build::choice(vec![(idle(), nil()), (build::request(2, FOUR, FOUR, deep()), deep())]);
        let asks = build::solicit(2, FOUR, 1, FOUR, fault(deep()));
        add("solicit with", engines(beside, List::new(), asks, serves));
        let waits = build::waiter(2, FOUR, false, 0, 1, fault(deep()));
        add(
            "reply over",
            engines(beside, List::new(), build::executor(2, FOUR, 1, 1, nil()), waits),
        );
        add("notify beside", {
            let sides = build::par(build::seq(build::comp(1), deep()), build::one_way(2, FOUR));
            engines(beside, List::new(), build::notify(2, FOUR, 1), sides)
        });
    }
    all
}

/// Expressions nested to the left, to the right and on both sides.
fn evaluating(Extent { levels, beside }: Extent) -> Vec<Shape> {
    let sum = |left, right| build::binary(Operator::Sum, left, right);
    let leaf = || build::variable(1);
    let deep = |grow: &dyn Fn(Rc<Expression>) -> Rc<Expression>| {
        (1..levels).fold(leaf(), |expression, _| grow(expression))
    };
    let left = deep(&|inner| sum(inner, leaf()));
    let right = deep(&|inner| sum(leaf(), inner));
    let both = sum(left.clone(), right.clone());
    let mut all = Vec::new();
    for (name, expression) in [("left", left), ("right", right), ("both sides", both)] {
        let mut add = |kind: &str, acting| {
            all.push((format!("{kind}, {name}"), alone(beside, List::new(), acting)));
        };
        add("assign", build::assign(2, expression.clone()));
        add("if", build::if_else(expression.clone(), build::comp(1), nil()));
        add("while", build::while_true(expression.clone(), build::comp(1)));
    }
    all
}

/// All of them.
pub fn shapes(extent: Extent) -> Vec<Shape> {
    [installing, throwing, innermost, holding, evaluating].map(|of| of(extent)).concat()
}
