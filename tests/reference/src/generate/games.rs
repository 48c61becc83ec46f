//! Small configurations for keeper against the river: one or two requests under way, with work left, with faults that
//! may be thrown beside their ends, and with other engines that talk or idle. Some have ends that no run gives: a serial
//! twice, ends that do not name each other.

use crate::build;
use crate::configuration::Configuration;
use crate::generate::random::Random;
use crate::process::{Key, Part};

/// The operation of the requests, that of messages between engines, and the fault that is thrown.
const ASKED: u8 = 1;
const TOLD: u8 = 3;
const FAULT: u8 = 5;

/// Variable e of every engine holds e, so that z names engine z.
fn named(mut configuration: Configuration) -> Configuration {
    for engine in &mut configuration.engines {
        for (number, value) in engine.values.iter_mut().take(8).enumerate() {
            *value = number as u32;
        }
    }
    configuration
}

/// One step of work.
fn piece(random: &mut Random) -> Part {
    match random.below(6) {
        0 | 1 => build::assign(9, build::constant(7)),
        2 => build::if_else(build::variable(random.small(2)), build::nil(), build::throw(FAULT)),
        3 => build::one_way(TOLD, 9),
        4 => build::scope(2, build::nil()),
        _ => build::scope(2, build::throw(FAULT)),
    }
}

fn work(random: &mut Random) -> Part {
    match random.below(8) {
        0..=2 => build::nil(),
        3 | 4 => piece(random),
        5 => build::seq(piece(random), piece(random)),
        6 => build::par(piece(random), piece(random)),
        _ => build::choice(vec![
            (build::one_way(TOLD, 9), build::nil()),
            (build::one_way(TOLD, 8), build::throw(FAULT)),
        ]),
    }
}

/// What stands beside an end: it may move, throw, hear or tell engine `other`.
fn beside(random: &mut Random, other: u8) -> Option<Part> {
    match random.below(9) {
        0..=3 => None,
        4 => Some(build::throw(FAULT)),
        5 => Some(build::notify(TOLD, 9, other)),
        6 => Some(build::inst(build::list([(Key::Fault(FAULT), build::nil())]))),
        7 => Some(build::seq(build::one_way(TOLD, 9), build::throw(FAULT))),
        _ => Some(piece(random)),
    }
}

fn together(end: Part, other: Option<Part>) -> Part {
    match other {
        Some(other) => build::par(end, other),
        None => end,
    }
}

/// Two to four engines; serials 1 and 2 are issued, and 3, whose ends are gone.
pub fn game(random: &mut Random) -> Configuration {
    let count = random.between(2, 4);
    let mut bodies: Vec<Option<Part>> = (0..count).map(|_| None).collect();
    let mut add = |engine: usize, part: Part| {
        bodies[engine] = Some(together(part, bodies[engine].take()));
    };
    for serial in 1..=random.between(1, 2) as u16 {
        let server = random.below(count);
        let client = (server + random.between(1, count - 1)) % count;
        let wrong = random.percent(6);
        let of = if wrong { random.below(count) } else { client } as u8;
        let twice = if random.percent(8) { 1 } else { serial };
        let end = match random.percent(85) {
            true => build::executor(ASKED, 1, of, twice, work(random)),
            false => build::notice(ASKED, FAULT, of, twice),
        };
        let dead = random.percent(15);
        let list = build::list([(Key::Fault(FAULT), work(random))]);
        let waits = build::waiter(ASKED, 2, dead, server as u8, serial, list);
        add(server, together(end, beside(random, client as u8)));
        add(client, together(waits, beside(random, server as u8)));
    }
    let idle = |random: &mut Random| match random.below(4) {
        0 => build::nil(),
        1 => build::scope(1, build::nil()),
        2 => build::scope(1, build::notify(TOLD, 9, random.small(2))),
        _ => build::scope(1, piece(random)),
    };
    let roots = bodies.into_iter().map(|body| match body {
        Some(body) => build::scope(1, body),
        None => idle(random),
    });
    named(build::configuration(3, roots.collect()))
}

/// A game of some 600 words for timing: request 1 from engine 1 to engine 0, whose work has one to three pieces, other engines that
/// move, and code of no consequence that makes it long.
pub fn long_game(random: &mut Random) -> Configuration {
    let assign = || build::assign(9, build::constant(7));
    let pieces = |count: usize| (1..count).fold(assign(), |rest, _| build::seq(assign(), rest));
    let later = |count: usize| build::seq(build::one_way(60, 9), pieces(count));
    let busy = |random: &mut Random| match random.below(3) {
        0 => assign(),
        1 => pieces(2),
        _ => build::par(assign(), pieces(2)),
    };
    let work = pieces(random.between(1, 3));
    let server = build::par(build::executor(ASKED, 1, 1, 1, work), busy(random));
    let list = build::list([(Key::Fault(FAULT), build::nil())]);
    let client = build::par(build::waiter(ASKED, 2, false, 0, 1, list), busy(random));
    let mut roots = vec![
        build::scope(1, build::par(server, later(25))),
        build::scope(1, build::par(client, later(25))),
    ];
    for _ in 0..2 {
        roots.push(build::scope(1, build::par(busy(random), build::par(busy(random), later(5)))));
    }
    named(build::configuration(1, roots))
}
