//! Engines that come and go: a basin with a server and a client that never end, pumps that come, talk
//! with them and end, and newcomers that are refused.

use crate::build;
use crate::calls::Numbers;
use crate::configuration::{Configuration, Engine};
use crate::context::enabled;
use crate::generate::random::Random;
use crate::generate::start;
use crate::process::{Key, Part, Process};
use crate::write;

/// The server's operation, and the one that its client asks pumps for.
const SERVED: u8 = 1;
const PUMPED: u8 = 2;

/// A variable that holds 0, the server's number, and one that the basin's client changes.
const SERVER: u8 = 9;
const PUMP: u8 = 10;

/// The words of an engine: its values and its process.
pub fn words(engine: &Engine) -> Vec<u16> {
    let alone = Configuration { issued: 0, engines: vec![engine.clone()] };
    write::configuration(&alone)[2..].to_vec()
}

fn engine(process: Part) -> Engine {
    Engine { values: [0; 32], process }
}

/// A start: engine 0 serves for ever, one or two at a time, what it does for a request being nothing, an assignment or a throw; engine 1
/// asks, again and again, whoever has the number in its variable.
pub fn basin(random: &mut Random) -> Configuration {
    let work = match random.below(3) {
        0 => build::nil(),
        1 => build::assign(3, build::constant(7)),
        _ => build::scope(4, build::throw(5)),
    };
    let serve = build::while_true(build::constant(1), build::request(SERVED, 1, 2, work));
    let serve = match random.percent(60) {
        true => build::par(serve.clone(), serve),
        false => serve,
    };
    let ask = build::solicit(PUMPED, 1, PUMP, 2, build::list([]));
    let again = build::scope(6, build::par(ask, build::throw(5)));
    let ask = match random.percent(70) {
        true => build::solicit(PUMPED, 1, PUMP, 2, build::list([])),
        false => again,
    };
    let mut client = engine(build::scope(1, build::while_true(build::constant(1), ask)));
    client.values[usize::from(PUMP)] = random.between(2, 4) as u32;
    Configuration { issued: 0, engines: vec![engine(build::scope(0, serve)), client] }
}

/// A pump: done at once, or after it asked the server, with or without faults, or served the client.
/// Sometimes any engine of a start.
pub fn pump(random: &mut Random) -> Engine {
    let ask = || build::solicit(SERVED, 1, SERVER, 2, build::list([(Key::Fault(5), build::nil())]));
    let serve = || build::request(PUMPED, 1, 2, build::nil());
    let body = match random.below(9) {
        0 => build::nil(),
        1 => build::assign(1, build::constant(8)),
        2 | 3 => ask(),
        4 => build::seq(build::inst(build::list([(Key::Fault(5), build::nil())])), ask()),
        5 => build::scope(3, build::par(ask(), build::throw(5))),
        6 => serve(),
        7 => build::par(ask(), serve()),
        _ => return start::fresh(random).engines.swap_remove(0),
    };
    engine(build::scope(2, body))
}

/// Ways in which a newcomer is not readable and fresh.
pub const UNFIT: &[&str] = &[
    "nil",
    "marked",
    "zombie",
    "listed",
    "executor",
    "waiter",
    "notice",
    "no scope",
    "nil before seq",
    "cut",
    "behind",
    "values only",
    "few values",
    "nothing",
    "deep",
];

/// A newcomer that is not readable and fresh, in one of these ways.
pub fn unfit(random: &mut Random, way: &str) -> Vec<u16> {
    let scope = |body| build::scope(1, body);
    let entry = || build::list([(Key::Fault(2), build::throw(3))]);
    let mut spoiled = words(&engine(match way {
        "nil" => build::nil(),
        "marked" => {
            build::scope_with(1, crate::process::Mark::Fault(2), false, entry(), build::nil())
        }
        "zombie" => {
            build::scope_with(1, crate::process::Mark::None, true, build::list([]), build::nil())
        }
        "listed" => build::scope_with(1, crate::process::Mark::None, false, entry(), build::nil()),
        "executor" => scope(build::executor(1, 1, 0, 1, build::nil())),
        "waiter" => scope(build::waiter(1, 1, false, 0, 1, build::list([]))),
        "notice" => scope(build::notice(1, 1, 0, 1)),
        "no scope" => build::throw(1),
        "nil before seq" => scope(build::seq(build::nil(), build::throw(1))),
        "deep" => (0..64).fold(build::nil(), |inner, _| build::scope(1, inner)),
        _ => pump(random).process,
    }));
    match way {
        "cut" => spoiled.truncate(spoiled.len() - 1),
        "behind" => spoiled.push(0),
        "values only" => spoiled.truncate(64),
        "few values" => spoiled.truncate(random.below(64)),
        "nothing" => spoiled.clear(),
        _ => {}
    }
    spoiled
}

/// The numbers of a step that ends a root scope with nil body, of the last engine if it can.
pub fn ending(configuration: &Configuration) -> Option<Numbers> {
    let last = configuration.engines.len() - 1;
    let process = &configuration.engines[last].process;
    let ends = matches!(&**process, Process::Scope(_, body) if body.is_nil());
    (ends && !enabled(process).is_empty()).then(|| Numbers::new(last as u16, 0, 0, 0, 0))
}
