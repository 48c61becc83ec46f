//! Rules between two different engines, the sender first.

use crate::configuration::{Configuration, Engine};
use crate::context::{plug, Place};
use crate::expression::value;
use crate::process::{nil, seq, Executor, Part, Process, Waiter};
use crate::refusal::Refusal;
use crate::variables::Variables;
use std::rc::Rc;

/// Where the two stand, and the branch that the step names.
pub struct Meeting {
    pub first: usize,
    pub second: usize,
    pub branch: u16,
    pub sender: Place,
    pub receiver: Place,
}

/// What the two processes become, and what else a step between two changes and answers.
struct Exchange {
    sender: Part,
    receiver: Part,
    /// The receiver's variables and the values they take.
    message: Option<(Variables, Vec<u32>)>,
    issued: u16,
    serial: u16,
    fault: u8,
}

/// A configuration after a step between two, with the answer's serial and fault.
pub struct Moved {
    pub configuration: Configuration,
    pub serial: u16,
    pub fault: u8,
}

/// The step of the two, from a configuration in which both places stand.
pub fn step(before: &Configuration, meeting: Meeting) -> Result<Moved, Refusal> {
    let exchange = exchange(before, &meeting)?;
    let mut configuration = before.clone();
    configuration.issued = exchange.issued;
    if let Some(engine) = configuration.engines.get_mut(meeting.first) {
        engine.process = plug(meeting.sender.frames, exchange.sender);
    }
    if let Some(engine) = configuration.engines.get_mut(meeting.second) {
        engine.process = plug(meeting.receiver.frames, exchange.receiver);
        if let Some((x, sent)) = exchange.message {
            x.take(&mut engine.values, &sent);
        }
    }
    Ok(Moved { configuration, serial: exchange.serial, fault: exchange.fault })
}

fn exchange(before: &Configuration, meeting: &Meeting) -> Result<Exchange, Refusal> {
    if meeting.first == meeting.second {
        return Err(Refusal::NoFit);
    }
    let engine = before.engines.get(meeting.first).ok_or(Refusal::Nobody)?;
    match &*meeting.sender.process {
        Process::Notify { .. } => notify(before, engine, meeting).ok_or(Refusal::NoFit),
        Process::Solicit { .. } => {
            let fits = solicit(before, engine, meeting).ok_or(Refusal::NoFit)?;
            if before.issued == u16::MAX {
                return Err(Refusal::SerialsSpent);
            }
            Ok(fits)
        }
        Process::Executor(executor, body) if body.is_nil() => {
            reply(before, engine, meeting, executor).ok_or(Refusal::NoFit)
        }
        Process::Notice(_) => deliver_fault(before, meeting).ok_or(Refusal::NoFit),
        _ => Err(Refusal::NoMove),
    }
}

/// Whether the sender's z holds the second engine's number, as 32-bit values.
fn addressed(engine: &Engine, z: u8, second: usize) -> bool {
    u32::try_from(second) == Ok(value(&engine.values, z))
}

/// The receiving process, and what follows it if it is a choice's branch. None if the branch
/// does not suit: 0 for a bare receiver, 1 to count for a choice.
fn chosen(meeting: &Meeting) -> Option<(&Process, Option<&Part>)> {
    match &*meeting.receiver.process {
        Process::Choice(branches) => {
            let index = usize::from(meeting.branch).checked_sub(1)?;
            let branch = branches.get(index)?;
            Some((&branch.receiver, Some(&branch.then)))
        }
        bare => (meeting.branch == 0).then_some((bare, None)),
    }
}

fn followed_by(process: Part, then: Option<&Part>) -> Part {
    match then {
        Some(then) => seq(process, then.clone()),
        None => process,
    }
}

fn notify(before: &Configuration, engine: &Engine, meeting: &Meeting) -> Option<Exchange> {
    let Process::Notify { operation, y, z } = &*meeting.sender.process else { return None };
    let (Process::OneWay { operation: offered, x }, then) = chosen(meeting)? else { return None };
    let fits = operation == offered && y.count() == x.count();
    if !fits || !addressed(engine, *z, meeting.second) {
        return None;
    }
    Some(Exchange {
        sender: nil(),
        receiver: followed_by(nil(), then),
        message: Some((x.clone(), y.values(&engine.values))),
        issued: before.issued,
        serial: 0,
        fault: 0,
    })
}

fn solicit(before: &Configuration, engine: &Engine, meeting: &Meeting) -> Option<Exchange> {
    let Process::Solicit { operation, y, z, x, list } = &*meeting.sender.process else {
        return None;
    };
    let (Process::Request { operation: offered, x: into, y: answer, body }, then) =
        chosen(meeting)?
    else {
        return None;
    };
    // The counts of the message and, already now, those of its reply.
    let fits = operation == offered && y.count() == into.count() && answer.count() == x.count();
    if !fits || !addressed(engine, *z, meeting.second) {
        return None;
    }
    // Wraps only where the caller refuses: serials spent.
    let serial = before.issued.wrapping_add(1);
    let waiter = Waiter {
        operation: *operation,
        x: x.clone(),
        dead: false,
        server: u8::try_from(meeting.second).ok()?,
        serial,
        list: list.clone(),
    };
    let executor = Executor {
        operation: *operation,
        y: answer.clone(),
        client: u8::try_from(meeting.first).ok()?,
        serial,
    };
    let working = Rc::new(Process::Executor(executor, body.clone()));
    Some(Exchange {
        sender: Rc::new(Process::Waiter(waiter)),
        receiver: followed_by(working, then),
        message: Some((into.clone(), y.values(&engine.values))),
        issued: serial,
        serial,
        fault: 0,
    })
}

/// The waiter that a working end may deliver to.
fn waiting(meeting: &Meeting, operation: u8, client: u8, serial: u16) -> Option<&Waiter> {
    let Process::Waiter(waiter) = &*meeting.receiver.process else { return None };
    let fits = meeting.branch == 0
        && waiter.serial == serial
        && waiter.operation == operation
        && usize::from(client) == meeting.second
        && usize::from(waiter.server) == meeting.first;
    fits.then_some(waiter)
}

/// A reply, whose counts agree: x takes y as it is now, and the waiter, dead or live, becomes inst of its list.
fn reply(
    before: &Configuration,
    engine: &Engine,
    meeting: &Meeting,
    executor: &Executor,
) -> Option<Exchange> {
    let waiter = waiting(meeting, executor.operation, executor.client, executor.serial)?;
    if executor.y.count() != waiter.x.count() {
        return None;
    }
    Some(Exchange {
        sender: nil(),
        receiver: Rc::new(Process::Inst(waiter.list.clone())),
        message: Some((waiter.x.clone(), executor.y.values(&engine.values))),
        issued: before.issued,
        serial: executor.serial,
        fault: 0,
    })
}

/// A fault: a live waiter becomes throw, a dead one nil.
fn deliver_fault(before: &Configuration, meeting: &Meeting) -> Option<Exchange> {
    let Process::Notice(notice) = &*meeting.sender.process else { return None };
    let waiter = waiting(meeting, notice.operation, notice.client, notice.serial)?;
    let receiver = if waiter.dead { nil() } else { Rc::new(Process::Throw(notice.fault)) };
    Some(Exchange {
        sender: nil(),
        receiver,
        message: None,
        issued: before.issued,
        serial: notice.serial,
        fault: 1,
    })
}
