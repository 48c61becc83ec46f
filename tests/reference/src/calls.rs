//! The calls on words: start check, readable check, step, ends, process of an engine, pending.

use crate::alone;
use crate::configuration::Configuration;
use crate::context::{enabled, locate, Place};
use crate::limits::Limits;
use crate::measure;
use crate::pair::{self, Meeting};
use crate::pending;
use crate::process::Process;
use crate::readable;
use crate::refusal::Refusal;
use crate::write;
use std::ops::Range;

/// The five numbers of a step.
#[derive(Clone, Copy, Debug, Default, PartialEq, Eq)]
pub struct Numbers {
    pub engine: u16,
    pub position: u16,
    pub second_engine: u16,
    pub second_position: u16,
    pub branch: u16,
}

/// What a step answers; all other fields of a refusal are 0.
#[derive(Clone, Copy, Debug, Default, PartialEq, Eq)]
pub struct Answer {
    pub number: u8,
    /// Kind of the acting process.
    pub kind: u8,
    /// The serial issued or delivered, else 0.
    pub serial: u16,
    /// 1 for a delivered notice, else 0.
    pub fault: u8,
    pub length: u16,
}

/// What ends answers.
#[derive(Clone, Copy, Debug, Default, PartialEq, Eq)]
pub struct Ends {
    pub number: u8,
    pub waiters: u16,
    /// Executors plus notices.
    pub workers: u16,
}

/// What pending answers.
#[derive(Clone, Copy, Debug, Default, PartialEq, Eq)]
pub struct Pending {
    pub number: u8,
    pub found: bool,
    pub count: u32,
}

impl Numbers {
    pub fn new(
        engine: u16,
        position: u16,
        second_engine: u16,
        second_position: u16,
        branch: u16,
    ) -> Numbers {
        Numbers { engine, position, second_engine, second_position, branch }
    }
}

/// 0 if fresh, 1 if not readable, 11 if readable but not fresh.
pub fn check_start(limits: &Limits, words: &[u16]) -> u8 {
    match readable::read(limits, words) {
        None => Refusal::Unreadable.number(),
        Some(configuration) if !readable::is_fresh(&configuration) => Refusal::NotFresh.number(),
        Some(_) => 0,
    }
}

/// 0 if readable, else 1.
pub fn check_readable(limits: &Limits, words: &[u16]) -> u8 {
    match readable::read(limits, words) {
        None => Refusal::Unreadable.number(),
        Some(_) => 0,
    }
}

/// Writes the result into the output and answers; a refusal leaves the output as it was.
pub fn step(limits: &Limits, words: &[u16], numbers: Numbers, output: &mut [u16]) -> Answer {
    match try_step(limits, words, numbers, output) {
        Ok(answer) => answer,
        Err(refusal) => Answer { number: refusal.number(), ..Answer::default() },
    }
}

fn try_step(
    limits: &Limits,
    words: &[u16],
    numbers: Numbers,
    output: &mut [u16],
) -> Result<Answer, Refusal> {
    let before = readable::read(limits, words).ok_or(Refusal::Unreadable)?;
    let result = transition(&before, numbers)?;
    if result.configuration.depth() > limits.depth {
        return Err(Refusal::Deep);
    }
    let length = result.configuration.size();
    if length > limits.words {
        return Err(Refusal::Long);
    }
    let room = output.get_mut(..length).ok_or(Refusal::ShortOutput)?;
    room.copy_from_slice(&write::configuration(&result.configuration));
    Ok(Answer {
        number: 0,
        kind: result.kind,
        serial: result.serial,
        fault: result.fault,
        length: length as u16,
    })
}

/// A step's result before it is held against limits and output.
#[derive(Clone, Debug)]
pub struct Transition {
    pub configuration: Configuration,
    pub kind: u8,
    pub serial: u16,
    pub fault: u8,
}

/// The rules on a readable configuration: refusals 2 to 7, or the result.
pub fn transition(before: &Configuration, numbers: Numbers) -> Result<Transition, Refusal> {
    let acting = find(before, numbers.engine, numbers.position).ok_or(Refusal::Nobody)?;
    let kind = acting.process.kind();
    match manner(&acting.process).ok_or(Refusal::NoMove)? {
        Manner::Alone => {
            if numbers.second_engine != 0 || numbers.second_position != 0 || numbers.branch != 0 {
                return Err(Refusal::NoMove);
            }
            let configuration = move_alone(before, numbers.engine, acting)?;
            Ok(Transition { configuration, kind, serial: 0, fault: 0 })
        }
        Manner::WithPartner => {
            let receiver = find(before, numbers.second_engine, numbers.second_position)
                .ok_or(Refusal::NoPartner)?;
            let meeting = Meeting {
                first: usize::from(numbers.engine),
                second: usize::from(numbers.second_engine),
                branch: numbers.branch,
                sender: acting,
                receiver,
            };
            let moved = pair::step(before, meeting)?;
            Ok(Transition {
                configuration: moved.configuration,
                kind,
                serial: moved.serial,
                fault: moved.fault,
            })
        }
    }
}

enum Manner {
    Alone,
    WithPartner,
}

/// How a process moves, if it does.
fn manner(process: &Process) -> Option<Manner> {
    match process {
        Process::Assign(..)
        | Process::If(..)
        | Process::While(..)
        | Process::Inst(_)
        | Process::Throw(_)
        | Process::Comp(_) => Some(Manner::Alone),
        Process::Scope(_, body) if body.is_nil() => Some(Manner::Alone),
        Process::Notify { .. } | Process::Solicit { .. } | Process::Notice(_) => {
            Some(Manner::WithPartner)
        }
        Process::Executor(_, body) if body.is_nil() => Some(Manner::WithPartner),
        _ => None,
    }
}

/// The enabled process that an engine number and a position name.
fn find(configuration: &Configuration, engine: u16, position: u16) -> Option<Place> {
    let engine = configuration.engines.get(usize::from(engine))?;
    locate(&engine.process, usize::from(position))
}

fn move_alone(
    before: &Configuration,
    engine: u16,
    acting: Place,
) -> Result<Configuration, Refusal> {
    let mut configuration = before.clone();
    let place = configuration.engines.get_mut(usize::from(engine)).ok_or(Refusal::Nobody)?;
    *place = alone::step(place, acting)?;
    Ok(configuration)
}

/// How many waiting and working ends have the serial: 1, then 12.
pub fn ends(limits: &Limits, words: &[u16], serial: u16) -> Ends {
    let refused = |refusal: Refusal| Ends { number: refusal.number(), ..Ends::default() };
    let Some(configuration) = readable::read(limits, words) else {
        return refused(Refusal::Unreadable);
    };
    if serial == 0 || serial > configuration.issued {
        return refused(Refusal::UnknownSerial);
    }
    let mut ends = Ends::default();
    for engine in &configuration.engines {
        for (_, process) in enabled(&engine.process) {
            match &*process {
                Process::Waiter(waiter) if waiter.serial == serial => ends.waiters += 1,
                Process::Executor(executor, _) if executor.serial == serial => ends.workers += 1,
                Process::Notice(notice) if notice.serial == serial => ends.workers += 1,
                _ => {}
            }
        }
    }
    ends
}

/// The search of the enabled process at an engine and a position: 1, then 2.
pub fn pending_at(limits: &Limits, words: &[u16], engine: u16, position: u16) -> Pending {
    let refused = |refusal: Refusal| Pending { number: refusal.number(), ..Pending::default() };
    let Some(configuration) = readable::read(limits, words) else {
        return refused(Refusal::Unreadable);
    };
    let Some(place) = find(&configuration, engine, position) else {
        return refused(Refusal::Nobody);
    };
    let side = pending::search(&place.process);
    Pending { number: 0, found: side.found, count: side.count as u32 }
}

/// Which of the words are the engine's process; empty (0..0) if unreadable or no such engine.
pub fn process_range(limits: &Limits, words: &[u16], engine: u16) -> Range<usize> {
    let engine = usize::from(engine);
    let Some(configuration) = readable::read(limits, words) else { return 0..0 };
    let Some(found) = configuration.engines.get(engine) else { return 0..0 };
    let start = configuration.process_start(engine);
    start..start + measure::size(&found.process)
}

/// The engine's process as a part of the caller's words.
pub fn process_of<'a>(limits: &Limits, words: &'a [u16], engine: u16) -> &'a [u16] {
    words.get(process_range(limits, words, engine)).unwrap_or(&[])
}
