//! Steps for runs: mostly ones that are likely to be accepted, sometimes arbitrary ones.

use crate::calls::Numbers;
use crate::configuration::Configuration;
use crate::context::enabled;
use crate::expression::value;
use crate::generate::random::Random;
use crate::measure;
use crate::process::{Part, Process};

/// An enabled process, with its engine and position.
#[derive(Clone, Debug)]
pub struct Stand {
    pub engine: usize,
    pub position: usize,
    pub process: Part,
}

/// Every enabled process of a configuration.
pub fn stands(configuration: &Configuration) -> Vec<Stand> {
    let mut all = Vec::new();
    for (engine, each) in configuration.engines.iter().enumerate() {
        for (position, process) in enabled(&each.process) {
            all.push(Stand { engine, position, process });
        }
    }
    all
}

/// Every step that fits by kinds and fields, with a weight. Faults are light, so that runs
/// live long; some of these are still refused (6 to 10).
pub fn fitting(configuration: &Configuration) -> Vec<(Numbers, usize)> {
    let stands = stands(configuration);
    let mut steps = Vec::new();
    for stand in &stands {
        match &*stand.process {
            Process::Throw(_) => steps.push((alone(stand), 2)),
            Process::Inst(_) => steps.push((alone(stand), 8)),
            Process::Scope(_, body) if body.is_nil() => steps.push((alone(stand), 4)),
            Process::While(..) => steps.push((alone(stand), 2)),
            Process::Assign(..) | Process::If(..) | Process::Comp(_) => {
                steps.push((alone(stand), 6));
            }
            _ => {
                for other in stands.iter().filter(|other| other.engine != stand.engine) {
                    let met = meetings(configuration, stand, other, true);
                    steps.extend(met.into_iter().map(|numbers| (numbers, 12)));
                }
            }
        }
    }
    steps
}

/// Every step between two that fit but for the counts of their variables.
pub fn miscounted(configuration: &Configuration) -> Vec<Numbers> {
    let stands = stands(configuration);
    let mut steps = Vec::new();
    for stand in &stands {
        for other in stands.iter().filter(|other| other.engine != stand.engine) {
            steps.extend(meetings(configuration, stand, other, false));
        }
    }
    steps
}

fn alone(stand: &Stand) -> Numbers {
    Numbers::new(stand.engine as u16, stand.position as u16, 0, 0, 0)
}

fn together(stand: &Stand, other: &Stand, branch: usize) -> Numbers {
    let (engine, position) = (other.engine as u16, other.position as u16);
    Numbers::new(stand.engine as u16, stand.position as u16, engine, position, branch as u16)
}

/// The steps between two enabled processes, one for each branch that fits, and whose counts of
/// variables agree or do not.
fn meetings(
    configuration: &Configuration,
    stand: &Stand,
    other: &Stand,
    agree: bool,
) -> Vec<Numbers> {
    let fits = |receiver: &Process| {
        fits(configuration, stand, other, receiver)
            && counts_agree(&stand.process, receiver) == agree
    };
    match &*other.process {
        Process::Choice(branches) => {
            let good = branches.iter().enumerate().filter(|(_, branch)| fits(&branch.receiver));
            good.map(|(index, _)| together(stand, other, index + 1)).collect()
        }
        bare if fits(bare) => vec![together(stand, other, 0)],
        _ => Vec::new(),
    }
}

/// Of two that fit otherwise.
fn counts_agree(sender: &Process, receiver: &Process) -> bool {
    match (sender, receiver) {
        (Process::Notify { y, .. }, Process::OneWay { x, .. }) => y.count() == x.count(),
        (Process::Solicit { y, x, .. }, Process::Request { x: into, y: answer, .. }) => {
            y.count() == into.count() && x.count() == answer.count()
        }
        (Process::Executor(executor, _), Process::Waiter(waiter)) => {
            executor.y.count() == waiter.x.count()
        }
        _ => true,
    }
}

/// By kinds, operations, addresses and serials.
fn fits(configuration: &Configuration, from: &Stand, to: &Stand, receiver: &Process) -> bool {
    let addressed = |z: u8| {
        let engine = configuration.engines.get(from.engine);
        engine.is_some_and(|engine| value(&engine.values, z) as usize == to.engine)
    };
    match (&*from.process, receiver) {
        (Process::Notify { operation, z, .. }, Process::OneWay { operation: offered, .. }) => {
            operation == offered && addressed(*z)
        }
        (Process::Solicit { operation, z, .. }, Process::Request { operation: offered, .. }) => {
            operation == offered && addressed(*z)
        }
        (Process::Executor(executor, body), Process::Waiter(waiter)) => {
            body.is_nil() && executor.serial == waiter.serial
        }
        (Process::Notice(notice), Process::Waiter(waiter)) => notice.serial == waiter.serial,
        _ => false,
    }
}

/// The next step of a run.
pub fn choose(random: &mut Random, configuration: &Configuration) -> Numbers {
    match random.below(20) {
        0 => arbitrary(random, configuration),
        1 => {
            let near = likely(random, configuration);
            changed(random, configuration, near)
        }
        2 => pointed(random, configuration),
        3 => near_meeting(random, configuration),
        4 => {
            let near = likely(random, configuration);
            random.pick(&miscounted(configuration)).copied().unwrap_or(near)
        }
        _ => likely(random, configuration),
    }
}

/// A sender and a receiver, whether they fit or not.
pub fn near_meeting(random: &mut Random, configuration: &Configuration) -> Numbers {
    let all = stands(configuration);
    let of = |kinds: &[u8]| -> Vec<&Stand> {
        all.iter().filter(|stand| kinds.contains(&stand.process.kind())).collect()
    };
    let (senders, receivers) = match random.percent(50) {
        true => (of(&[9, 10]), of(&[6, 7, 8])),
        false => (of(&[16, 18]), of(&[17])),
    };
    let (Some(first), Some(second)) = (random.pick(&senders), random.pick(&receivers)) else {
        return pointed(random, configuration);
    };
    let branch = match &*second.process {
        Process::Choice(branches) => random.below(branches.len() + 2),
        _ => usize::from(random.percent(10)),
    };
    together(first, second, branch)
}

/// A step that is likely to be accepted; an arbitrary one if none is.
pub fn likely(random: &mut Random, configuration: &Configuration) -> Numbers {
    let steps = fitting(configuration);
    let weights: Vec<usize> = steps.iter().map(|(_, weight)| *weight).collect();
    match steps.get(random.weighted(&weights)) {
        Some((numbers, _)) => *numbers,
        None => pointed(random, configuration),
    }
}

/// Two enabled processes, whether they fit or not.
pub fn pointed(random: &mut Random, configuration: &Configuration) -> Numbers {
    let stands = stands(configuration);
    let (Some(first), Some(second)) = (random.pick(&stands), random.pick(&stands)) else {
        return Numbers::default();
    };
    match random.percent(30) {
        true => alone(first),
        false => {
            let branch = [0, 0, 1, 2, 9][random.below(5)];
            together(first, second, branch)
        }
    }
}

/// Any numbers, near the ones that mean something.
pub fn arbitrary(random: &mut Random, configuration: &Configuration) -> Numbers {
    let (engine, position) = somewhere(random, configuration);
    let (second_engine, second_position) = match random.percent(30) {
        true => (0, 0),
        false => somewhere(random, configuration),
    };
    Numbers::new(engine, position, second_engine, second_position, branch(random))
}

fn branch(random: &mut Random) -> u16 {
    match random.below(6) {
        0 => random.below(10) as u16,
        1 => random.word(),
        _ => 0,
    }
}

fn somewhere(random: &mut Random, configuration: &Configuration) -> (u16, u16) {
    if random.percent(5) {
        return (random.word(), random.word());
    }
    let engine = random.below(configuration.engines.len() + 1);
    let size = configuration.engines.get(engine).map_or(4, |each| measure::size(&each.process));
    (engine as u16, random.below(size + 2) as u16)
}

/// The step with one number changed.
pub fn changed(random: &mut Random, configuration: &Configuration, step: Numbers) -> Numbers {
    let mut step = step;
    let (engine, position) = somewhere(random, configuration);
    match random.below(5) {
        0 => step.engine = engine,
        1 => step.position = position,
        2 => step.second_engine = engine,
        3 => step.second_position = position,
        _ => step.branch = branch(random),
    }
    step
}

/// How many words of output to lend: mostly the whole room, sometimes just enough, one less
/// than enough, or anything. `length` is that of the result, or of the configuration.
pub fn room(random: &mut Random, limit: usize, length: usize) -> usize {
    match random.below(10) {
        0 => length,
        1 => length.saturating_sub(1),
        2 => random.below(length + 2),
        3 => limit + random.below(3),
        _ => limit,
    }
}
