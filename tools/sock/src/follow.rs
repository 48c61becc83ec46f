//! Labels over a step. A label stays with its process as a run goes on: with its copies, with the waiter that a solicit becomes and the
//! inst or throw after that, with the executor of a request and its notice. The step itself is the archive's; here its rule is redone
//! on the tree only to carry the labels, and what comes out is kept only if its words are those that the archive wrote.

use crate::library::Move;
use crate::tree::{places, Configuration, Entry, Key, Kind, Mark, Process};

/// The configuration after an accepted step, with the labels of the one before. `after` is what the archive wrote, read.
pub fn follow(before: &Configuration, step: Move, after: &Configuration) -> Configuration {
    let mut labelled = after.clone();
    let (first, second) = (usize::from(step.engine), usize::from(step.second));
    let issued = after.issued;
    for (index, engine) in labelled.engines.iter_mut().enumerate() {
        let Some(old) = before.engines.get(index) else { continue };
        let words = engine.process.words();
        if old.process.words() == words {
            engine.process = old.process.clone();
            continue;
        }
        let candidates = match index {
            index if index == first => moved(&old.process, step, issued),
            index if index == second => received(before, &old.process, step, issued),
            _ => Vec::new(),
        };
        if let Some(found) = candidates.into_iter().find(|candidate| candidate.words() == words) {
            engine.process = found;
        }
    }
    labelled
}

/// Which of the ways that the process which moves alone has was taken: 0 if the condition of an if or a while held, else 1.
pub fn way(before: &Configuration, step: Move, after: &Configuration) -> Option<usize> {
    let index = usize::from(step.engine);
    let (old, new) = (before.engines.get(index)?, after.engines.get(index)?);
    let words = new.process.words();
    let ways = moved(&old.process, step, after.issued);
    let mut taken = (0..ways.len()).filter(|way| ways[*way].words() == words);
    // Two ways that come to the same words cannot be told apart.
    taken.next().filter(|_| taken.next().is_none())
}

/// Where the label stands among what is enabled in an engine: position and branch, one pair for each process that has it.
pub fn find(configuration: &Configuration, engine: usize, label: &str) -> Vec<(u16, u16)> {
    let has = |process: &Process| process.labels.iter().any(|other| &**other == label);
    let mut found = Vec::new();
    let Some(engine) = configuration.engines.get(engine) else { return found };
    for place in places(&engine.process).into_iter().filter(|place| place.enabled) {
        let position = place.position as u16;
        if has(place.process) {
            found.push((position, 0));
        }
        if place.process.kind == Kind::Choice {
            let receivers = place.process.parts.iter().step_by(2).enumerate();
            found.extend(
                receivers
                    .filter(|(_, receiver)| has(receiver))
                    .map(|(index, _)| (position, index as u16 + 1)),
            );
        }
    }
    found
}

/// The way to the enabled process at a position: which part to take at each level.
fn path(root: &Process, position: u16) -> Option<Vec<usize>> {
    let all = places(root);
    let mut at =
        all.iter().position(|place| place.enabled && place.position == usize::from(position))?;
    let mut path = Vec::new();
    while let (crate::tree::Role::Part(index), Some(holder)) = (all[at].role, all[at].holder) {
        path.push(index);
        at = holder;
    }
    path.reverse();
    Some(path)
}

fn at<'a>(root: &'a Process, path: &[usize]) -> &'a Process {
    path.iter().fold(root, |process, index| &process.parts[*index])
}

/// The root with another process at the end of the path; nil goes from before seq and beside par.
fn plug(root: &Process, path: &[usize], new: Process) -> Process {
    match path.split_first() {
        None => new,
        Some((index, rest)) => {
            let inner = plug(&root.parts[*index], rest, new);
            rebuilt(root, with_part(root, *index, inner))
        }
    }
}

/// The parts of a process with another one in one place.
fn with_part(process: &Process, index: usize, new: Process) -> Vec<Process> {
    let mut parts: Vec<Process> = process.parts[..index].to_vec();
    parts.push(new);
    parts.extend_from_slice(&process.parts[index + 1..]);
    parts
}

/// A process with other parts, without nil before seq and beside par.
fn rebuilt(process: &Process, mut parts: Vec<Process>) -> Process {
    match process.kind {
        Kind::Seq | Kind::Par if parts[0].is_nil() => parts.remove(1),
        Kind::Par if parts[1].is_nil() => parts.remove(0),
        _ => process.with_parts(parts),
    }
}

fn both(kind: Kind, first: Process, second: Process) -> Process {
    rebuilt(&Process::new(kind), vec![first, second])
}

/// What the engine of the process that moves may look like afterwards.
fn moved(root: &Process, step: Move, issued: u16) -> Vec<Process> {
    let Some(path) = path(root, step.position) else { return Vec::new() };
    let acting = at(root, &path);
    let nil = Process::default();
    let results = match acting.kind {
        Kind::If => acting.parts.clone(),
        Kind::While => vec![both(Kind::Seq, acting.parts[0].clone(), acting.clone()), nil],
        Kind::Inst => return vec![installed(root, &path, &acting.list, nil)],
        Kind::Comp => return vec![compensated(root, &path, acting.name)],
        Kind::Scope => return vec![ended(root, &path)],
        Kind::Throw => return vec![climbed(root, &path, acting.name).0],
        Kind::Solicit => vec![Process {
            kind: Kind::Waiter,
            y: Vec::new(),
            z: 0,
            engine: step.second as u8,
            serial: issued,
            ..acting.clone()
        }],
        _ => vec![nil],
    };
    results.into_iter().map(|result| plug(root, &path, result)).collect()
}

/// What the engine of the process that receives may look like afterwards.
fn received(before: &Configuration, root: &Process, step: Move, issued: u16) -> Vec<Process> {
    let Some(path) = path(root, step.second_position) else { return Vec::new() };
    let acting = at(root, &path);
    let branch = usize::from(step.branch).wrapping_sub(1);
    let nil = Process::default();
    let result = match acting.kind {
        Kind::Choice => {
            let (Some(receiver), Some(then)) =
                (acting.parts.get(2 * branch), acting.parts.get(2 * branch + 1))
            else {
                return Vec::new();
            };
            let mut taken = taken(receiver, step.engine, issued);
            taken.labels.extend(acting.labels.iter().cloned());
            both(Kind::Seq, taken, then.clone())
        }
        Kind::Waiter => {
            let inst = Process {
                list: acting.list.clone(),
                labels: acting.labels.clone(),
                ..Process::new(Kind::Inst)
            };
            let fault = fault_of(before, step);
            let throw =
                Process { name: fault, labels: acting.labels.clone(), ..Process::new(Kind::Throw) };
            return [inst, throw, nil]
                .into_iter()
                .map(|result| plug(root, &path, result))
                .collect();
        }
        _ => taken(acting, step.engine, issued),
    };
    vec![plug(root, &path, result)]
}

/// What a one-way or a request becomes.
fn taken(receiver: &Process, client: u16, serial: u16) -> Process {
    if receiver.kind == Kind::OneWay {
        return Process::default();
    }
    Process {
        kind: Kind::Executor,
        x: Vec::new(),
        engine: client as u8,
        serial,
        ..receiver.clone()
    }
}

/// The fault of the notice that moves.
fn fault_of(before: &Configuration, step: Move) -> u8 {
    let engine = before.engines.get(usize::from(step.engine));
    engine
        .and_then(|engine| {
            path(&engine.process, step.position).map(|path| at(&engine.process, &path).fault)
        })
        .unwrap_or(0)
}

/// How much of the path leads to the nearest scope around its end.
fn nearest(root: &Process, path: &[usize]) -> Option<usize> {
    (0..path.len()).rev().find(|count| at(root, &path[..*count]).kind == Kind::Scope)
}

/// The nearest list updated, and another process at the path's end.
fn installed(root: &Process, path: &[usize], list: &[Entry], new: Process) -> Process {
    changed(root, path, new, |old| update(old, list))
}

/// Another process at the path's end, and the list of the nearest scope around it changed.
fn changed(
    root: &Process,
    path: &[usize],
    new: Process,
    change: impl FnOnce(&mut Vec<Entry>),
) -> Process {
    let Some(count) = nearest(root, path) else { return plug(root, path, new) };
    let scope = at(root, &path[..count]);
    let mut scope =
        Process { parts: vec![plug(&scope.parts[0], &path[count + 1..], new)], ..scope.clone() };
    change(&mut scope.list);
    plug(root, &path[..count], scope)
}

fn compensated(root: &Process, path: &[usize], name: u8) -> Process {
    let key = Key::Scope(name);
    let entry = nearest(root, path)
        .and_then(|count| at(root, &path[..count]).list.iter().find(|entry| entry.key == key));
    let process = entry.map(|entry| entry.process.clone()).unwrap_or_default();
    changed(root, path, process, |list| list.retain(|entry| entry.key != key))
}

/// A scope with nil body: it runs what its mark asks for, or ends.
fn ended(root: &Process, path: &[usize]) -> Process {
    let scope = at(root, path);
    let own = Key::Scope(scope.name);
    let run = match scope.mark {
        Mark::Fault(fault) => Some(Key::Fault(fault)),
        Mark::OwnName => Some(own),
        Mark::None => None,
    };
    let entry = |key: Key| {
        scope
            .list
            .iter()
            .find(|entry| entry.key == key)
            .map(|entry| entry.process.clone())
            .unwrap_or_default()
    };
    if let Some(key) = run {
        let list = scope.list.iter().filter(|entry| entry.key != key).cloned().collect();
        let scope = Process { mark: Mark::None, list, parts: vec![entry(key)], ..scope.clone() };
        return plug(root, path, scope);
    }
    if scope.zombie {
        return plug(root, path, Process::default());
    }
    installed(root, path, &[Entry { key: own, process: entry(own) }], Process::default())
}

/// Each key's entry replaced; cH in the new process is the old one.
fn update(list: &mut Vec<Entry>, new: &[Entry]) {
    for Entry { key, process } in new {
        let old = list
            .iter()
            .find(|entry| entry.key == *key)
            .map(|entry| entry.process.clone())
            .unwrap_or_default();
        let process = substituted(process, &old);
        list.retain(|entry| entry.key != *key);
        if !(matches!(key, Key::Scope(_)) && process.is_nil()) {
            list.push(Entry { key: *key, process });
        }
    }
    list.sort_by_key(|entry| entry.key);
}

/// The process with the old handler for cH; lists inside keep theirs.
fn substituted(process: &Process, old: &Process) -> Process {
    if process.kind == Kind::Ch {
        return old.clone();
    }
    let parts = process.parts.iter().map(|part| substituted(part, old)).collect();
    rebuilt(process, parts)
}

/// A throw at the path's end, and whether a scope has stopped it.
fn climbed(root: &Process, path: &[usize], fault: u8) -> (Process, bool) {
    let Some((index, rest)) = path.split_first() else { return (Process::default(), false) };
    let (inner, stopped) = climbed(&root.parts[*index], rest, fault);
    let mut parts = with_part(root, *index, inner);
    if stopped {
        return (rebuilt(root, parts), true);
    }
    match root.kind {
        Kind::Seq => (parts.swap_remove(0), false),
        Kind::Par => {
            parts[1 - index] = killed(&root.parts[1 - index], fault);
            (rebuilt(root, parts), false)
        }
        Kind::Executor => (both(Kind::Par, parts.swap_remove(0), notice(root, fault)), false),
        _ => met(root.with_parts(parts), fault),
    }
}

/// A scope that a fault comes to.
fn met(mut scope: Process, fault: u8) -> (Process, bool) {
    if scope.list.iter().any(|entry| entry.key == Key::Fault(fault)) {
        scope.mark = Mark::Fault(fault);
        return (scope, true);
    }
    if scope.zombie {
        return (scope, true);
    }
    scope.zombie = true;
    scope.mark = Mark::None;
    (scope, false)
}

fn notice(executor: &Process, fault: u8) -> Process {
    Process { kind: Kind::Notice, y: Vec::new(), parts: Vec::new(), fault, ..executor.clone() }
}

fn killed(process: &Process, fault: u8) -> Process {
    let inner = |index: usize| killed(&process.parts[index], fault);
    match process.kind {
        Kind::Scope if process.zombie => process.clone(),
        Kind::Scope => {
            Process { zombie: true, mark: Mark::OwnName, parts: vec![inner(0)], ..process.clone() }
        }
        Kind::Par => rebuilt(process, vec![inner(0), inner(1)]),
        Kind::Seq => inner(0),
        Kind::Executor => both(Kind::Par, inner(0), notice(process, fault)),
        Kind::Waiter => Process { dead: true, ..process.clone() },
        Kind::Notice => process.clone(),
        _ => Process::default(),
    }
}
