//! Random readable configurations that are not fresh and mostly not reachable: every kind,
//! marks on live scopes and zombies, ends that fit each other and ends that do not.

use crate::build;
use crate::configuration::{Configuration, Engine};
use crate::generate::code::{values, Alphabet, Maker};
use crate::generate::random::Random;
use crate::generate::start::engine_count;
use crate::process::{Executor, Key, List, Mark, Notice, Part, Process, Waiter};
use std::rc::Rc;

/// A request that ends of the configuration may belong to.
#[derive(Clone, Copy, Debug)]
struct Call {
    serial: u16,
    operation: u8,
    client: u8,
    server: u8,
}

/// A readable configuration with ends, marks and lists.
pub fn readable(random: &mut Random) -> Configuration {
    let count = engine_count(random);
    let alphabet = Alphabet::random(random, count);
    let issued = issued(random);
    let calls = calls(random, &alphabet, issued);
    let mut engines = Vec::new();
    for number in 0..count {
        let size = [4, 12, 30][random.below(3)];
        let code = Maker { random, alphabet: &alphabet, left: size };
        let mut maker = RunningMaker { code, calls: &calls, issued, engine: number };
        let process = maker.root();
        engines.push(Engine { values: values(random), process });
    }
    Configuration { issued, engines }
}

fn issued(random: &mut Random) -> u16 {
    match random.below(8) {
        0 => u16::MAX,
        1 => u16::MAX - 1,
        2 => random.word(),
        3 => 0,
        _ => random.between(1, 6) as u16,
    }
}

fn calls(random: &mut Random, alphabet: &Alphabet, issued: u16) -> Vec<Call> {
    let count = if issued == 0 { 0 } else { random.between(1, 6) };
    let mut calls = Vec::new();
    for _ in 0..count {
        calls.push(Call {
            serial: 1 + random.below(usize::from(issued)) as u16,
            operation: alphabet.operation(random),
            client: random.small(alphabet.engines),
            server: random.small(alphabet.engines),
        });
    }
    calls
}

struct RunningMaker<'a> {
    code: Maker<'a>,
    calls: &'a [Call],
    issued: u16,
    engine: u8,
}

impl RunningMaker<'_> {
    fn root(&mut self) -> Part {
        if self.code.random.percent(5) {
            return build::nil();
        }
        self.scope(8)
    }

    fn part(&mut self, depth: usize) -> Part {
        if self.code.random.percent(15) {
            return build::nil();
        }
        self.solid(depth)
    }

    /// An enabled process that is not nil.
    fn solid(&mut self, depth: usize) -> Part {
        if depth <= 2 {
            return self.code.solid(2, false);
        }
        let below = depth - 1;
        let ends = if self.issued == 0 { 0 } else { 6 };
        match self.code.random.weighted(&[6, 14, 10, ends, ends, ends, 12]) {
            0 => build::seq(self.solid(below), self.code.part(below, false)),
            1 => build::par(self.solid(below), self.solid(below)),
            2 => self.scope(below),
            3 => self.executor(below),
            4 => self.waiter(below),
            5 => self.notice(),
            _ => self.code.solid(below, false),
        }
    }

    fn scope(&mut self, below: usize) -> Part {
        let name = self.code.alphabet.name(self.code.random);
        let zombie = self.code.random.percent(35);
        let list = self.scope_list(below);
        let mark = self.mark(&list, zombie);
        let body = if below > 2 { self.part(below - 1) } else { build::nil() };
        build::scope_with(name, mark, zombie, list, body)
    }

    /// A scope's own list: no cH outside nested lists, no scope key with nil.
    fn scope_list(&mut self, below: usize) -> List {
        let mut list = List::new();
        for _ in 0..self.code.random.weighted(&[3, 4, 3, 1]) {
            let key = self.code.alphabet.key(self.code.random);
            let process = match key {
                Key::Fault(_) => self.code.part(below, false),
                Key::Scope(_) => self.code.solid(below, false),
            };
            list.insert(key, process);
        }
        list
    }

    fn mark(&mut self, list: &List, zombie: bool) -> Mark {
        let faults = list.keys().filter_map(|key| match key {
            Key::Fault(fault) => Some(*fault),
            Key::Scope(_) => None,
        });
        let faults: Vec<u8> = faults.collect();
        match self.code.random.below(4) {
            0 => self.code.random.pick(&faults).map_or(Mark::None, |fault| Mark::Fault(*fault)),
            1 if zombie => Mark::OwnName,
            _ => Mark::None,
        }
    }

    /// A call that this engine is an end of, or one made up.
    fn call(&mut self, is_end: impl Fn(&Call, u8) -> bool) -> Call {
        let own: Vec<Call> =
            self.calls.iter().filter(|call| is_end(call, self.engine)).copied().collect();
        let made_up = Call {
            serial: 1 + self.code.random.below(usize::from(self.issued)) as u16,
            operation: self.code.alphabet.operation(self.code.random),
            client: self.code.random.small(self.code.alphabet.engines),
            server: self.code.random.small(self.code.alphabet.engines),
        };
        match self.code.random.percent(90) {
            true => self.code.random.pick(&own).copied().unwrap_or(made_up),
            false => made_up,
        }
    }

    fn executor(&mut self, below: usize) -> Part {
        let call = self.call(|call, engine| call.server == engine);
        let (_, reply) = self.code.alphabet.counts(self.code.random, call.operation);
        let y = self.code.alphabet.sent(self.code.random, reply);
        let body = match self.code.random.percent(40) {
            true => build::nil(),
            false => self.part(below),
        };
        let Call { serial, operation, client, .. } = call;
        Rc::new(Process::Executor(Executor { operation, y, client, serial }, body))
    }

    fn waiter(&mut self, below: usize) -> Part {
        let call = self.call(|call, engine| call.client == engine);
        let (_, reply) = self.code.alphabet.counts(self.code.random, call.operation);
        let x = self.code.alphabet.receiving(self.code.random, reply);
        let dead = self.code.random.percent(40);
        let list = self.code.list(below);
        let Call { serial, operation, server, .. } = call;
        Rc::new(Process::Waiter(Waiter { operation, x, dead, server, serial, list }))
    }

    fn notice(&mut self) -> Part {
        let call = self.call(|call, engine| call.server == engine);
        let fault = self.code.alphabet.name(self.code.random);
        let Call { serial, operation, client, .. } = call;
        Rc::new(Process::Notice(Notice { operation, fault, client, serial }))
    }
}

/// A configuration of a run with other serials issued, and ends renamed now and then.
pub fn renumbered(random: &mut Random, configuration: &Configuration) -> Configuration {
    let mut changed = configuration.clone();
    let room = u16::MAX - changed.issued;
    changed.issued = match random.below(3) {
        0 => u16::MAX,
        1 => u16::MAX - u16::from(room > 0),
        _ => changed.issued + random.below(usize::from(room) + 1) as u16,
    };
    let serial = 1 + random.below(usize::from(changed.issued)) as u16;
    for engine in &mut changed.engines {
        engine.process = with_serial(random, &engine.process, serial);
    }
    changed
}

/// The process with the serial in some of its enabled ends.
fn with_serial(random: &mut Random, process: &Part, serial: u16) -> Part {
    let here = random.percent(30);
    match &**process {
        Process::Seq(first, second) => {
            build::seq(with_serial(random, first, serial), second.clone())
        }
        Process::Par(left, right) => {
            build::par(with_serial(random, left, serial), with_serial(random, right, serial))
        }
        Process::Scope(scope, body) => {
            Rc::new(Process::Scope(scope.clone(), with_serial(random, body, serial)))
        }
        Process::Executor(executor, body) => {
            let mut executor = executor.clone();
            if here {
                executor.serial = serial;
            }
            Rc::new(Process::Executor(executor, with_serial(random, body, serial)))
        }
        Process::Waiter(waiter) if here => {
            Rc::new(Process::Waiter(Waiter { serial, ..waiter.clone() }))
        }
        Process::Notice(notice) if here => {
            Rc::new(Process::Notice(Notice { serial, ..notice.clone() }))
        }
        _ => process.clone(),
    }
}
