//! Random code: processes that are not running, of kinds 0 to 15. Few operations and names,
//! and variables that hold real engine numbers, so that processes meet often.

use crate::build;
use crate::expression::{Expression, Operator, Values};
use crate::generate::random::Random;
use crate::process::{Key, List, Part};
use crate::variables::{Variables, MOST};
use std::rc::Rc;

/// Variables from here on hold the engines' numbers at the start.
pub const ENGINE_NUMBERS: u8 = 8;
/// Variables from here on hold them with a bit above the 16th: near misses.
pub const NEAR_MISSES: u8 = 16;

/// What one configuration's processes are made of.
#[derive(Clone, Debug)]
pub struct Alphabet {
    /// First operation and name in use, so that high bits occur too.
    pub base: u8,
    pub operations: u8,
    pub names: u8,
    pub engines: u8,
    /// Variables of an operation's message and of its reply, by the operation's last two bits.
    pub counts: [(usize, usize); 4],
}

impl Alphabet {
    pub fn random(random: &mut Random, engines: u8) -> Alphabet {
        Alphabet {
            base: if random.percent(50) { 0 } else { random.small(64) },
            operations: 1 + random.small(3),
            names: 1 + random.small(3),
            engines,
            counts: [(); 4].map(|_| (count(random), count(random))),
        }
    }

    pub fn operation(&self, random: &mut Random) -> u8 {
        if random.percent(2) {
            return random.small(64);
        }
        self.base.wrapping_add(random.small(self.operations)) & 63
    }

    pub fn name(&self, random: &mut Random) -> u8 {
        if random.percent(2) {
            return random.small(64);
        }
        self.base.wrapping_add(random.small(self.names)) & 63
    }

    pub fn key(&self, random: &mut Random) -> Key {
        let name = self.name(random);
        if random.percent(50) {
            Key::Fault(name)
        } else {
            Key::Scope(name)
        }
    }

    /// A variable for data, seldom one that holds an engine's number.
    pub fn variable(&self, random: &mut Random) -> u8 {
        match random.below(20) {
            0 => random.small(32),
            1 => 31,
            _ => random.small(6),
        }
    }

    /// How many variables a message with this operation has, and its reply: mostly the usual
    /// counts, so that processes meet.
    pub fn counts(&self, random: &mut Random, operation: u8) -> (usize, usize) {
        let (message, reply) = self.counts[usize::from(operation & 3)];
        match random.below(14) {
            0 => (random.between(1, MOST), reply),
            1 => (message, random.between(1, MOST)),
            _ => (message, reply),
        }
    }

    /// Variables that are sent; one may stand there twice.
    pub fn sent(&self, random: &mut Random, count: usize) -> Variables {
        Variables((0..count).map(|_| self.variable(random)).collect())
    }

    /// Variables that receive, all different.
    pub fn receiving(&self, random: &mut Random, count: usize) -> Variables {
        let mut variables = Vec::new();
        while variables.len() < count {
            let next = self.variable(random);
            if !variables.contains(&next) {
                variables.push(next);
            }
        }
        Variables(variables)
    }

    /// A variable that mostly holds the number of an engine in the configuration.
    pub fn address(&self, random: &mut Random) -> u8 {
        match random.below(20) {
            0 => random.small(32),
            1 => NEAR_MISSES + random.small(self.engines),
            _ => ENGINE_NUMBERS + random.small(self.engines),
        }
    }
}

/// 1 as often as all other counts.
fn count(random: &mut Random) -> usize {
    1 + random.weighted(&[3, 1, 1, 1])
}

/// Values as the alphabet's addresses need them, the others small or at the edges.
pub fn values(random: &mut Random) -> Values {
    let mut values = [0; 32];
    for value in &mut values {
        *value = data(random);
    }
    for engine in 0..8u8 {
        values[usize::from(ENGINE_NUMBERS + engine)] = u32::from(engine);
        values[usize::from(NEAR_MISSES + engine)] = 0x1_0000 + u32::from(engine);
    }
    values
}

pub fn data(random: &mut Random) -> u32 {
    match random.below(8) {
        0 => u32::MAX,
        1 => 0x8000_0000,
        2 => random.bits() as u32,
        _ => random.below(3) as u32,
    }
}

/// Makes code within a depth and, roughly, a number of processes.
pub struct Maker<'a> {
    pub random: &'a mut Random,
    pub alphabet: &'a Alphabet,
    /// Processes that may still be made before only leaves are.
    pub left: usize,
}

impl Maker<'_> {
    /// Any code; `handler` allows cH.
    pub fn part(&mut self, depth: usize, handler: bool) -> Part {
        if self.random.percent(15) {
            return build::nil();
        }
        self.solid(depth, handler)
    }

    /// Code that is not nil.
    pub fn solid(&mut self, depth: usize, handler: bool) -> Part {
        self.left = self.left.saturating_sub(1);
        if self.left == 0 || depth <= 2 {
            return self.leaf(handler);
        }
        let below = depth - 1;
        match self.random.weighted(&[14, 12, 4, 3, 4, 5, 5, 9, 9, 30]) {
            0 => build::seq(self.solid(below, handler), self.part(below, handler)),
            1 => build::par(self.solid(below, handler), self.solid(below, handler)),
            2 => {
                let condition = self.expression(below);
                build::if_else(condition, self.part(below, handler), self.part(below, handler))
            }
            3 => build::while_true(self.condition(below), self.part(below, handler)),
            4 => self.choice(below, handler),
            5 => self.request(below, handler),
            6 => self.solicit(below),
            7 => build::scope(self.alphabet.name(self.random), self.scope_body(below, handler)),
            8 => build::inst(self.list(below)),
            _ => self.leaf(handler),
        }
    }

    fn leaf(&mut self, handler: bool) -> Part {
        let handlers = if handler { 12 } else { 0 };
        match self.random.weighted(&[5, 6, 6, 5, 5, 2, 4, 3, handlers]) {
            0 => {
                let x = self.alphabet.variable(self.random);
                build::assign(x, self.operand(0))
            }
            1 => self.one_way(),
            2 => self.notify(),
            3 => self.request(1, handler),
            4 => self.solicit(1),
            5 => build::inst(List::new()),
            6 => build::throw(self.alphabet.name(self.random)),
            7 => build::comp(self.alphabet.name(self.random)),
            _ => build::current_handler(),
        }
    }

    fn one_way(&mut self) -> Part {
        let operation = self.alphabet.operation(self.random);
        let (message, _) = self.alphabet.counts(self.random, operation);
        build::one_way(operation, self.alphabet.receiving(self.random, message))
    }

    fn notify(&mut self) -> Part {
        let operation = self.alphabet.operation(self.random);
        let (message, _) = self.alphabet.counts(self.random, operation);
        let y = self.alphabet.sent(self.random, message);
        build::notify(operation, y, self.alphabet.address(self.random))
    }

    fn request(&mut self, below: usize, handler: bool) -> Part {
        let operation = self.alphabet.operation(self.random);
        let (message, reply) = self.alphabet.counts(self.random, operation);
        let x = self.alphabet.receiving(self.random, message);
        let y = self.alphabet.sent(self.random, reply);
        let body = if below > 1 { self.part(below, handler) } else { build::nil() };
        build::request(operation, x, y, body)
    }

    fn solicit(&mut self, below: usize) -> Part {
        let operation = self.alphabet.operation(self.random);
        let (message, reply) = self.alphabet.counts(self.random, operation);
        let y = self.alphabet.sent(self.random, message);
        let z = self.alphabet.address(self.random);
        let x = self.alphabet.receiving(self.random, reply);
        let list = if below > 1 { self.list(below) } else { List::new() };
        build::solicit(operation, y, z, x, list)
    }

    fn choice(&mut self, below: usize, handler: bool) -> Part {
        let count = if self.random.percent(10) { 8 } else { self.random.between(1, 3) };
        let mut branches = Vec::new();
        for _ in 0..count {
            let receiver = match self.random.percent(50) {
                true => self.one_way(),
                false => self.request(below.saturating_sub(1), handler),
            };
            branches.push((receiver, self.part(below, handler)));
        }
        build::choice(branches)
    }

    /// Often begins with an inst, so that there are handlers when faults come.
    fn scope_body(&mut self, below: usize, handler: bool) -> Part {
        if below > 3 && self.random.percent(50) {
            let install = build::inst(self.list(below - 2));
            return build::seq(install, self.part(below - 1, handler));
        }
        self.part(below, handler)
    }

    /// A list of kinds 10, 12 and 17: cH may stand in it, scope keys may have nil.
    pub fn list(&mut self, below: usize) -> List {
        let count = self.random.weighted(&[2, 6, 4, 1]);
        let mut list = List::new();
        for _ in 0..count {
            let key = self.alphabet.key(self.random);
            list.insert(key, self.part(below, true));
        }
        list
    }

    /// True more often than not, so that loops run.
    fn condition(&mut self, below: usize) -> Rc<Expression> {
        match self.random.percent(40) {
            true => build::constant(1),
            false => self.expression(below),
        }
    }

    pub fn expression(&mut self, depth: usize) -> Rc<Expression> {
        let nesting = self.random.below(3).min(depth.saturating_sub(1));
        self.operand(nesting)
    }

    fn operand(&mut self, nesting: usize) -> Rc<Expression> {
        if nesting == 0 || self.random.percent(20) {
            return match self.random.percent(50) {
                true => build::constant(data(self.random)),
                false => build::variable(self.alphabet.variable(self.random)),
            };
        }
        let operator = match self.random.below(6) {
            0 => Operator::Sum,
            1 => Operator::Difference,
            2 => Operator::Less,
            3 => Operator::Equal,
            4 => Operator::DecimalSum,
            _ => Operator::DecimalDifference,
        };
        build::binary(operator, self.operand(nesting - 1), self.operand(nesting - 1))
    }
}
