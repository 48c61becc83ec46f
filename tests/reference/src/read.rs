//! From words to trees: the layout and the limits. The other conditions are in `readable`.

use crate::configuration::{Configuration, Engine};
use crate::expression::{Expression, Operator, Values};
use crate::fields::Fields;
use crate::limits::Limits;
use crate::process::{Branch, Executor, Key, List, Mark, Notice, Part, Process, Scope, Waiter};
use crate::variables::{Variables, MOST};
use std::rc::Rc;

/// The configuration that the words lay out, all of them; None if there is none.
pub fn layout(limits: &Limits, words: &[u16]) -> Option<Configuration> {
    if words.len() > limits.words {
        return None;
    }
    let mut reader = Reader { words, at: 0 };
    let count = reader.word()?;
    if !(1..=8).contains(&count) {
        return None;
    }
    let issued = reader.word()?;
    let mut engines = Vec::new();
    for _ in 0..count {
        let values = reader.values()?;
        let process = reader.process(limits.depth)?;
        engines.push(Engine { values, process });
    }
    (reader.at == words.len()).then_some(Configuration { issued, engines })
}

struct Reader<'a> {
    words: &'a [u16],
    at: usize,
}

impl Reader<'_> {
    fn word(&mut self) -> Option<u16> {
        let word = *self.words.get(self.at)?;
        self.at += 1;
        Some(word)
    }

    /// Two words, high first.
    fn value(&mut self) -> Option<u32> {
        let high = self.word()?;
        let low = self.word()?;
        Some(u32::from(high) << 16 | u32::from(low))
    }

    fn values(&mut self) -> Option<Values> {
        let mut values = [0; 32];
        for value in &mut values {
            *value = self.value()?;
        }
        Some(values)
    }

    /// A process with `depth` levels left, itself included: no recursion goes past the limit.
    fn process(&mut self, depth: usize) -> Option<Part> {
        let below = depth.checked_sub(1)?;
        let mut head = Fields::of(self.word()?);
        let process = match head.take(5) {
            0 => Process::Nil,
            1 => Process::Assign(head.small(5), self.expression(below)?),
            2 => Process::Seq(self.process(below)?, self.process(below)?),
            3 => Process::Par(self.process(below)?, self.process(below)?),
            4 => Process::If(self.expression(below)?, self.process(below)?, self.process(below)?),
            5 => Process::While(self.expression(below)?, self.process(below)?),
            6 => self.choice(head.take(11), below)?,
            7 => self.one_way(head.small(6), head.small(5))?,
            8 => self.request(head.small(6), head.small(5), below)?,
            9 => self.notify(head.small(6), head.small(5))?,
            10 => self.solicit(head.small(6), head.small(5), below)?,
            11 => self.scope(head.small(6), head.small(2), head.small(1), below)?,
            12 => Process::Inst(self.list(below)?),
            13 => Process::Throw(head.small(6)),
            14 => Process::Comp(head.small(6)),
            15 => Process::CurrentHandler,
            16 => self.executor(head.small(6), head.small(5), below)?,
            17 => self.waiter(head.small(6), head.small(5), below)?,
            18 => self.notice(head.small(6))?,
            _ => return None,
        };
        head.end()?;
        Some(Rc::new(process))
    }

    fn choice(&mut self, count: u16, below: usize) -> Option<Process> {
        if !(1..=8).contains(&count) {
            return None;
        }
        let mut branches = Vec::new();
        for _ in 0..count {
            let receiver = self.process(below)?;
            if !matches!(receiver.kind(), 7 | 8) {
                return None;
            }
            let then = self.process(below)?;
            branches.push(Branch { receiver, then });
        }
        Some(Process::Choice(branches))
    }

    /// The variables of a message whose first one was read: a count of 1 to 4, as a plain number,
    /// and the further ones.
    fn variables(&mut self, first: u8) -> Option<Variables> {
        let count = usize::from(self.word()?);
        if !(1..=MOST).contains(&count) {
            return None;
        }
        let mut variables = vec![first];
        for _ in 1..count {
            let mut further = Fields::of(self.word()?);
            variables.push(further.small(5));
            further.end()?;
        }
        Some(Variables(variables))
    }

    fn one_way(&mut self, operation: u8, x: u8) -> Option<Process> {
        let x = self.variables(x)?;
        Some(Process::OneWay { operation, x })
    }

    fn request(&mut self, operation: u8, x: u8, below: usize) -> Option<Process> {
        let mut fixed = Fields::of(self.word()?);
        let y = fixed.small(5);
        fixed.end()?;
        let x = self.variables(x)?;
        let y = self.variables(y)?;
        let body = self.process(below)?;
        Some(Process::Request { operation, x, y, body })
    }

    fn notify(&mut self, operation: u8, y: u8) -> Option<Process> {
        let mut fixed = Fields::of(self.word()?);
        let z = fixed.small(5);
        fixed.end()?;
        let y = self.variables(y)?;
        Some(Process::Notify { operation, y, z })
    }

    fn solicit(&mut self, operation: u8, y: u8, below: usize) -> Option<Process> {
        let mut fixed = Fields::of(self.word()?);
        let (z, x) = (fixed.small(5), fixed.small(5));
        fixed.end()?;
        let y = self.variables(y)?;
        let x = self.variables(x)?;
        let list = self.list(below)?;
        Some(Process::Solicit { operation, y, z, x, list })
    }

    fn scope(&mut self, name: u8, mark: u8, zombie: u8, below: usize) -> Option<Process> {
        let mut fixed = Fields::of(self.word()?);
        let fault = fixed.small(6);
        fixed.end()?;
        let mark = match (mark, fault) {
            (0, 0) => Mark::None,
            (1, fault) => Mark::Fault(fault),
            (2, 0) => Mark::OwnName,
            _ => return None,
        };
        let list = self.list(below)?;
        let body = self.process(below)?;
        Some(Process::Scope(Scope { name, mark, zombie: zombie == 1, list }, body))
    }

    fn executor(&mut self, operation: u8, y: u8, below: usize) -> Option<Process> {
        let mut fixed = Fields::of(self.word()?);
        let client = fixed.small(3);
        fixed.end()?;
        let serial = self.word()?;
        let y = self.variables(y)?;
        let body = self.process(below)?;
        Some(Process::Executor(Executor { operation, y, client, serial }, body))
    }

    fn waiter(&mut self, operation: u8, x: u8, below: usize) -> Option<Process> {
        let mut fixed = Fields::of(self.word()?);
        let (dead, server) = (fixed.small(1) == 1, fixed.small(3));
        fixed.end()?;
        let serial = self.word()?;
        let x = self.variables(x)?;
        let list = self.list(below)?;
        Some(Process::Waiter(Waiter { operation, x, dead, server, serial, list }))
    }

    fn notice(&mut self, operation: u8) -> Option<Process> {
        let mut fixed = Fields::of(self.word()?);
        let (fault, client) = (fixed.small(6), fixed.small(3));
        fixed.end()?;
        let serial = self.word()?;
        Some(Process::Notice(Notice { operation, fault, client, serial }))
    }

    /// Entries with strictly rising keys, each one level below the list's holder.
    fn list(&mut self, depth: usize) -> Option<List> {
        let count = self.word()?;
        let mut list = List::new();
        let mut last = None;
        for _ in 0..count {
            let key = self.key()?;
            if last.is_some_and(|last| last >= key) {
                return None;
            }
            last = Some(key);
            list.insert(key, self.process(depth)?);
        }
        Some(list)
    }

    fn key(&mut self) -> Option<Key> {
        let mut fields = Fields::of(self.word()?);
        let (is_scope, name) = (fields.small(1) == 1, fields.small(6));
        fields.end()?;
        Some(if is_scope { Key::Scope(name) } else { Key::Fault(name) })
    }

    fn expression(&mut self, depth: usize) -> Option<Rc<Expression>> {
        let below = depth.checked_sub(1)?;
        let mut head = Fields::of(self.word()?);
        let expression = match head.take(3) {
            0 => Expression::Constant(self.value()?),
            1 => Expression::Variable(head.small(5)),
            2 => self.binary(Operator::Sum, below)?,
            3 => self.binary(Operator::Difference, below)?,
            4 => self.binary(Operator::Less, below)?,
            5 => self.binary(Operator::Equal, below)?,
            6 => self.binary(Operator::DecimalSum, below)?,
            _ => self.binary(Operator::DecimalDifference, below)?,
        };
        head.end()?;
        Some(Rc::new(expression))
    }

    fn binary(&mut self, operator: Operator, below: usize) -> Option<Expression> {
        let left = self.expression(below)?;
        let right = self.expression(below)?;
        Some(Expression::Binary(operator, left, right))
    }
}
