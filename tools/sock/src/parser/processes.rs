//! The grammar of processes: chains, plain ones, lists of handlers, expressions.

use super::{Parsed, Parser};
use crate::lexer::Token;
use crate::names::Family;
use crate::tree::{Entry, Expression, Key, Kind, Mark, Operator, Process};
use crate::words::Trouble;
use std::rc::Rc;

/// Deeper than any configuration, of whose levels each may need three; keeps the parser's own stack small.
const NESTED: usize = 256;

impl Parser {
    fn deeper<T>(&mut self, inner: impl Fn(&mut Parser) -> Parsed<T>) -> Parsed<T> {
        if self.nested == NESTED {
            return Err(Trouble::at(self.at(), "nested too deep: depth is at most 64"));
        }
        self.nested += 1;
        let result = inner(self);
        self.nested -= 1;
        result
    }

    /// Items with ; or with | between them, up to the closing brace; nil if there is none.
    pub(super) fn process(&mut self) -> Parsed<Process> {
        if self.is_sign("}") {
            return Ok(Process { at: self.at(), ..Process::default() });
        }
        let mut items = vec![self.deeper(Parser::item)?];
        let (kind, sign) = if self.is_sign("|") { (Kind::Par, "|") } else { (Kind::Seq, ";") };
        while self.sign(sign) {
            if kind == Kind::Seq && self.is_sign("}") {
                break;
            }
            if items.len() == 64 {
                return Err(Trouble::at(
                    self.at(),
                    "too many one after the other: depth is at most 64",
                ));
            }
            items.push(self.deeper(Parser::item)?);
        }
        if self.is_sign(";") || self.is_sign("|") {
            return self
                .expected("'}' (where ; and | meet, braces have to say what belongs together)");
        }
        let last = items.pop().unwrap_or_default();
        Ok(items.into_iter().rev().fold(last, |rest, item| {
            let at = item.at;
            Process { at, parts: vec![item, rest], ..Process::new(kind) }
        }))
    }

    fn block(&mut self) -> Parsed<Process> {
        self.needs_sign("{")?;
        let process = self.deeper(Parser::process)?;
        self.block_end()?;
        Ok(process)
    }

    /// A block, or nil if there is none.
    fn block_or_nil(&mut self) -> Parsed<Process> {
        if self.is_sign("{") {
            return self.block();
        }
        Ok(Process { at: self.at(), ..Process::default() })
    }

    fn item(&mut self) -> Parsed<Process> {
        let labels = self.labels()?;
        let mut process = self.plain()?;
        process.labels.splice(0..0, labels);
        Ok(process)
    }

    fn labels(&mut self) -> Parsed<Vec<Rc<str>>> {
        let mut labels = Vec::new();
        while matches!((self.peek(), self.after()), (Token::Word(_), Token::Sign(":"))) {
            labels.push(self.new_name("a label")?.into());
            self.take();
        }
        Ok(labels)
    }

    fn plain(&mut self) -> Parsed<Process> {
        let at = self.at();
        if self.is_sign("{") {
            return self.block();
        }
        let mut process = match (self.peek().clone(), self.after()) {
            (Token::Word(_) | Token::Variable(_), Token::Sign(":=")) => self.assign()?,
            (Token::Word(word), _) => self.keyword(&word)?,
            _ => return self.expected("a process"),
        };
        process.at = at;
        Ok(process)
    }

    fn assign(&mut self) -> Parsed<Process> {
        let name = self.variable()?;
        self.needs_sign(":=")?;
        let expression = Some(self.expression()?);
        Ok(Process { name, expression, ..Process::new(Kind::Assign) })
    }

    fn keyword(&mut self, word: &str) -> Parsed<Process> {
        let kind = match word {
            "nil" => Kind::Nil,
            "cH" => Kind::Ch,
            "if" => Kind::If,
            "while" => Kind::While,
            "choice" => Kind::Choice,
            "one-way" => Kind::OneWay,
            "request" => Kind::Request,
            "notify" => Kind::Notify,
            "solicit" => Kind::Solicit,
            "scope" => Kind::Scope,
            "inst" => Kind::Inst,
            "throw" => Kind::Throw,
            "comp" => Kind::Comp,
            "executor" => Kind::Executor,
            "waiter" => Kind::Waiter,
            "notice" => Kind::Notice,
            _ => return self.expected("a process (an assignment needs ':=')"),
        };
        self.take();
        match kind {
            Kind::If | Kind::While => self.condition(kind),
            Kind::Choice => self.choice(),
            Kind::OneWay | Kind::Request | Kind::Notify | Kind::Solicit => self.communication(kind),
            Kind::Scope => self.scope(),
            Kind::Executor | Kind::Waiter | Kind::Notice => self.end(kind),
            Kind::Inst => Ok(Process { list: self.list()?, ..Process::new(kind) }),
            Kind::Throw => Ok(Process { name: self.named(Family::Fault)?, ..Process::new(kind) }),
            Kind::Comp => Ok(Process { name: self.named(Family::Scope)?, ..Process::new(kind) }),
            _ => Ok(Process::new(kind)),
        }
    }

    fn condition(&mut self, kind: Kind) -> Parsed<Process> {
        let expression = Some(self.expression()?);
        let mut parts = vec![self.block()?];
        if kind == Kind::If {
            parts.push(if self.word("else") {
                self.block()?
            } else {
                Process { at: self.at(), ..Process::default() }
            });
        }
        Ok(Process { expression, parts, ..Process::new(kind) })
    }

    fn choice(&mut self) -> Parsed<Process> {
        self.needs_sign("{")?;
        let mut parts = Vec::new();
        while !self.is_sign("}") {
            let labels = self.labels()?;
            let at = self.at();
            let kind = if self.is_word("one-way") { Kind::OneWay } else { Kind::Request };
            if !self.is_word(kind.name()) {
                return self.expected("a branch ('one-way' or 'request') or '}'");
            }
            self.take();
            if parts.len() == 16 {
                return Err(Trouble::at(at, "'}' is expected: a choice has at most 8 branches"));
            }
            parts.push(Process { at, labels, ..self.deeper(|parser| parser.communication(kind))? });
            parts.push(if self.word("then") {
                self.block()?
            } else {
                Process { at: self.at(), ..Process::default() }
            });
        }
        if parts.is_empty() {
            return self.expected("a branch ('one-way' or 'request')");
        }
        self.needs_sign("}")?;
        Ok(Process { parts, ..Process::new(Kind::Choice) })
    }

    fn communication(&mut self, kind: Kind) -> Parsed<Process> {
        let mut process = Process { name: self.named(Family::Operation)?, ..Process::new(kind) };
        let sends = matches!(kind, Kind::Notify | Kind::Solicit);
        let first = self.message()?;
        if sends {
            process.y = first;
            self.needs_word("to")?;
            process.z = self.variable()?;
        } else {
            process.x = self.distinct(first)?;
        }
        if kind == Kind::Request {
            self.needs_word("reply")?;
            process.y = self.message()?;
            process.parts = vec![self.block_or_nil()?];
        }
        if kind == Kind::Solicit {
            self.needs_word("reply")?;
            let reply = self.message()?;
            process.x = self.distinct(reply)?;
            process.list = self.list_or_none()?;
        }
        Ok(process)
    }

    /// What receives has no variable twice; said here, where the line is known.
    fn distinct(&self, variables: Vec<u8>) -> Parsed<Vec<u8>> {
        let twice =
            (1..variables.len()).any(|index| variables[..index].contains(&variables[index]));
        if twice {
            let at = self.tokens[self.next - 1].1;
            return Err(Trouble::at(
                at,
                "another variable is expected: none may receive twice in one message",
            ));
        }
        Ok(variables)
    }

    fn scope(&mut self) -> Parsed<Process> {
        let mut process = Process { name: self.named(Family::Scope)?, ..Process::new(Kind::Scope) };
        process.zombie = self.word("zombie");
        if self.word("marked") {
            process.mark = if self.word("own") {
                Mark::OwnName
            } else {
                self.needs_word("fault")?;
                Mark::Fault(self.named(Family::Fault)?)
            };
        }
        if self.word("handlers") {
            process.list = self.list()?;
        }
        process.parts = vec![self.block()?];
        Ok(process)
    }

    fn end(&mut self, kind: Kind) -> Parsed<Process> {
        let mut process = Process { name: self.named(Family::Operation)?, ..Process::new(kind) };
        if kind == Kind::Notice {
            self.needs_word("fault")?;
            process.fault = self.named(Family::Fault)?;
        } else {
            self.needs_word("reply")?;
            let variables = self.message()?;
            if kind == Kind::Executor {
                process.y = variables;
            } else {
                process.x = self.distinct(variables)?;
            }
        }
        self.needs_word(if kind == Kind::Waiter { "from" } else { "for" })?;
        let at = self.at();
        let engine = self.engine_number()?;
        process.engine = u8::try_from(engine)
            .ok()
            .filter(|engine| *engine < 8)
            .ok_or_else(|| Trouble::at(at, "an engine from 0 to 7 is expected"))?;
        self.needs_word("serial")?;
        process.serial = self.number(65535, "a serial")? as u16;
        match kind {
            Kind::Executor => process.parts = vec![self.block_or_nil()?],
            Kind::Waiter => {
                process.dead = self.word("dead");
                process.list = self.list_or_none()?;
            }
            _ => {}
        }
        Ok(process)
    }

    // ---- Lists

    fn list_or_none(&mut self) -> Parsed<Vec<Entry>> {
        if self.is_sign("{") {
            return self.list();
        }
        Ok(Vec::new())
    }

    /// Handlers in braces, in any order; in the words their keys rise.
    fn list(&mut self) -> Parsed<Vec<Entry>> {
        self.needs_sign("{")?;
        let mut list: Vec<Entry> = Vec::new();
        while self.word("on") {
            let at = self.at();
            let key = if self.word("fault") {
                Key::Fault(self.named(Family::Fault)?)
            } else if self.word("scope") {
                Key::Scope(self.named(Family::Scope)?)
            } else {
                return self.expected("'fault' or 'scope'");
            };
            if list.iter().any(|entry| entry.key == key) {
                return Err(Trouble::at(
                    at,
                    "another fault or scope is expected: this list has a handler for it already",
                ));
            }
            list.push(Entry { key, process: self.block()? });
        }
        if !self.is_sign("}") {
            return self.expected("'on' or '}'");
        }
        self.take();
        list.sort_by_key(|entry| entry.key);
        Ok(list)
    }

    // ---- Expressions

    /// less and equal bind weaker than sums, and do not chain.
    fn expression(&mut self) -> Parsed<Expression> {
        let left = self.sum()?;
        let operator = match () {
            () if self.word("less") => Operator::Less,
            () if self.word("equal") => Operator::Equal,
            () => return Ok(left),
        };
        let right = self.sum()?;
        if self.is_word("less") || self.is_word("equal") {
            return self.expected("parentheses around one of the two comparisons");
        }
        Ok(Expression::Binary(operator, Box::new(left), Box::new(right)))
    }

    /// Sums and differences, from left to right.
    fn sum(&mut self) -> Parsed<Expression> {
        let mut left = self.operand()?;
        let mut count = 0;
        while let Some(operator) = self.operator()? {
            count += 1;
            if count == 64 {
                return Err(Trouble::at(self.at(), "too many operands: depth is at most 64"));
            }
            let right = self.operand()?;
            left = Expression::Binary(operator, Box::new(left), Box::new(right));
        }
        Ok(left)
    }

    fn operator(&mut self) -> Parsed<Option<Operator>> {
        let decimal = self.word("decimal");
        let operator = match (decimal, self.word("sum")) {
            (false, true) => Operator::Sum,
            (true, true) => Operator::DecimalSum,
            (_, false) if self.word("difference") => {
                if decimal {
                    Operator::DecimalDifference
                } else {
                    Operator::Difference
                }
            }
            (true, false) => return self.expected("'sum' or 'difference'"),
            (false, false) => return Ok(None),
        };
        Ok(Some(operator))
    }

    fn operand(&mut self) -> Parsed<Expression> {
        if self.sign("(") {
            let inner = self.deeper(Parser::expression)?;
            self.needs_sign(")")?;
            return Ok(inner);
        }
        if matches!(self.peek(), Token::Number(_) | Token::Sign("@")) {
            return Ok(Expression::Constant(self.constant()?));
        }
        if matches!(self.peek(), Token::Word(_) | Token::Variable(_)) {
            return Ok(Expression::Variable(self.variable()?));
        }
        self.expected("a variable, a number or '('")
    }
}
