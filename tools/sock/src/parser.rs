//! From tokens to the tree, by the grammar of docs/TEXT.md. Names are resolved on the way: declarations stand before their use, and the
//! engines' names are gathered first, since engines may name one another.

use crate::lexer::{tokens, Token};
use crate::names::{number_of, Family, Names, Table};
use crate::tree::{At, Configuration, Engine};
use crate::words::Trouble;

mod processes;

/// What a text says: names, the start with labels in it, and the steps.
#[derive(Clone, Debug, PartialEq, Eq, Default)]
pub struct Program {
    pub names: Names,
    pub configuration: Configuration,
    pub steps: Vec<Step>,
}

#[derive(Clone, Debug, PartialEq, Eq)]
pub struct Step {
    pub first: Spot,
    pub second: Option<Spot>,
    pub branch: u16,
}

/// An engine and a process of it, by position or by label.
#[derive(Clone, Debug, PartialEq, Eq)]
pub struct Spot {
    pub engine: u16,
    pub place: Place,
    pub at: At,
}

#[derive(Clone, Debug, PartialEq, Eq)]
pub enum Place {
    Position(u16),
    Label(String),
}

/// Words that are no names.
pub const RESERVED: [&str; 42] = [
    "at",
    "branch",
    "cH",
    "choice",
    "comp",
    "dead",
    "decimal",
    "difference",
    "else",
    "engine",
    "equal",
    "executor",
    "fault",
    "for",
    "from",
    "handlers",
    "if",
    "inst",
    "issued",
    "less",
    "marked",
    "nil",
    "notice",
    "notify",
    "on",
    "one-way",
    "operation",
    "own",
    "reply",
    "request",
    "scope",
    "serial",
    "solicit",
    "steps",
    "sum",
    "then",
    "throw",
    "to",
    "var",
    "waiter",
    "while",
    "zombie",
];

type Parsed<T> = Result<T, Trouble>;

pub fn parse(text: &str) -> Parsed<Program> {
    let tokens = tokens(text)?;
    let mut parser = Parser { tokens, next: 0, names: Names::default(), engine: 0, nested: 0 };
    parser.program()
}

struct Parser {
    tokens: Vec<(Token, At)>,
    next: usize,
    names: Names,
    /// The engine that is being read.
    engine: usize,
    nested: usize,
}

impl Parser {
    // ---- Tokens

    fn peek(&self) -> &Token {
        &self.tokens[self.next].0
    }

    fn after(&self) -> &Token {
        &self.tokens[(self.next + 1).min(self.tokens.len() - 1)].0
    }

    fn at(&self) -> At {
        self.tokens[self.next].1
    }

    fn take(&mut self) -> (Token, At) {
        let taken = self.tokens[self.next].clone();
        self.next = (self.next + 1).min(self.tokens.len() - 1);
        taken
    }

    fn is_word(&self, word: &str) -> bool {
        matches!(self.peek(), Token::Word(has) if has == word)
    }

    fn is_sign(&self, sign: &str) -> bool {
        matches!(self.peek(), Token::Sign(has) if *has == sign)
    }

    fn word(&mut self, word: &str) -> bool {
        let is = self.is_word(word);
        self.next += usize::from(is);
        is
    }

    fn sign(&mut self, sign: &str) -> bool {
        let is = self.is_sign(sign);
        self.next += usize::from(is);
        is
    }

    fn expected<T>(&self, what: &str) -> Parsed<T> {
        Err(Trouble::at(self.at(), format!("{what} is expected, not {}", self.peek().said())))
    }

    fn needs_word(&mut self, word: &str) -> Parsed<()> {
        if self.word(word) {
            Ok(())
        } else {
            self.expected(&format!("'{word}'"))
        }
    }

    fn needs_sign(&mut self, sign: &str) -> Parsed<()> {
        if self.sign(sign) {
            Ok(())
        } else {
            self.expected(&format!("'{sign}'"))
        }
    }

    /// Behind the items of a block, of which one may be forgotten to be joined.
    fn block_end(&mut self) -> Parsed<()> {
        if self.sign("}") {
            Ok(())
        } else {
            self.expected("';', '|' or '}'")
        }
    }

    fn number(&mut self, most: u32, what: &str) -> Parsed<u32> {
        match *self.peek() {
            Token::Number(number) if number <= most => {
                self.take();
                Ok(number)
            }
            _ => self.expected(&format!("{what} from 0 to {most}")),
        }
    }

    /// A name that is declared here.
    fn new_name(&mut self, what: &str) -> Parsed<String> {
        match self.peek().clone() {
            Token::Word(word) if RESERVED.contains(&word.as_str()) => Err(Trouble::at(
                self.at(),
                format!("{what} is expected, and '{word}' is a word of the text form"),
            )),
            Token::Word(word) => {
                self.take();
                Ok(word)
            }
            _ => self.expected(what),
        }
    }

    // ---- The whole, and declarations

    fn program(&mut self) -> Parsed<Program> {
        self.engine_names()?;
        self.declarations()?;
        let mut configuration = Configuration::default();
        if self.word("issued") {
            configuration.issued = self.number(65535, "the count of serials issued,")? as u16;
        }
        while self.word("engine") {
            self.engine = configuration.engines.len();
            configuration.engines.push(self.engine()?);
        }
        let steps = if self.word("steps") { self.steps()? } else { Vec::new() };
        if *self.peek() != Token::End {
            return self.expected("'engine', 'steps' or the end of the text");
        }
        if configuration.engines.is_empty() {
            return self.expected("'engine' (a configuration has 1 to 8)");
        }
        Ok(Program { names: std::mem::take(&mut self.names), configuration, steps })
    }

    /// The names behind `engine`, in their order, which is that of the engines' numbers; the word stands nowhere else.
    fn engine_names(&mut self) -> Parsed<()> {
        let names = |token: &Token| matches!(token, Token::Word(word) if word == "engine");
        let found: Vec<usize> =
            (0..self.tokens.len()).filter(|index| names(&self.tokens[*index].0)).collect();
        if let Some(ninth) = found.get(8) {
            return Err(Trouble::at(self.tokens[*ninth].1, "at most 8 engines are expected"));
        }
        for (number, index) in (0..).zip(&found) {
            self.next = index + 1;
            if !self.is_sign("{") {
                let at = self.at();
                let name = self.new_name("an engine's name or '{'")?;
                enter(&mut self.names.engines, name, number, at)?;
            }
        }
        self.names.variables = vec![Table::new(); found.len()];
        self.next = 0;
        Ok(())
    }

    /// Those without number get the lowest that no declaration has.
    fn declarations(&mut self) -> Parsed<()> {
        let mut open = Vec::new();
        while let Some(family) = [Family::Operation, Family::Fault, Family::Scope]
            .into_iter()
            .find(|family| self.is_word(family.word()))
        {
            self.take();
            self.family(family, &mut open)?;
        }
        for (family, name, at) in open {
            give(self.names.table_mut(family), name, &[], 64, at)?;
        }
        Ok(())
    }

    /// `operation open 1, close`: names, each with its number or without.
    fn family(&mut self, family: Family, open: &mut Vec<(Family, String, At)>) -> Parsed<()> {
        let what = format!("a name for {} {}", article(family.word()), family.word());
        loop {
            let at = self.at();
            let name = self.new_name(&what)?;
            if matches!(self.peek(), Token::Number(_)) {
                let number = self.number(63, "a number")? as u8;
                enter(self.names.table_mut(family), name, number, at)?;
            } else {
                open.push((family, name, at));
            }
            if !self.sign(",") {
                return Ok(());
            }
        }
    }

    // ---- An engine

    fn engine(&mut self) -> Parsed<Engine> {
        if !self.is_sign("{") {
            self.take();
        }
        self.needs_sign("{")?;
        let mut values = [0; 32];
        self.variables(&mut values)?;
        let process = self.process()?;
        self.block_end()?;
        Ok(Engine { values, process })
    }

    /// `var level $2 = 480`: a name, a number or both, and the value at the start. Names without number get the lowest that no
    /// declaration of the engine has.
    fn variables(&mut self, values: &mut [u32; 32]) -> Parsed<()> {
        let mut taken: Vec<u8> = Vec::new();
        let mut open = Vec::new();
        while self.word("var") {
            loop {
                let (name, number, value, at) = self.variable_declared()?;
                match number {
                    Some(number) if taken.contains(&number) => {
                        let text =
                            format!("another number is expected: ${number} is declared already");
                        return Err(Trouble::at(at, text));
                    }
                    Some(number) => {
                        values[usize::from(number)] = value;
                        taken.push(number);
                        if let Some(name) = name {
                            enter(&mut self.names.variables[self.engine], name, number, at)?;
                        }
                    }
                    None => open.push((name.unwrap_or_default(), value, at)),
                }
                if !self.sign(",") {
                    break;
                }
            }
        }
        for (name, value, at) in open {
            let number = give(&mut self.names.variables[self.engine], name, &taken, 32, at)?;
            values[usize::from(number)] = value;
        }
        Ok(())
    }

    fn variable_declared(&mut self) -> Parsed<(Option<String>, Option<u8>, u32, At)> {
        let at = self.at();
        let name = match self.peek() {
            Token::Variable(_) => None,
            _ => Some(self.new_name("a variable's name, or $ and its number,")?),
        };
        let number = self.variable_number();
        let value = if self.sign("=") { self.constant()? } else { 0 };
        Ok((name, number, value, at))
    }

    fn variable_number(&mut self) -> Option<u8> {
        match *self.peek() {
            Token::Variable(number) => {
                self.take();
                Some(number)
            }
            _ => None,
        }
    }

    /// A number, or @ and an engine.
    fn constant(&mut self) -> Parsed<u32> {
        if self.sign("@") {
            return Ok(u32::from(self.engine_number()?));
        }
        match *self.peek() {
            Token::Number(number) => {
                self.take();
                Ok(number)
            }
            _ => self.expected("a number, or @ and an engine,"),
        }
    }

    fn engine_number(&mut self) -> Parsed<u16> {
        if let Token::Number(_) = self.peek() {
            return Ok(self.number(65535, "an engine's number")? as u16);
        }
        let table = self.names.engines.clone();
        Ok(u16::from(self.known(&table, "engine")?))
    }

    /// A word that is in the table.
    fn known(&mut self, table: &Table, what: &str) -> Parsed<u8> {
        let Token::Word(word) = self.peek().clone() else {
            return self.expected(&format!("the name or the number of {} {what}", article(what)));
        };
        let Some(number) = number_of(table, &word) else {
            let names: Vec<&str> = table.iter().map(|(name, _)| name.as_str()).collect();
            let there = if names.is_empty() {
                "none is declared".to_string()
            } else {
                format!("there are {}", names.join(", "))
            };
            return Err(Trouble::at(self.at(), format!("no {what} is called '{word}': {there}")));
        };
        self.take();
        Ok(number)
    }

    /// The name or number of an operation, a fault or a scope.
    fn named(&mut self, family: Family) -> Parsed<u8> {
        if let Token::Number(_) = self.peek() {
            return Ok(self.number(
                63,
                &format!("the number of {} {}", article(family.word()), family.word()),
            )? as u8);
        }
        let table = self.names.table(family).clone();
        self.known(&table, family.word())
    }

    fn variable(&mut self) -> Parsed<u8> {
        if let Some(number) = self.variable_number() {
            return Ok(number);
        }
        if !matches!(self.peek(), Token::Word(_)) {
            return self.expected("a variable");
        }
        let table = self.names.variables[self.engine].clone();
        self.known(&table, "variable")
    }

    /// One to four variables in parentheses.
    fn message(&mut self) -> Parsed<Vec<u8>> {
        self.needs_sign("(")?;
        let mut variables = vec![self.variable()?];
        while self.sign(",") {
            if variables.len() == 4 {
                return self.expected("')', since a message has at most 4 variables,");
            }
            variables.push(self.variable()?);
        }
        self.needs_sign(")")?;
        Ok(variables)
    }

    // ---- Steps

    fn steps(&mut self) -> Parsed<Vec<Step>> {
        self.needs_sign("{")?;
        let mut steps = Vec::new();
        while !self.is_sign("}") {
            let first = self.spot()?;
            let mut step = Step { first, second: None, branch: 0 };
            if self.sign("->") {
                step.second = Some(self.spot()?);
                if self.word("branch") {
                    step.branch = self.number(65535, "a branch")? as u16;
                }
            }
            self.sign(";");
            steps.push(step);
        }
        self.needs_sign("}")?;
        Ok(steps)
    }

    fn spot(&mut self) -> Parsed<Spot> {
        let at = self.at();
        if !matches!(self.peek(), Token::Word(_) | Token::Number(_)) {
            return self.expected("an engine (a step is 'lock.label' or 'lock at 3') or '}'");
        }
        let engine = self.engine_number()?;
        let place = if self.sign(".") {
            Place::Label(self.new_name("a label")?)
        } else if self.word("at") {
            Place::Position(self.number(65535, "a position")? as u16)
        } else {
            return self.expected("'.' and a label, or 'at' and a position,");
        };
        Ok(Spot { engine, place, at })
    }
}

fn article(what: &str) -> &'static str {
    if what.starts_with(['a', 'e', 'i', 'o']) {
        "an"
    } else {
        "a"
    }
}

/// Declares a name with its number.
fn enter(table: &mut Table, name: String, number: u8, at: At) -> Parsed<()> {
    if number_of(table, &name).is_some() {
        return Err(Trouble::at(
            at,
            format!("another name is expected: '{name}' is declared already"),
        ));
    }
    if let Some((other, _)) = table.iter().find(|(_, has)| *has == number) {
        return Err(Trouble::at(
            at,
            format!("another number is expected: {number} is called '{other}'"),
        ));
    }
    table.push((name, number));
    Ok(())
}

/// Declares a name with the lowest number that is free; answers it.
fn give(table: &mut Table, name: String, taken: &[u8], most: u8, at: At) -> Parsed<u8> {
    let named = |number: &u8| table.iter().any(|(_, has)| has == number);
    let free = (0..most).find(|number| !named(number) && !taken.contains(number));
    let Some(number) = free else {
        return Err(Trouble::at(at, format!("no number is left for '{name}': there are {most}")));
    };
    enter(table, name, number, at)?;
    Ok(number)
}
