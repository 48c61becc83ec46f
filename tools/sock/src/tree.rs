//! The tree of a configuration: what its words lay out. The assembler builds it from text, the reader (`diagnose`) from words; all that
//! is shown is taken from it. One struct serves all kinds, since the parts of every kind stand in one order in the words: head and
//! fixed words, variables, expression, list, processes.

use std::rc::Rc;

#[derive(Clone, Copy, Debug, PartialEq, Eq, PartialOrd, Ord, Default)]
pub enum Kind {
    #[default]
    Nil,
    Assign,
    Seq,
    Par,
    If,
    While,
    Choice,
    OneWay,
    Request,
    Notify,
    Solicit,
    Scope,
    Inst,
    Throw,
    Comp,
    Ch,
    Executor,
    Waiter,
    Notice,
}

/// The nineteen kinds in the order of their numbers, with the names that document 01 has.
pub const KINDS: [(Kind, &str); 19] = [
    (Kind::Nil, "nil"),
    (Kind::Assign, "assign"),
    (Kind::Seq, "seq"),
    (Kind::Par, "par"),
    (Kind::If, "if"),
    (Kind::While, "while"),
    (Kind::Choice, "choice"),
    (Kind::OneWay, "one-way"),
    (Kind::Request, "request"),
    (Kind::Notify, "notify"),
    (Kind::Solicit, "solicit"),
    (Kind::Scope, "scope"),
    (Kind::Inst, "inst"),
    (Kind::Throw, "throw"),
    (Kind::Comp, "comp"),
    (Kind::Ch, "cH"),
    (Kind::Executor, "executor"),
    (Kind::Waiter, "waiter"),
    (Kind::Notice, "notice"),
];

impl Kind {
    pub fn of(number: u16) -> Option<Kind> {
        KINDS.get(usize::from(number)).map(|(kind, _)| *kind)
    }

    pub fn name(self) -> &'static str {
        KINDS[self as usize].1
    }

    pub fn has_list(self) -> bool {
        matches!(self, Kind::Solicit | Kind::Scope | Kind::Inst | Kind::Waiter)
    }

    /// Executor, waiter and notice: they come about in a run.
    pub fn is_end(self) -> bool {
        matches!(self, Kind::Executor | Kind::Waiter | Kind::Notice)
    }
}

#[derive(Clone, Copy, Debug, PartialEq, Eq, PartialOrd, Ord)]
pub enum Key {
    Fault(u8),
    Scope(u8),
}

impl Key {
    pub fn word(self) -> u16 {
        match self {
            Key::Fault(name) => u16::from(name) << 9,
            Key::Scope(name) => 0x8000 | u16::from(name) << 9,
        }
    }
}

#[derive(Clone, Copy, Debug, PartialEq, Eq, Default)]
pub enum Mark {
    #[default]
    None,
    Fault(u8),
    OwnName,
}

#[derive(Clone, Copy, Debug, PartialEq, Eq)]
pub enum Operator {
    Sum,
    Difference,
    Less,
    Equal,
    DecimalSum,
    DecimalDifference,
}

/// The operators with their document names, from the top bits 2 on.
pub const OPERATORS: [(Operator, &str); 6] = [
    (Operator::Sum, "sum"),
    (Operator::Difference, "difference"),
    (Operator::Less, "less"),
    (Operator::Equal, "equal"),
    (Operator::DecimalSum, "decimal sum"),
    (Operator::DecimalDifference, "decimal difference"),
];

#[derive(Clone, Debug, PartialEq, Eq)]
pub enum Expression {
    Constant(u32),
    Variable(u8),
    Binary(Operator, Box<Expression>, Box<Expression>),
}

impl Expression {
    fn length(&self) -> usize {
        match self {
            Expression::Constant(_) => 3,
            Expression::Variable(_) => 1,
            Expression::Binary(_, left, right) => 1 + left.length() + right.length(),
        }
    }

    pub fn write(&self, out: &mut Vec<u16>) {
        match self {
            Expression::Constant(value) => {
                out.extend([0, (value >> 16) as u16, *value as u16]);
            }
            Expression::Variable(variable) => out.push(1 << 13 | u16::from(*variable) << 8),
            Expression::Binary(operator, left, right) => {
                out.push((*operator as u16 + 2) << 13);
                left.write(out);
                right.write(out);
            }
        }
    }
}

/// An entry of a list: its key and its process.
#[derive(Clone, Debug, PartialEq, Eq)]
pub struct Entry {
    pub key: Key,
    pub process: Process,
}

/// Where something stands in a text, from 1; 0 if it comes from words.
#[derive(Clone, Copy, Debug, PartialEq, Eq, Default)]
pub struct At {
    pub line: usize,
    pub column: usize,
}

impl At {
    /// As compilers write it.
    pub fn in_file(self, file: &str) -> String {
        format!("{file}:{}:{}", self.line, self.column)
    }

    /// Where the next sign would stand behind a text.
    pub fn behind(text: &str) -> At {
        let last = text.rsplit('\n').next().unwrap_or("");
        At { line: text.matches('\n').count() + 1, column: last.chars().count() + 1 }
    }
}

/// A process of any kind; what its kind does not have is empty.
#[derive(Clone, Debug, PartialEq, Eq, Default)]
pub struct Process {
    pub kind: Kind,
    /// What the head names: the variable of an assign, the operation of a message or an end, the name of a scope, a throw, a comp.
    pub name: u8,
    pub x: Vec<u8>,
    pub y: Vec<u8>,
    pub z: u8,
    pub mark: Mark,
    pub zombie: bool,
    pub dead: bool,
    /// The fault of a notice.
    pub fault: u8,
    /// The other end's engine.
    pub engine: u8,
    pub serial: u16,
    pub expression: Option<Expression>,
    pub list: Vec<Entry>,
    /// The processes in it; of a choice receiver, process, receiver, process and so on.
    pub parts: Vec<Process>,
    pub labels: Vec<Rc<str>>,
    pub at: At,
}

impl Process {
    pub fn new(kind: Kind) -> Process {
        Process { kind, ..Process::default() }
    }

    /// The same with other parts; the old ones are not copied.
    pub fn with_parts(&self, parts: Vec<Process>) -> Process {
        Process {
            x: self.x.clone(),
            y: self.y.clone(),
            expression: self.expression.clone(),
            list: self.list.clone(),
            labels: self.labels.clone(),
            parts,
            ..*self
        }
    }

    pub fn is_nil(&self) -> bool {
        self.kind == Kind::Nil
    }

    /// Nil, and not labelled: nothing has to be written for it.
    pub fn is_bare_nil(&self) -> bool {
        self.is_nil() && self.labels.is_empty()
    }

    pub fn words(&self) -> Vec<u16> {
        let mut out = Vec::new();
        self.write(&mut out);
        out
    }

    pub fn write(&self, out: &mut Vec<u16>) {
        self.write_own(out);
        if let Some(expression) = &self.expression {
            expression.write(out);
        }
        if self.kind.has_list() {
            out.push(self.list.len() as u16);
        }
        for entry in &self.list {
            out.push(entry.key.word());
            entry.process.write(out);
        }
        for part in &self.parts {
            part.write(out);
        }
    }

    /// How many words stand before its list and processes. A list of variables has a word for each: the first stands in the fixed words, and
    /// a count stands before the further ones.
    fn own_length(&self) -> usize {
        let fixed = match self.kind {
            Kind::Request | Kind::Notify | Kind::Solicit | Kind::Scope => 2,
            Kind::Executor | Kind::Waiter | Kind::Notice => 3,
            _ => 1,
        };
        fixed + self.x.len() + self.y.len() + self.expression.as_ref().map_or(0, Expression::length)
    }

    /// Head, fixed words and variables.
    fn write_own(&self, out: &mut Vec<u16>) {
        let first = |variables: &[u8]| variables.first().map_or(0, |v| u16::from(*v));
        let (name, engine) = (u16::from(self.name), u16::from(self.engine));
        let (x, y, z) = (first(&self.x), first(&self.y), u16::from(self.z));
        let head = (self.kind as u16) << 11;
        match self.kind {
            Kind::Assign => out.push(head | name << 6),
            Kind::Choice => out.push(head | (self.parts.len() / 2) as u16),
            Kind::OneWay => out.push(head | name << 5 | x),
            Kind::Request => out.extend([head | name << 5 | x, y << 11]),
            Kind::Notify => out.extend([head | name << 5 | y, z << 11]),
            Kind::Solicit => out.extend([head | name << 5 | y, z << 11 | x << 6]),
            Kind::Scope => out.extend(self.scope_words(head | name << 5)),
            Kind::Throw | Kind::Comp => out.push(head | name << 5),
            Kind::Executor => out.extend([head | name << 5 | y, engine << 13, self.serial]),
            Kind::Waiter => {
                let dead = u16::from(self.dead) << 15;
                out.extend([head | name << 5 | x, dead | engine << 12, self.serial]);
            }
            Kind::Notice => {
                let fault = u16::from(self.fault) << 10;
                out.extend([head | name << 5, fault | engine << 7, self.serial]);
            }
            _ => out.push(head),
        }
        self.write_variables(out);
    }

    fn scope_words(&self, head: u16) -> [u16; 2] {
        let (mark, fault) = match self.mark {
            Mark::None => (0, 0),
            Mark::Fault(fault) => (1, u16::from(fault)),
            Mark::OwnName => (2, 0),
        };
        [head | mark << 3 | u16::from(self.zombie) << 2, fault << 10]
    }

    /// A solicit has the variables that it sends first, a request those that receive.
    fn write_variables(&self, out: &mut Vec<u16>) {
        let lists = match self.kind {
            Kind::Solicit => [&self.y, &self.x],
            _ => [&self.x, &self.y],
        };
        for list in lists.into_iter().filter(|list| !list.is_empty()) {
            out.push(list.len() as u16);
            out.extend(list[1..].iter().map(|variable| u16::from(*variable) << 11));
        }
    }
}

/// What a process is in the one that holds it.
#[derive(Clone, Copy, Debug, PartialEq, Eq)]
pub enum Role {
    Root,
    /// The n-th process in its holder, from 0.
    Part(usize),
    Entry(Key),
}

/// A process with where it stands.
#[derive(Clone, Copy, Debug)]
pub struct Place<'a> {
    /// In words from the start of its engine's process.
    pub position: usize,
    pub depth: usize,
    pub enabled: bool,
    pub role: Role,
    /// The index of the one that holds it among the places.
    pub holder: Option<usize>,
    pub process: &'a Process,
}

/// Every process in the root, itself first, in the order of their words.
pub fn places(root: &Process) -> Vec<Place<'_>> {
    let mut found = Vec::new();
    let top = Place {
        position: 0,
        depth: 1,
        enabled: true,
        role: Role::Root,
        holder: None,
        process: root,
    };
    collect(top, &mut found);
    found
}

/// Answers where the words of the process end.
fn collect<'a>(place: Place<'a>, found: &mut Vec<Place<'a>>) -> usize {
    let (process, holder) = (place.process, Some(found.len()));
    found.push(place);
    let mut at = place.position + process.own_length() + usize::from(process.kind.has_list());
    let depth = place.depth + 1;
    for entry in &process.list {
        let role = Role::Entry(entry.key);
        let inner = Place {
            position: at + 1,
            depth,
            enabled: false,
            role,
            holder,
            process: &entry.process,
        };
        at = collect(inner, found);
    }
    for (index, part) in process.parts.iter().enumerate() {
        let enabled = place.enabled && enables(process.kind, index);
        let inner =
            Place { position: at, depth, enabled, role: Role::Part(index), holder, process: part };
        at = collect(inner, found);
    }
    at
}

/// Whether the part of an enabled process is enabled.
pub fn enables(kind: Kind, index: usize) -> bool {
    match kind {
        Kind::Scope | Kind::Executor | Kind::Par => true,
        Kind::Seq => index == 0,
        _ => false,
    }
}

#[derive(Clone, Debug, PartialEq, Eq)]
pub struct Engine {
    pub values: [u32; 32],
    pub process: Process,
}

#[derive(Clone, Debug, PartialEq, Eq, Default)]
pub struct Configuration {
    pub issued: u16,
    pub engines: Vec<Engine>,
}

impl Configuration {
    pub fn words(&self) -> Vec<u16> {
        let mut out = vec![self.engines.len() as u16, self.issued];
        for engine in &self.engines {
            for value in engine.values {
                out.extend([(value >> 16) as u16, value as u16]);
            }
            engine.process.write(&mut out);
        }
        out
    }

    /// Where each engine's process begins, in words from the configuration's start.
    pub fn starts(&self) -> Vec<usize> {
        let mut at = 2;
        let mut starts = Vec::new();
        for engine in &self.engines {
            starts.push(at + 64);
            at += 64 + engine.process.words().len();
        }
        starts
    }
}
