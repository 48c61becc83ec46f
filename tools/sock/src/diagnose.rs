//! From words to the tree, with a reason where there is none: the word, the process in which it stands, and the sentence of the format
//! that it breaks. Whether words are readable is said by the proved check alone; this reader only finds where and why, and a test holds
//! it to that check.

use crate::library::WORDS;
use crate::tree::{
    enables, places, At, Configuration, Engine, Entry, Expression, Key, Kind, Mark, Process,
    OPERATORS,
};

const DEPTH: usize = 64;

/// What the words of the earlier format break, in which no counts of variables stood.
const COUNT: &str = "a message has 1 to 4 variables, and this word is their count";

const EARLIER: &str =
    "(an earlier input, without counts of variables, is rewritten by bin/handover --rewrite)\n";

/// What a planners' start breaks, whose fixed scopes are of kind 19.
const KIND: &str = "the first 5 bits of a head are a kind, 0 to 18";

const PLANNED: &str = "(kind 19 is the planners': with --plan their start is translated first)\n";

const UNPROVED: &str = "(where and why are found by a second reader, which is not proved)\n";

/// What is said where there should be a reason: the two readers differ, which a test excludes as far as tests do.
pub const UNEXPLAINED: &str =
    "the proved check refuses this, and no reason is found: please report it";

/// Why words are not readable, or not fresh.
#[derive(Clone, Debug, PartialEq, Eq)]
pub struct Diagnosis {
    /// The word at fault, counted from the configuration's start.
    pub word: usize,
    pub content: Option<u16>,
    pub engine: Option<usize>,
    /// The process in which it stands: kind, and position in its engine.
    pub process: Option<(Kind, usize)>,
    /// Where the engine's process begins.
    pub start: usize,
    pub sentence: &'static str,
}

impl Diagnosis {
    /// The word's position in its engine's process, if it stands in one.
    pub fn position(&self) -> Option<usize> {
        self.process.and_then(|_| self.word.checked_sub(self.start))
    }

    /// Where it stands in the text from which the tree comes: the process whose head the word is, else the one that holds it.
    pub fn source(&self, tree: &Configuration) -> Option<At> {
        let Some(engine) = self.engine else { return last_up_to(tree, self.word) };
        let all = places(&tree.engines.get(engine)?.process);
        let at = |position| all.iter().find(|place| place.position == position);
        let (_, held) = self.process?;
        at(self.position()?).or_else(|| at(held)).map(|place| place.process.at)
    }

    /// Where and why, for people.
    pub fn said(&self) -> String {
        let content = self.content.map_or("no word".to_string(), |word| format!("{word:04x}"));
        let engine = self.engine.map_or(String::new(), |engine| format!(", engine {engine}"));
        let position = self.position();
        let position = position.map_or(String::new(), |position| format!(", position {position}"));
        let process = match self.process {
            Some((kind, position)) => format!("in the {} at position {position}", kind.name()),
            None if self.engine.is_none() => "in no process".to_string(),
            None if self.word == self.start => "where the engine's process begins".to_string(),
            None => "among the engine's values".to_string(),
        };
        let hint = match self.sentence {
            COUNT => EARLIER,
            KIND if self.content.is_some_and(|word| word >> 11 == 19) => PLANNED,
            _ => "",
        };
        let (word, sentence) = (self.word, self.sentence);
        format!("where: word {word}{engine}{position}: {content}, {process}\nwhy: {sentence}\n{hint}{UNPROVED}")
    }
}

/// The last process that begins up to a word.
fn last_up_to(tree: &Configuration, word: usize) -> Option<At> {
    let starts = tree.starts();
    let engine = starts.iter().rposition(|start| *start <= word)?;
    let all = places(&tree.engines[engine].process);
    let last = all.iter().rfind(|place| starts[engine] + place.position <= word);
    last.map(|place| place.process.at)
}

/// The configuration that the words are, or why they are none.
pub fn read(words: &[u16]) -> Result<Configuration, Diagnosis> {
    let mut reader =
        Reader { words, at: 0, start: 0, engine: None, inside: Vec::new(), n: 0, issued: 0 };
    reader.configuration()
}

struct Reader<'a> {
    words: &'a [u16],
    at: usize,
    start: usize,
    engine: Option<usize>,
    /// The processes that are being read, outermost first.
    inside: Vec<(Kind, usize)>,
    n: u16,
    issued: u16,
}

/// Where a process stands: levels left, enabled or not, inside a handler that may hold cH.
#[derive(Clone, Copy)]
struct Around {
    depth: usize,
    enabled: bool,
    handler: bool,
}

type Read<T> = Result<T, Diagnosis>;

impl Reader<'_> {
    /// What is wrong with the word at this index.
    fn wrong<T>(&self, word: usize, sentence: &'static str) -> Read<T> {
        Err(Diagnosis {
            word,
            content: self.words.get(word).copied(),
            engine: self.engine,
            process: self.inside.last().copied(),
            start: self.start,
            sentence,
        })
    }

    fn ask(&self, holds: bool, word: usize, sentence: &'static str) -> Read<()> {
        if holds {
            Ok(())
        } else {
            self.wrong(word, sentence)
        }
    }

    fn word(&mut self) -> Read<u16> {
        match self.words.get(self.at) {
            Some(word) => {
                self.at += 1;
                Ok(*word)
            }
            None => self.wrong(self.at, "a configuration ends with the last process, not before"),
        }
    }

    fn configuration(&mut self) -> Read<Configuration> {
        self.ask(self.words.len() <= WORDS, WORDS, "a configuration has at most 8,192 words")?;
        self.n = self.word()?;
        self.ask((1..=8).contains(&self.n), 0, "word n is the number of engines, 1 to 8")?;
        self.issued = self.word()?;
        let mut engines = Vec::new();
        for engine in 0..usize::from(self.n) {
            self.engine = Some(engine);
            engines.push(self.engine()?);
        }
        self.engine = None;
        let end = "a configuration ends with the last process; words follow it";
        self.ask(self.at == self.words.len(), self.at, end)?;
        Ok(Configuration { issued: self.issued, engines })
    }

    fn engine(&mut self) -> Read<Engine> {
        let mut values = [0; 32];
        for value in &mut values {
            *value = self.value()?;
        }
        self.start = self.at;
        let process = self.process(Around { depth: DEPTH, enabled: true, handler: false })?;
        let root = matches!(process.kind, Kind::Nil | Kind::Scope);
        self.inside.push((process.kind, 0));
        self.ask(root, self.start, "an engine's process is nil or a scope")?;
        self.inside.pop();
        Ok(Engine { values, process })
    }

    fn value(&mut self) -> Read<u32> {
        Ok(u32::from(self.word()?) << 16 | u32::from(self.word()?))
    }

    fn process(&mut self, around: Around) -> Read<Process> {
        let here = self.at;
        self.ask(around.depth > 0, here, "depth is at most 64")?;
        let head = self.word()?;
        let Some(kind) = Kind::of(head >> 11) else {
            return self.wrong(here, KIND);
        };
        self.inside.push((kind, here - self.start));
        let mut process = Process::new(kind);
        self.head(&mut process, head)?;
        self.fixed(&mut process, around)?;
        self.variables(&mut process)?;
        let inner = Around { depth: around.depth - 1, ..around };
        if matches!(kind, Kind::Assign | Kind::If | Kind::While) {
            process.expression = Some(self.expression(inner.depth)?);
        }
        if kind.has_list() {
            process.list = self.list(kind, inner)?;
        }
        self.scope(&process, here, around)?;
        self.parts(&mut process, head, inner)?;
        self.inside.pop();
        Ok(process)
    }

    /// The 11 bits of a head.
    fn head(&self, process: &mut Process, head: u16) -> Read<()> {
        let here = self.at - 1;
        let six = (head >> 5 & 63) as u8;
        let five = (head & 31) as u8;
        let unused = match process.kind {
            Kind::Assign => head & 63,
            Kind::Choice => 0,
            Kind::OneWay | Kind::Request | Kind::Notify | Kind::Solicit => 0,
            Kind::Executor | Kind::Waiter => 0,
            Kind::Scope => head & 3,
            Kind::Throw | Kind::Comp | Kind::Notice => head & 31,
            _ => head & 0x7ff,
        };
        self.ask(unused == 0, here, "unused bits are 0: this head has one that is not")?;
        process.name = if process.kind == Kind::Assign { (head >> 6 & 31) as u8 } else { six };
        match process.kind {
            Kind::OneWay | Kind::Request | Kind::Waiter => process.x = vec![five],
            Kind::Notify | Kind::Solicit | Kind::Executor => process.y = vec![five],
            Kind::Scope => process.zombie = head >> 2 & 1 == 1,
            Kind::Choice => {
                let count = head & 0x7ff;
                self.ask((1..=8).contains(&count), here, "a choice has 1 to 8 branches")?;
                process.name = 0;
            }
            _ => {}
        }
        Ok(())
    }

    /// The words that follow the head, before variables, expression, list and processes.
    fn fixed(&mut self, process: &mut Process, around: Around) -> Read<()> {
        let unused = "unused bits are 0: this word of fields has one that is not";
        match process.kind {
            Kind::Request | Kind::Notify => {
                let word = self.word()?;
                self.ask(word & 0x7ff == 0, self.at - 1, unused)?;
                let variable = (word >> 11) as u8;
                if process.kind == Kind::Request {
                    process.y = vec![variable];
                } else {
                    process.z = variable;
                }
            }
            Kind::Solicit => {
                let word = self.word()?;
                self.ask(word & 63 == 0, self.at - 1, unused)?;
                process.z = (word >> 11) as u8;
                process.x = vec![(word >> 6 & 31) as u8];
            }
            Kind::Scope => self.marks(process)?,
            Kind::Executor | Kind::Waiter | Kind::Notice => self.end(process, around)?,
            _ => {}
        }
        Ok(())
    }

    fn marks(&mut self, process: &mut Process) -> Read<()> {
        let mark = self.words[self.at - 1] >> 3 & 3;
        self.ask(mark < 3, self.at - 1, "a scope's mark is 0, 1 or 2; 3 is unreadable")?;
        let word = self.word()?;
        let unused = "unused bits are 0: this word of fields has one that is not";
        self.ask(word & 0x3ff == 0, self.at - 1, unused)?;
        let clear = "the marked fault is 0 unless mark is 1";
        self.ask(mark == 1 || word == 0, self.at - 1, clear)?;
        process.mark = match mark {
            0 => Mark::None,
            1 => Mark::Fault((word >> 10) as u8),
            _ => Mark::OwnName,
        };
        Ok(())
    }

    /// An executor's, a waiter's or a notice's two fixed words.
    fn end(&mut self, process: &mut Process, around: Around) -> Read<()> {
        let stands = "kinds 16 to 18 (executor, waiter, notice) stand only enabled";
        self.ask(around.enabled, self.at - 1, stands)?;
        let word = self.word()?;
        let (engine, unused) = match process.kind {
            Kind::Executor => (word >> 13, word & 0x1fff),
            Kind::Waiter => (word >> 12 & 7, word & 0xfff),
            _ => (word >> 7 & 7, word & 0x7f),
        };
        let free = "unused bits are 0: this word of fields has one that is not";
        self.ask(unused == 0, self.at - 1, free)?;
        let below = "the engine that an executor, a waiter or a notice names is below n";
        self.ask(engine < self.n, self.at - 1, below)?;
        process.engine = engine as u8;
        process.dead = process.kind == Kind::Waiter && word >> 15 == 1;
        process.fault = if process.kind == Kind::Notice { (word >> 10) as u8 } else { 0 };
        process.serial = self.word()?;
        let issued = (1..=self.issued).contains(&process.serial);
        self.ask(issued, self.at - 1, "a serial is from 1 to issued")
    }

    fn variables(&mut self, process: &mut Process) -> Read<()> {
        match process.kind {
            Kind::OneWay | Kind::Waiter => self.further(&mut process.x, true),
            Kind::Notify | Kind::Executor => self.further(&mut process.y, false),
            Kind::Request => {
                self.further(&mut process.x, true)?;
                self.further(&mut process.y, false)
            }
            Kind::Solicit => {
                self.further(&mut process.y, false)?;
                self.further(&mut process.x, true)
            }
            _ => Ok(()),
        }
    }

    /// The count of a message's variables, and those behind the first.
    fn further(&mut self, variables: &mut Vec<u8>, distinct: bool) -> Read<()> {
        let count = self.word()?;
        self.ask((1..=4).contains(&count), self.at - 1, COUNT)?;
        for _ in 1..count {
            let word = self.word()?;
            let unused = "unused bits are 0: this further variable has one that is not";
            self.ask(word & 0x7ff == 0, self.at - 1, unused)?;
            let variable = (word >> 11) as u8;
            let twice = distinct && variables.contains(&variable);
            self.ask(!twice, self.at - 1, "no variable stands twice in a list of x")?;
            variables.push(variable);
        }
        Ok(())
    }

    fn expression(&mut self, depth: usize) -> Read<Expression> {
        let here = self.at;
        self.ask(depth > 0, here, "depth is at most 64")?;
        let word = self.word()?;
        let (top, variable) = (word >> 13, (word >> 8 & 31) as u8);
        let unused = if top == 1 { word & 0xff } else { word & 0x1fff };
        let free = "unused bits are 0: this word of an expression has one that is not";
        self.ask(unused == 0, here, free)?;
        Ok(match top {
            0 => Expression::Constant(self.value()?),
            1 => Expression::Variable(variable),
            _ => {
                let operator = OPERATORS[usize::from(top) - 2].0;
                let left = Box::new(self.expression(depth - 1)?);
                let right = Box::new(self.expression(depth - 1)?);
                Expression::Binary(operator, left, right)
            }
        })
    }

    fn list(&mut self, kind: Kind, inner: Around) -> Read<Vec<Entry>> {
        let count = self.word()?;
        let around =
            Around { enabled: false, handler: inner.handler || kind != Kind::Scope, ..inner };
        let mut list: Vec<Entry> = Vec::new();
        for _ in 0..count {
            let here = self.at;
            let key = self.key()?;
            let rises = list.last().is_none_or(|last| last.key < key);
            self.ask(rises, here, "the keys of a list strictly rise as numbers")?;
            let process = self.process(around)?;
            let empty = kind == Kind::Scope && matches!(key, Key::Scope(_)) && process.is_nil();
            self.ask(!empty, here + 1, "a scope's list has no scope key with nil")?;
            list.push(Entry { key, process });
        }
        Ok(list)
    }

    fn key(&mut self) -> Read<Key> {
        let word = self.word()?;
        let unused = "unused bits are 0: this key has one that is not";
        self.ask(word & 0x1ff == 0, self.at - 1, unused)?;
        let name = (word >> 9 & 63) as u8;
        Ok(if word >> 15 == 1 { Key::Scope(name) } else { Key::Fault(name) })
    }

    /// What is asked of a scope, whose list is read, and of cH.
    fn scope(&self, process: &Process, here: usize, around: Around) -> Read<()> {
        if process.kind == Kind::Ch {
            let inside = "cH stands only inside the list entries of kinds 10, 12, 17";
            return self.ask(around.handler, here, inside);
        }
        if process.kind != Kind::Scope {
            return Ok(());
        }
        if !around.enabled {
            let plain = process.mark == Mark::None && !process.zombie && process.list.is_empty();
            let code = "a scope that is not enabled has mark 0, zombie 0 and an empty list";
            return self.ask(plain, here, code);
        }
        let own = process.mark != Mark::OwnName || process.zombie;
        self.ask(own, here, "mark 2 stands only on a zombie")?;
        match process.mark {
            Mark::Fault(fault) => {
                let holds = process.list.iter().any(|entry| entry.key == Key::Fault(fault));
                self.ask(holds, here + 1, "with mark 1 the list holds the marked fault")
            }
            _ => Ok(()),
        }
    }

    fn parts(&mut self, process: &mut Process, head: u16, inner: Around) -> Read<()> {
        let count = match process.kind {
            Kind::Seq | Kind::Par | Kind::If => 2,
            Kind::While | Kind::Request | Kind::Scope | Kind::Executor => 1,
            Kind::Choice => 2 * usize::from(head & 0x7ff),
            _ => 0,
        };
        for index in 0..count {
            let here = self.at;
            let enabled = inner.enabled && enables(process.kind, index);
            let part = self.process(Around { enabled, ..inner })?;
            let nil = part.is_nil();
            let first = process.kind != Kind::Seq || index > 0 || !nil;
            self.ask(first, here, "no seq begins with nil")?;
            self.ask(process.kind != Kind::Par || !nil, here, "no par has a nil side")?;
            let receiver = matches!(part.kind, Kind::OneWay | Kind::Request);
            let asked = process.kind != Kind::Choice || index % 2 == 1 || receiver;
            self.ask(asked, here, "a branch of a choice begins with a process of kind 7 or 8")?;
            process.parts.push(part);
        }
        Ok(())
    }
}

/// Why a configuration that is readable is no start; None if it is one.
pub fn not_fresh(configuration: &Configuration) -> Option<Diagnosis> {
    let words = configuration.words();
    let at = |word: usize, engine, process, start, sentence| {
        Some(Diagnosis {
            word,
            content: words.get(word).copied(),
            engine,
            process,
            start,
            sentence,
        })
    };
    if configuration.issued != 0 {
        return at(1, None, None, 0, "in a start the word issued is 0");
    }
    for (index, start) in configuration.starts().into_iter().enumerate() {
        for place in places(&configuration.engines[index].process) {
            let process = place.process;
            let sentence = match process.kind {
                Kind::Nil if place.holder.is_none() => {
                    "in a start every engine's process is a scope"
                }
                kind if kind.is_end() => {
                    "in a start there are no kinds 16 to 18 (executor, waiter, notice)"
                }
                Kind::Scope if process.mark != Mark::None => "in a start every scope has mark 0",
                Kind::Scope if process.zombie => "in a start no scope is a zombie",
                Kind::Scope if !process.list.is_empty() => "in a start every scope's list is empty",
                _ => continue,
            };
            let stands = Some((process.kind, place.position));
            return at(start + place.position, Some(index), stands, start, sentence);
        }
    }
    None
}
