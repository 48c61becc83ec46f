//! The tree of a process: the nineteen kinds, handler lists, and the rebuilding of seq and par.

use crate::expression::Expression;
use crate::variables::Variables;
use std::collections::BTreeMap;
use std::rc::Rc;

/// A process inside another. Shared, not boxed: one update may put the same old handler in
/// thousands of places, and such a result must be measured before it can be refused as long.
pub type Part = Rc<Process>;

/// A handler list; the derived order of keys is their order as numbers.
pub type List = BTreeMap<Key, Part>;

#[derive(Clone, Copy, Debug, PartialEq, Eq, PartialOrd, Ord)]
pub enum Key {
    Fault(u8),
    Scope(u8),
}

#[derive(Clone, Copy, Debug, PartialEq, Eq)]
pub enum Mark {
    None,
    Fault(u8),
    OwnName,
}

#[derive(Clone, Debug, PartialEq, Eq)]
pub enum Process {
    Nil,
    Assign(u8, Rc<Expression>),
    Seq(Part, Part),
    Par(Part, Part),
    If(Rc<Expression>, Part, Part),
    While(Rc<Expression>, Part),
    Choice(Vec<Branch>),
    OneWay {
        operation: u8,
        x: Variables,
    },
    Request {
        operation: u8,
        x: Variables,
        y: Variables,
        body: Part,
    },
    Notify {
        operation: u8,
        y: Variables,
        z: u8,
    },
    Solicit {
        operation: u8,
        y: Variables,
        z: u8,
        x: Variables,
        list: List,
    },
    Scope(Scope, Part),
    Inst(List),
    Throw(u8),
    Comp(u8),
    /// cH: stands for the entry that an update replaces.
    CurrentHandler,
    Executor(Executor, Part),
    Waiter(Waiter),
    Notice(Notice),
}

/// A branch of a choice; its receiver is a one-way or a request.
#[derive(Clone, Debug, PartialEq, Eq)]
pub struct Branch {
    pub receiver: Part,
    pub then: Part,
}

/// A scope without its body.
#[derive(Clone, Debug, PartialEq, Eq)]
pub struct Scope {
    pub name: u8,
    pub mark: Mark,
    pub zombie: bool,
    pub list: List,
}

/// An executor without its body.
#[derive(Clone, Debug, PartialEq, Eq)]
pub struct Executor {
    pub operation: u8,
    pub y: Variables,
    pub client: u8,
    pub serial: u16,
}

#[derive(Clone, Debug, PartialEq, Eq)]
pub struct Waiter {
    pub operation: u8,
    pub x: Variables,
    pub dead: bool,
    pub server: u8,
    pub serial: u16,
    pub list: List,
}

#[derive(Clone, Debug, PartialEq, Eq)]
pub struct Notice {
    pub operation: u8,
    pub fault: u8,
    pub client: u8,
    pub serial: u16,
}

impl Process {
    pub fn kind(&self) -> u8 {
        match self {
            Process::Nil => 0,
            Process::Assign(..) => 1,
            Process::Seq(..) => 2,
            Process::Par(..) => 3,
            Process::If(..) => 4,
            Process::While(..) => 5,
            Process::Choice(..) => 6,
            Process::OneWay { .. } => 7,
            Process::Request { .. } => 8,
            Process::Notify { .. } => 9,
            Process::Solicit { .. } => 10,
            Process::Scope(..) => 11,
            Process::Inst(..) => 12,
            Process::Throw(..) => 13,
            Process::Comp(..) => 14,
            Process::CurrentHandler => 15,
            Process::Executor(..) => 16,
            Process::Waiter(..) => 17,
            Process::Notice(..) => 18,
        }
    }

    pub fn is_nil(&self) -> bool {
        matches!(self, Process::Nil)
    }
}

impl Scope {
    /// A scope as it stands in code: no mark, live, empty list.
    pub fn new(name: u8) -> Scope {
        Scope { name, mark: Mark::None, zombie: false, list: List::new() }
    }

    pub fn is_untouched(&self) -> bool {
        self.mark == Mark::None && !self.zombie && self.list.is_empty()
    }
}

impl Executor {
    /// What an executor leaves to its client when fault f stops it.
    pub fn notice(&self, fault: u8) -> Part {
        Rc::new(Process::Notice(Notice {
            operation: self.operation,
            fault,
            client: self.client,
            serial: self.serial,
        }))
    }
}

pub fn nil() -> Part {
    Rc::new(Process::Nil)
}

/// Rebuilt seq: drops nil before it, and nothing else (a nil second part stays).
pub fn seq(first: Part, second: Part) -> Part {
    if first.is_nil() {
        second
    } else {
        Rc::new(Process::Seq(first, second))
    }
}

/// Rebuilt par: drops nil beside it; sides never swap.
pub fn par(left: Part, right: Part) -> Part {
    if left.is_nil() {
        right
    } else if right.is_nil() {
        left
    } else {
        Rc::new(Process::Par(left, right))
    }
}
