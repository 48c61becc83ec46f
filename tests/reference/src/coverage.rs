//! Counts which rows of the rules a run has met, seen from the outside: from a configuration,
//! a step's numbers and its answer.

use crate::calls::{Answer, Numbers};
use crate::configuration::Configuration;
use crate::context::{locate, Frame, Place};
use crate::expression::value;
use crate::handlers::substitute;
use crate::process::{nil, Key, List, Mark, Part, Process, Scope, Waiter};
use crate::variables::{Variables, MOST};
use std::collections::BTreeMap;

/// Every row that generated runs must meet.
#[rustfmt::skip]
pub const ROWS: &[&str] = &[
    "refused 1", "refused 2", "refused 3", "refused 4", "refused 5", "refused 6", "refused 7",
    "refused 8", "refused 9", "refused 10", "refused 11", "refused 12", "refused 13",
    "2: no such engine", "2: no enabled head",
    "3: kind does not move", "3: scope body not nil", "3: executor body not nil",
    "3: second field or branch not 0", "3: waiter", "3: nil", "3: seq or par",
    "4: no such engine", "4: no enabled head",
    "5: same engine", "5: partner of another kind", "5: other operation", "5: other address",
    "5: address alike in 16 bits only", "5: branch for a bare receiver",
    "5: branch for a waiter", "5: branch 0 for a choice", "5: branch above the count",
    "5: branch of the other kind", "5: other serial", "5: other client", "5: other server",
    "5: solicit at 65,535", "5: counts at 65,535",
    "5: counts of a notify", "5: counts of a solicit", "5: counts of a reply to be",
    "5: counts of a reply",
    "6: inst", "6: live scope with nil body", "6: marked live scope with nil body",
    "6: inside a zombie", "6: inside an executor", "6: inside a live scope", "6: first of a seq",
    "assign", "if true", "if false", "while true", "while true, nil body", "while false",
    "notify to a one-way", "notify to a branch", "branch one-way with nil P",
    "solicit to a request", "solicit to a branch", "branch request with nil P",
    "branch after the first", "request with body", "solicit with list", "issued above 65,000",
    "reply to a live waiter", "reply to a dead waiter", "reply with list",
    "fault to a live waiter", "fault to a dead waiter",
    "notify of one value", "notify of several values", "notify of four values",
    "solicit of one value", "solicit of several values", "solicit of four values",
    "solicit for one value", "solicit for several values", "solicit for four values",
    "reply of one value", "reply of several values", "reply of four values",
    "a variable sent twice", "fault to a waiter of several values",
    "acts inside an executor of several values",
    "inst adds a fault", "inst replaces a fault", "inst of nil for a fault",
    "inst adds a scope key", "inst replaces a scope key", "inst removes a scope key",
    "inst of nil for an absent scope key", "scope key nil only after substitution",
    "inst through an executor", "inst in a zombie", "inst of several keys",
    "cH becomes the old entry", "cH becomes nil", "cH becomes an old nil",
    "cH kept in a nested list", "cH in if", "cH in while", "cH in a branch", "cH in a request",
    "cH in a scope", "nil dropped before seq", "nil dropped beside par",
    "comp present", "comp absent", "comp through an executor", "comp in a zombie",
    "mark 1 on a live scope", "mark 1 on a zombie", "mark 1 with nil entry",
    "mark 2 with entry", "mark 2 without entry",
    "zombie ends", "zombie root ends", "live root ends", "promotion adds",
    "promotion replaces", "promotion of nil removes", "promotion of nil, none there",
    "promotion through an executor", "promotion into a zombie",
    "throw caught by a live scope", "throw caught by a zombie", "throw caught over a mark",
    "throw caught with nil entry", "throw stopped by a zombie",
    "throw stopped by a marked zombie", "throw passes a live scope",
    "throw passes a marked scope", "throw ends at the root", "throw through seq",
    "throw from the left of par", "throw from the right of par",
    "throw through an executor, body left", "throw through an executor, notice alone",
    "throw past a side that can't be killed, above its stop",
    "kills assign", "kills seq", "kills par", "kills if", "kills while", "kills choice",
    "kills one-way", "kills request", "kills notify", "kills solicit", "kills throw",
    "kills comp", "kills live scope", "kills live scope with mark 1",
    "kills live scope, body becomes nil", "kills executor with nil body",
    "kills executor, body becomes nil", "kills executor, body left", "kills live waiter",
    "kills dead waiter", "kills notice", "kills notice of another fault", "kills zombie",
    "kills zombie with nil body", "kills zombie with mark 1", "kills zombie with mark 2",
    "seq drops to its second", "par drops to its right", "par drops to its left",
    "root becomes nil",
];

/// Messages of one, of several and of four values.
const NOTIFIES: [&str; 3] =
    ["notify of one value", "notify of several values", "notify of four values"];
const SOLICITS: [&str; 3] =
    ["solicit of one value", "solicit of several values", "solicit of four values"];
const AWAITED: [&str; 3] =
    ["solicit for one value", "solicit for several values", "solicit for four values"];
const REPLIES: [&str; 3] =
    ["reply of one value", "reply of several values", "reply of four values"];

#[derive(Clone, Debug, Default)]
pub struct Coverage {
    pub counts: BTreeMap<&'static str, u64>,
}

impl Coverage {
    pub fn note(&mut self, row: &'static str) {
        *self.counts.entry(row).or_insert(0) += 1;
    }

    fn note_if(&mut self, condition: bool, row: &'static str) {
        if condition {
            self.note(row);
        }
    }

    /// Rows that must be met and were not.
    pub fn missing(&self) -> Vec<&'static str> {
        ROWS.iter().filter(|row| !self.counts.contains_key(*row)).copied().collect()
    }

    /// Rows that were noted and stand in no list: slips of this module.
    pub fn unknown(&self) -> Vec<&'static str> {
        self.counts.keys().filter(|row| !ROWS.contains(row)).copied().collect()
    }

    pub fn refusal(&mut self, number: u8) {
        let row = ROWS.iter().find(|row| **row == format!("refused {number}"));
        if let Some(row) = row {
            self.note(row);
        }
    }

    /// A step on a readable configuration.
    pub fn step(&mut self, before: &Configuration, numbers: Numbers, answer: &Answer) {
        if answer.number != 0 {
            self.refusal(answer.number);
        }
        match answer.number {
            0 => self.accepted(before, numbers),
            2 => self.absent(before, numbers.engine, "2: no such engine", "2: no enabled head"),
            3 => self.no_move(before, numbers),
            4 => {
                let engine = numbers.second_engine;
                self.absent(before, engine, "4: no such engine", "4: no enabled head");
            }
            5 => self.no_fit(before, numbers),
            6 => self.installing(before, numbers),
            _ => {}
        }
    }

    fn absent(&mut self, c: &Configuration, engine: u16, no: &'static str, head: &'static str) {
        self.note(if usize::from(engine) >= c.engines.len() { no } else { head });
    }

    fn no_move(&mut self, before: &Configuration, numbers: Numbers) {
        let Some(acting) = find(before, numbers.engine, numbers.position) else { return };
        self.note(match &*acting.process {
            Process::Scope(_, body) if !body.is_nil() => "3: scope body not nil",
            Process::Executor(_, body) if !body.is_nil() => "3: executor body not nil",
            Process::Waiter(_) => "3: waiter",
            Process::Nil => "3: nil",
            Process::Seq(..) | Process::Par(..) => "3: seq or par",
            other => match other.kind() {
                6..=8 => "3: kind does not move",
                _ => "3: second field or branch not 0",
            },
        });
    }

    fn no_fit(&mut self, before: &Configuration, numbers: Numbers) {
        let Some(sender) = find(before, numbers.engine, numbers.position) else { return };
        let second = find(before, numbers.second_engine, numbers.second_position);
        let Some(receiver) = second else { return };
        let solicits = sender.process.kind() == 10;
        self.note_if(solicits && before.issued == u16::MAX, "5: solicit at 65,535");
        if numbers.engine == numbers.second_engine {
            return self.note("5: same engine");
        }
        match (&*sender.process, &*receiver.process) {
            (Process::Notify { operation, z, .. }, _) => {
                let offer = (*operation, *z, 7);
                self.no_meeting(before, numbers, offer, &sender.process, &receiver.process);
            }
            (Process::Solicit { operation, z, .. }, _) => {
                let offer = (*operation, *z, 8);
                self.no_meeting(before, numbers, offer, &sender.process, &receiver.process);
            }
            (Process::Executor(e, _), Process::Waiter(waiter)) => {
                self.no_delivery(numbers, (e.operation, e.client, e.serial), waiter);
            }
            (Process::Notice(n), Process::Waiter(waiter)) => {
                self.no_delivery(numbers, (n.operation, n.client, n.serial), waiter);
            }
            _ => self.note("5: partner of another kind"),
        }
    }

    fn no_meeting(
        &mut self,
        before: &Configuration,
        numbers: Numbers,
        (operation, z, wanted): (u8, u8, u8),
        sender: &Process,
        receiver: &Process,
    ) {
        let (offer, bare) = match receiver {
            Process::Choice(branches) => {
                if numbers.branch == 0 {
                    return self.note("5: branch 0 for a choice");
                }
                match branches.get(usize::from(numbers.branch) - 1) {
                    None => return self.note("5: branch above the count"),
                    Some(branch) => (&*branch.receiver, false),
                }
            }
            bare => (bare, true),
        };
        if offer.kind() != wanted {
            let other_kind = !bare && matches!(offer.kind(), 7 | 8);
            self.note_if(other_kind, "5: branch of the other kind");
            self.note_if(!other_kind, "5: partner of another kind");
            return;
        }
        let offered = match offer {
            Process::OneWay { operation, .. } | Process::Request { operation, .. } => *operation,
            _ => return,
        };
        let values = before.engines.get(usize::from(numbers.engine)).map(|e| e.values);
        let address = value(&values.unwrap_or([0; 32]), z);
        let second = numbers.second_engine;
        self.note_if(bare && numbers.branch != 0, "5: branch for a bare receiver");
        self.note_if(operation != offered, "5: other operation");
        self.note_if(address != u32::from(second), "5: other address");
        let alike = address != u32::from(second) && address as u16 == second;
        self.note_if(alike, "5: address alike in 16 bits only");
        let at_fault = (bare == (numbers.branch == 0)) && operation == offered;
        if at_fault && address == u32::from(second) {
            self.no_counts(before, sender, offer);
        }
    }

    /// Two that fit but for their counts.
    fn no_counts(&mut self, before: &Configuration, sender: &Process, offer: &Process) {
        match (sender, offer) {
            (Process::Notify { .. }, _) => self.note("5: counts of a notify"),
            (Process::Solicit { y, x, .. }, Process::Request { x: into, y: answer, .. }) => {
                self.note_if(y.count() != into.count(), "5: counts of a solicit");
                self.note_if(x.count() != answer.count(), "5: counts of a reply to be");
                self.note_if(before.issued == u16::MAX, "5: counts at 65,535");
            }
            _ => {}
        }
    }

    fn no_delivery(
        &mut self,
        numbers: Numbers,
        (operation, client, serial): (u8, u8, u16),
        waiter: &Waiter,
    ) {
        self.note_if(numbers.branch != 0, "5: branch for a waiter");
        self.note_if(operation != waiter.operation, "5: other operation");
        self.note_if(serial != waiter.serial, "5: other serial");
        self.note_if(u16::from(client) != numbers.second_engine, "5: other client");
        self.note_if(u16::from(waiter.server) != numbers.engine, "5: other server");
        let fits = numbers.branch == 0
            && (operation, serial) == (waiter.operation, waiter.serial)
            && u16::from(client) == numbers.second_engine
            && u16::from(waiter.server) == numbers.engine;
        // Then only the counts are left.
        self.note_if(fits, "5: counts of a reply");
    }

    fn installing(&mut self, before: &Configuration, numbers: Numbers) {
        let Some(acting) = find(before, numbers.engine, numbers.position) else { return };
        for frame in acting.frames.iter().rev() {
            if let Frame::ParLeft(side) | Frame::ParRight(side) = frame {
                if can_not_be_killed(side) {
                    return self.pending(side);
                }
            }
        }
    }

    /// What in a side can't be killed.
    fn pending(&mut self, process: &Process) {
        match process {
            Process::Inst(_) => self.note("6: inst"),
            Process::Scope(scope, body) if !scope.zombie && body.is_nil() => {
                self.note("6: live scope with nil body");
                self.note_if(scope.mark != Mark::None, "6: marked live scope with nil body");
            }
            Process::Scope(scope, body) if can_not_be_killed(body) => {
                self.note(if scope.zombie {
                    "6: inside a zombie"
                } else {
                    "6: inside a live scope"
                });
                self.pending(body);
            }
            Process::Executor(_, body) if can_not_be_killed(body) => {
                self.note("6: inside an executor");
                self.pending(body);
            }
            Process::Seq(first, _) if can_not_be_killed(first) => {
                self.note("6: first of a seq");
                self.pending(first);
            }
            Process::Par(left, right) => {
                self.pending(left);
                self.pending(right);
            }
            _ => {}
        }
    }

    fn accepted(&mut self, before: &Configuration, numbers: Numbers) {
        let Some(place) = find(before, numbers.engine, numbers.position) else { return };
        let values = before.engines.get(usize::from(numbers.engine)).map(|e| e.values);
        let values = values.unwrap_or([0; 32]);
        let several = |frame: &Frame| matches!(frame, Frame::ExecutorBody(e) if e.y.count() > 1);
        let inside = place.frames.iter().any(several);
        self.note_if(inside, "acts inside an executor of several values");
        match &*place.process {
            Process::Assign(..) => {
                self.note("assign");
                self.becomes_nil(&place);
            }
            Process::If(condition, ..) => {
                let holds = condition.is_true(&values) == Some(true);
                self.note(if holds { "if true" } else { "if false" });
            }
            Process::While(condition, body) => {
                let again = condition.is_true(&values) == Some(true);
                self.note(if again { "while true" } else { "while false" });
                self.note_if(again && body.is_nil(), "while true, nil body");
            }
            Process::Inst(list) => self.inst(&place, list),
            Process::Comp(name) => self.comp(&place, *name),
            Process::Scope(scope, _) => self.scope_ends(&place, scope),
            Process::Throw(fault) => self.throw(&place, *fault),
            _ => self.two(before, numbers, &place),
        }
    }

    /// The acting process becomes nil: which drops that brings.
    fn becomes_nil(&mut self, place: &Place) {
        match place.frames.last() {
            Some(Frame::SeqFirst(_)) => self.note("seq drops to its second"),
            Some(Frame::ParLeft(_)) => self.note("par drops to its right"),
            Some(Frame::ParRight(_)) => self.note("par drops to its left"),
            None => self.note("root becomes nil"),
            _ => {}
        }
    }

    fn inst(&mut self, place: &Place, list: &List) {
        self.becomes_nil(place);
        let Some((scope, through)) = nearest(&place.frames) else { return };
        self.note_if(through, "inst through an executor");
        self.note_if(scope.zombie, "inst in a zombie");
        self.note_if(list.len() > 1, "inst of several keys");
        for (key, process) in list {
            self.entry(scope, *key, process);
        }
    }

    fn entry(&mut self, scope: &Scope, key: Key, process: &Part) {
        let there = scope.list.get(&key);
        let old = there.cloned().unwrap_or_else(nil);
        let new = substitute(process, &old);
        self.note(match (key, there.is_some(), new.is_nil()) {
            (Key::Fault(_), false, _) => "inst adds a fault",
            (Key::Fault(_), true, _) => "inst replaces a fault",
            (Key::Scope(_), true, true) => "inst removes a scope key",
            (Key::Scope(_), false, true) => "inst of nil for an absent scope key",
            (Key::Scope(_), false, false) => "inst adds a scope key",
            (Key::Scope(_), true, false) => "inst replaces a scope key",
        });
        let is_scope = matches!(key, Key::Scope(_));
        self.note_if(new.is_nil() && !is_scope, "inst of nil for a fault");
        let late = is_scope && new.is_nil() && !process.is_nil();
        self.note_if(late, "scope key nil only after substitution");
        self.note_if(holds_handler(process) && !old.is_nil(), "cH becomes the old entry");
        self.note_if(holds_handler(process) && there.is_none(), "cH becomes nil");
        let old_nil = there.is_some() && old.is_nil();
        self.note_if(holds_handler(process) && old_nil, "cH becomes an old nil");
        self.inside_entry(process, &old);
    }

    /// Where cH stands in a new entry, and what its substitution drops.
    fn inside_entry(&mut self, process: &Process, old: &Part) {
        let nil_now = |part: &Part| substitute(part, old).is_nil();
        match process {
            Process::Seq(first, second) => {
                self.note_if(nil_now(first), "nil dropped before seq");
                self.inside_entry(first, old);
                self.inside_entry(second, old);
            }
            Process::Par(left, right) => {
                self.note_if(nil_now(left) || nil_now(right), "nil dropped beside par");
                self.inside_entry(left, old);
                self.inside_entry(right, old);
            }
            Process::If(_, yes, no) => {
                self.note_if(holds_handler(yes) || holds_handler(no), "cH in if");
                self.inside_entry(yes, old);
                self.inside_entry(no, old);
            }
            Process::While(_, body) => {
                self.note_if(holds_handler(body), "cH in while");
                self.inside_entry(body, old);
            }
            Process::Request { body, .. } => {
                self.note_if(holds_handler(body), "cH in a request");
                self.inside_entry(body, old);
            }
            Process::Scope(_, body) => {
                self.note_if(holds_handler(body), "cH in a scope");
                self.inside_entry(body, old);
            }
            Process::Choice(branches) => {
                for branch in branches {
                    self.note_if(holds_handler(&branch.then), "cH in a branch");
                    self.inside_entry(&branch.receiver, old);
                    self.inside_entry(&branch.then, old);
                }
            }
            Process::Solicit { list, .. } | Process::Inst(list) => {
                let kept = list.values().any(|process| holds_handler(process));
                self.note_if(kept, "cH kept in a nested list");
            }
            _ => {}
        }
    }

    fn comp(&mut self, place: &Place, name: u8) {
        let Some((scope, through)) = nearest(&place.frames) else { return };
        let there = scope.list.contains_key(&Key::Scope(name));
        self.note(if there { "comp present" } else { "comp absent" });
        self.note_if(through, "comp through an executor");
        self.note_if(scope.zombie, "comp in a zombie");
    }

    fn scope_ends(&mut self, place: &Place, scope: &Scope) {
        let own = Key::Scope(scope.name);
        match scope.mark {
            Mark::Fault(fault) => {
                let row =
                    if scope.zombie { "mark 1 on a zombie" } else { "mark 1 on a live scope" };
                self.note(row);
                let entry = scope.list.get(&Key::Fault(fault));
                self.note_if(entry.is_some_and(|e| e.is_nil()), "mark 1 with nil entry");
            }
            Mark::OwnName => {
                let there = scope.list.contains_key(&own);
                self.note(if there { "mark 2 with entry" } else { "mark 2 without entry" });
            }
            Mark::None => {
                self.becomes_nil(place);
                self.promotion(place, scope, own);
            }
        }
    }

    fn promotion(&mut self, place: &Place, scope: &Scope, own: Key) {
        let Some((outer, through)) = nearest(&place.frames) else {
            let row = if scope.zombie { "zombie root ends" } else { "live root ends" };
            return self.note(row);
        };
        if scope.zombie {
            return self.note("zombie ends");
        }
        self.note_if(through, "promotion through an executor");
        self.note_if(outer.zombie, "promotion into a zombie");
        self.note(match (scope.list.contains_key(&own), outer.list.contains_key(&own)) {
            (true, true) => "promotion replaces",
            (true, false) => "promotion adds",
            (false, true) => "promotion of nil removes",
            (false, false) => "promotion of nil, none there",
        });
    }

    fn throw(&mut self, place: &Place, fault: u8) {
        let mut nothing_left = true;
        let mut stopped = false;
        for frame in place.frames.iter().rev() {
            if stopped {
                self.above_the_stop(frame);
                continue;
            }
            match frame {
                Frame::SeqFirst(_) => self.note("throw through seq"),
                Frame::ParLeft(side) => {
                    self.note("throw from the left of par");
                    nothing_left &= self.kill(side, fault);
                }
                Frame::ParRight(side) => {
                    self.note("throw from the right of par");
                    nothing_left &= self.kill(side, fault);
                }
                Frame::ExecutorBody(_) => {
                    self.note(match nothing_left {
                        true => "throw through an executor, notice alone",
                        false => "throw through an executor, body left",
                    });
                    nothing_left = false;
                }
                Frame::ScopeBody(scope) => {
                    stopped = self.throw_at_scope(scope, fault);
                    nothing_left = false;
                }
            }
        }
        self.note_if(!stopped, "throw ends at the root");
    }

    fn above_the_stop(&mut self, frame: &Frame) {
        if let Frame::ParLeft(side) | Frame::ParRight(side) = frame {
            let pending = can_not_be_killed(side);
            self.note_if(pending, "throw past a side that can't be killed, above its stop");
        }
    }

    fn throw_at_scope(&mut self, scope: &Scope, fault: u8) -> bool {
        let marked = scope.mark != Mark::None;
        if let Some(entry) = scope.list.get(&Key::Fault(fault)) {
            self.note(match scope.zombie {
                true => "throw caught by a zombie",
                false => "throw caught by a live scope",
            });
            self.note_if(marked, "throw caught over a mark");
            self.note_if(entry.is_nil(), "throw caught with nil entry");
            return true;
        }
        if scope.zombie {
            self.note("throw stopped by a zombie");
            self.note_if(marked, "throw stopped by a marked zombie");
            return true;
        }
        self.note("throw passes a live scope");
        self.note_if(marked, "throw passes a marked scope");
        false
    }

    /// Notes what a kill meets; true if nil is left.
    fn kill(&mut self, process: &Process, fault: u8) -> bool {
        match process {
            Process::Seq(first, _) => {
                self.note("kills seq");
                self.kill(first, fault)
            }
            Process::Par(left, right) => {
                self.note("kills par");
                let left = self.kill(left, fault);
                self.kill(right, fault) && left
            }
            Process::Scope(scope, body) if scope.zombie => {
                self.note("kills zombie");
                self.note_if(body.is_nil(), "kills zombie with nil body");
                let fault_mark = matches!(scope.mark, Mark::Fault(_));
                self.note_if(fault_mark, "kills zombie with mark 1");
                self.note_if(scope.mark == Mark::OwnName, "kills zombie with mark 2");
                false
            }
            Process::Scope(scope, body) => {
                self.note("kills live scope");
                self.note_if(scope.mark != Mark::None, "kills live scope with mark 1");
                let nothing = self.kill(body, fault);
                self.note_if(nothing, "kills live scope, body becomes nil");
                false
            }
            Process::Executor(_, body) if body.is_nil() => {
                self.note("kills executor with nil body");
                false
            }
            Process::Executor(_, body) => {
                let nothing = self.kill(body, fault);
                self.note(match nothing {
                    true => "kills executor, body becomes nil",
                    false => "kills executor, body left",
                });
                false
            }
            Process::Waiter(waiter) => {
                self.note(if waiter.dead { "kills dead waiter" } else { "kills live waiter" });
                false
            }
            Process::Notice(notice) => {
                self.note("kills notice");
                self.note_if(notice.fault != fault, "kills notice of another fault");
                false
            }
            gone => {
                self.kill_gone(gone);
                true
            }
        }
    }

    fn kill_gone(&mut self, process: &Process) {
        match process {
            Process::Assign(..) => self.note("kills assign"),
            Process::If(..) => self.note("kills if"),
            Process::While(..) => self.note("kills while"),
            Process::Choice(_) => self.note("kills choice"),
            Process::OneWay { .. } => self.note("kills one-way"),
            Process::Request { .. } => self.note("kills request"),
            Process::Notify { .. } => self.note("kills notify"),
            Process::Solicit { .. } => self.note("kills solicit"),
            Process::Throw(_) => self.note("kills throw"),
            Process::Comp(_) => self.note("kills comp"),
            _ => {}
        }
    }

    fn two(&mut self, before: &Configuration, numbers: Numbers, sender: &Place) {
        let second = find(before, numbers.second_engine, numbers.second_position);
        let Some(receiver) = second else { return };
        let dead = matches!(&*receiver.process, Process::Waiter(waiter) if waiter.dead);
        match &*sender.process {
            Process::Executor(executor, _) => {
                self.becomes_nil(sender);
                self.message(REPLIES, &executor.y);
                self.note(if dead { "reply to a dead waiter" } else { "reply to a live waiter" });
                if let Process::Waiter(waiter) = &*receiver.process {
                    self.note_if(!waiter.list.is_empty(), "reply with list");
                }
            }
            Process::Notice(_) => {
                self.becomes_nil(sender);
                if let Process::Waiter(waiter) = &*receiver.process {
                    let several = waiter.x.count() > 1;
                    self.note_if(several, "fault to a waiter of several values");
                }
                self.note(if dead { "fault to a dead waiter" } else { "fault to a live waiter" });
            }
            Process::Solicit { list, y, x, .. } => {
                self.message(SOLICITS, y);
                self.counted(AWAITED, x.count());
                self.note_if(!list.is_empty(), "solicit with list");
                self.note_if(before.issued > 65_000, "issued above 65,000");
                self.met(numbers, &receiver.process);
            }
            other => {
                if let Process::Notify { y, .. } = other {
                    self.message(NOTIFIES, y);
                }
                self.becomes_nil(sender);
                self.met(numbers, &receiver.process);
            }
        }
    }

    /// What is sent, by its count.
    fn message(&mut self, rows: [&'static str; 3], y: &Variables) {
        self.counted(rows, y.count());
        self.note_if(!y.are_distinct(), "a variable sent twice");
    }

    fn counted(&mut self, [one, several, four]: [&'static str; 3], count: usize) {
        self.note(if count == 1 { one } else { several });
        self.note_if(count == MOST, four);
    }

    fn met(&mut self, numbers: Numbers, receiver: &Process) {
        match receiver {
            Process::OneWay { .. } => self.note("notify to a one-way"),
            Process::Request { body, .. } => {
                self.note("solicit to a request");
                self.note_if(!body.is_nil(), "request with body");
            }
            Process::Choice(branches) => {
                self.note_if(numbers.branch > 1, "branch after the first");
                let index = usize::from(numbers.branch).saturating_sub(1);
                let Some(branch) = branches.get(index) else { return };
                let one_way = branch.receiver.kind() == 7;
                self.note(if one_way { "notify to a branch" } else { "solicit to a branch" });
                if branch.then.is_nil() {
                    self.note(match one_way {
                        true => "branch one-way with nil P",
                        false => "branch request with nil P",
                    });
                }
            }
            _ => {}
        }
    }
}

fn find(configuration: &Configuration, engine: u16, position: u16) -> Option<Place> {
    let engine = configuration.engines.get(usize::from(engine))?;
    locate(&engine.process, usize::from(position))
}

/// The nearest scope, and whether an executor stands between.
fn nearest(frames: &[Frame]) -> Option<(&Scope, bool)> {
    let mut through = false;
    for frame in frames.iter().rev() {
        match frame {
            Frame::ScopeBody(scope) => return Some((scope, through)),
            Frame::ExecutorBody(_) => through = true,
            _ => {}
        }
    }
    None
}

/// Whether an enabled inst, or a live scope with nil body, stands in an enabled process.
fn can_not_be_killed(process: &Process) -> bool {
    match process {
        Process::Inst(_) => true,
        Process::Scope(scope, body) => (!scope.zombie && body.is_nil()) || can_not_be_killed(body),
        Process::Seq(first, _) => can_not_be_killed(first),
        Process::Par(left, right) => can_not_be_killed(left) || can_not_be_killed(right),
        Process::Executor(_, body) => can_not_be_killed(body),
        _ => false,
    }
}

/// Whether cH stands in a process outside the lists in it.
fn holds_handler(process: &Process) -> bool {
    match process {
        Process::CurrentHandler => true,
        Process::Seq(one, two) | Process::Par(one, two) | Process::If(_, one, two) => {
            holds_handler(one) || holds_handler(two)
        }
        Process::While(_, body) | Process::Request { body, .. } | Process::Scope(_, body) => {
            holds_handler(body)
        }
        Process::Choice(branches) => {
            branches.iter().any(|b| holds_handler(&b.receiver) || holds_handler(&b.then))
        }
        _ => false,
    }
}
