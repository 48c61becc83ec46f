//! What the calls of a test have met: numbers by call, kinds of accepted steps, classes of input
//! and lengths of outputs. A test fails if something that it has to meet was not met.

use std::collections::BTreeMap;
use std::fmt;

/// The kinds that act in an accepted step.
pub const ACTORS: &[u8] = &[1, 4, 5, 9, 10, 11, 12, 13, 14, 16, 18];

#[derive(Clone, Debug, Default)]
pub struct Counts {
    /// Answered numbers by call.
    numbers: BTreeMap<(&'static str, u8), u64>,
    /// Accepted steps by kind of the acting process.
    kinds: BTreeMap<u8, u64>,
    /// Calls by class of input.
    classes: BTreeMap<&'static str, u64>,
    /// Steps by length of the output.
    outputs: BTreeMap<&'static str, u64>,
    /// Processes of an engine: found, or empty.
    processes: BTreeMap<&'static str, u64>,
}

/// What a test has to meet.
#[derive(Clone, Copy, Debug, Default)]
pub struct Wanted<'a> {
    pub calls: u64,
    pub step: &'a [u8],
    pub start: &'a [u8],
    pub readable: &'a [u8],
    pub ends: &'a [u8],
    pub pending: &'a [u8],
    pub kinds: &'a [u8],
    pub classes: &'a [&'a str],
    pub outputs: &'a [&'a str],
    pub processes: &'a [&'a str],
}

impl Counts {
    pub fn number(&mut self, call: &'static str, class: &'static str, number: u8) {
        *self.numbers.entry((call, number)).or_insert(0) += 1;
        *self.classes.entry(class).or_insert(0) += 1;
    }

    pub fn accepted(&mut self, kind: u8) {
        *self.kinds.entry(kind).or_insert(0) += 1;
    }

    pub fn output(&mut self, name: &'static str) {
        *self.outputs.entry(name).or_insert(0) += 1;
    }

    /// The calls of a process of an engine have no number.
    pub fn process(&mut self, class: &'static str, found: bool) {
        let name = if found { "found" } else { "empty" };
        *self.processes.entry(name).or_insert(0) += 1;
        *self.classes.entry(class).or_insert(0) += 1;
    }

    pub fn calls(&self) -> u64 {
        self.classes.values().sum()
    }

    pub fn of(&self, call: &'static str, number: u8) -> u64 {
        self.numbers.get(&(call, number)).copied().unwrap_or(0)
    }

    /// Prints the counts under the test's name and fails if anything wanted is not among them.
    pub fn report(&self, test: &str, wanted: Wanted) {
        println!("{test}: {} calls\n{self}", self.calls());
        let missing = self.missing(wanted);
        assert!(missing.is_empty(), "{test} did not meet {missing:?}");
        assert!(self.calls() >= wanted.calls, "{test} made {} calls only", self.calls());
    }

    fn missing(&self, wanted: Wanted) -> Vec<String> {
        let mut missing = Vec::new();
        let calls = [
            ("step", wanted.step),
            ("start check", wanted.start),
            ("readable check", wanted.readable),
            ("ends", wanted.ends),
            ("pending", wanted.pending),
        ];
        for (call, numbers) in calls {
            let absent = numbers.iter().filter(|number| self.of(call, **number) == 0);
            missing.extend(absent.map(|number| format!("{call} {number}")));
        }
        let kinds = wanted.kinds.iter().filter(|kind| !self.kinds.contains_key(kind));
        missing.extend(kinds.map(|kind| format!("accepted kind {kind}")));
        for (names, met) in [
            (wanted.classes, &self.classes),
            (wanted.outputs, &self.outputs),
            (wanted.processes, &self.processes),
        ] {
            let absent = names.iter().filter(|name| !met.contains_key(*name));
            missing.extend(absent.map(|name| name.to_string()));
        }
        missing
    }
}

impl fmt::Display for Counts {
    fn fmt(&self, to: &mut fmt::Formatter) -> fmt::Result {
        for ((call, number), count) in &self.numbers {
            writeln!(to, "{count:9} {call} {number}")?;
        }
        for (kind, count) in &self.kinds {
            writeln!(to, "{count:9} accepted, kind {kind}")?;
        }
        for (title, counts) in
            [("process", &self.processes), ("output", &self.outputs), ("input", &self.classes)]
        {
            for (name, count) in counts {
                writeln!(to, "{count:9} {title}: {name}")?;
            }
        }
        Ok(())
    }
}
