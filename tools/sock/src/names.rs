//! Names of engines, variables, operations, faults and scopes: what a text declares, and how a number is written where there is none.

/// The kinds of things that have names of their own.
#[derive(Clone, Copy, Debug, PartialEq, Eq)]
pub enum Family {
    Operation,
    Fault,
    Scope,
}

impl Family {
    pub fn word(self) -> &'static str {
        match self {
            Family::Operation => "operation",
            Family::Fault => "fault",
            Family::Scope => "scope",
        }
    }
}

/// Names with their numbers, in the order in which they were declared.
pub type Table = Vec<(String, u8)>;

#[derive(Clone, Debug, PartialEq, Eq, Default)]
pub struct Names {
    pub operations: Table,
    pub faults: Table,
    pub scopes: Table,
    pub engines: Table,
    /// For each engine the names of its variables.
    pub variables: Vec<Table>,
}

pub fn name_of(table: &Table, number: u8) -> Option<&str> {
    table.iter().find(|(_, has)| *has == number).map(|(name, _)| name.as_str())
}

pub fn number_of(table: &Table, name: &str) -> Option<u8> {
    table.iter().find(|(has, _)| has == name).map(|(_, number)| *number)
}

impl Names {
    pub fn table(&self, family: Family) -> &Table {
        match family {
            Family::Operation => &self.operations,
            Family::Fault => &self.faults,
            Family::Scope => &self.scopes,
        }
    }

    pub fn table_mut(&mut self, family: Family) -> &mut Table {
        match family {
            Family::Operation => &mut self.operations,
            Family::Fault => &mut self.faults,
            Family::Scope => &mut self.scopes,
        }
    }

    /// The name, or the plain number.
    pub fn written(&self, family: Family, number: u8) -> String {
        written(self.table(family), number)
    }

    /// In a sentence, where a bare number would not say what it is: the name, or "operation 3".
    pub fn said(&self, family: Family, number: u8) -> String {
        let name = name_of(self.table(family), number);
        name.map_or_else(|| format!("{} {number}", family.word()), str::to_string)
    }

    pub fn engine_name(&self, engine: usize) -> Option<&str> {
        u8::try_from(engine).ok().and_then(|number| name_of(&self.engines, number))
    }

    pub fn engine(&self, engine: usize) -> String {
        self.engine_name(engine).map_or_else(|| engine.to_string(), str::to_string)
    }

    /// In a sentence: the name, or "engine 3".
    pub fn engine_said(&self, engine: usize) -> String {
        self.engine_name(engine).map_or_else(|| format!("engine {engine}"), str::to_string)
    }

    pub fn variable_name(&self, engine: usize, variable: u8) -> Option<&str> {
        self.variables.get(engine).and_then(|table| name_of(table, variable))
    }

    /// With its engine: "lock.light", or "$5 of engine 0".
    pub fn variable_said(&self, engine: usize, variable: u8) -> String {
        let which = self.variable(engine, variable);
        match self.engine_name(engine) {
            Some(name) => format!("{name}.{which}"),
            None => format!("{which} of engine {engine}"),
        }
    }

    /// The name, or the number behind a dollar sign, since a plain number is a constant.
    pub fn variable(&self, engine: usize, variable: u8) -> String {
        match self.variable_name(engine, variable) {
            Some(name) => name.to_string(),
            None => format!("${variable}"),
        }
    }
}

fn written(table: &Table, number: u8) -> String {
    name_of(table, number).map_or_else(|| number.to_string(), str::to_string)
}

/// "engine 0, lock", or without a name.
pub fn title(names: &Names, engine: usize) -> String {
    let name = names.engine_name(engine).map_or(String::new(), |name| format!(", {name}"));
    format!("engine {engine}{name}")
}
