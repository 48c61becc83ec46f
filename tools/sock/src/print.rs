//! From the tree to the text form: the inverse of the parser, in the layout that docs/TEXT.md describes. What has a name is written by it.

use crate::names::{Family, Names};
use crate::tree::{
    Configuration, Engine, Entry, Expression, Key, Kind, Mark, Operator, Process, OPERATORS,
};

/// Lines up to here may hold a whole block.
const WIDTH: usize = 100;

/// The text of a configuration and of steps behind it.
pub fn print(names: &Names, configuration: &Configuration, steps: &[String]) -> String {
    let mut lines = Vec::new();
    for family in [Family::Operation, Family::Fault, Family::Scope] {
        for (name, number) in names.table(family) {
            lines.push(format!("{} {name} {number}", family.word()));
        }
    }
    if configuration.issued > 0 {
        lines.push(format!("issued {}", configuration.issued));
    }
    for (index, engine) in configuration.engines.iter().enumerate() {
        if !lines.is_empty() {
            lines.push(String::new());
        }
        lines.extend(engine_lines(names, index, engine));
    }
    if !steps.is_empty() {
        lines.push(String::new());
        lines.push("steps {".to_string());
        lines.extend(steps.iter().map(|step| format!("    {step}")));
        lines.push("}".to_string());
    }
    lines.join("\n") + "\n"
}

fn engine_lines(names: &Names, index: usize, engine: &Engine) -> Vec<String> {
    let printer = Printer { names, engine: index };
    let name = names.engine_name(index);
    let mut lines = vec![name.map_or("engine {".to_string(), |name| format!("engine {name} {{"))];
    let mut inner = Vec::new();
    for variable in 0..32u8 {
        let value = engine.values[usize::from(variable)];
        let name = names.variable_name(index, variable);
        if name.is_none() && value == 0 {
            continue;
        }
        let name = name.map_or(String::new(), |name| format!("{name} "));
        let start = if value == 0 { String::new() } else { format!(" = {}", value as i32) };
        inner.push(format!("var {name}${variable}{start}"));
    }
    if !inner.is_empty() && !engine.process.is_nil() {
        inner.push(String::new());
    }
    inner.extend(printer.block(&engine.process));
    lines.extend(inner.into_iter().map(indented));
    lines.push("}".to_string());
    lines
}

/// Prints processes of one engine.
pub struct Printer<'a> {
    pub names: &'a Names,
    pub engine: usize,
}

fn indented(line: String) -> String {
    if line.is_empty() {
        line
    } else {
        format!("    {line}")
    }
}

/// Puts lines in braces behind the last line: on that line if there is one at most and room for it.
fn braces(lines: &mut Vec<String>, inner: Vec<String>) {
    let Some(last) = lines.last_mut() else { return };
    match inner.as_slice() {
        [] => last.push_str(" {}"),
        [one] if last.len() + one.len() + 5 <= WIDTH => {
            last.push_str(&format!(" {{ {one} }}"));
        }
        _ => {
            last.push_str(" {");
            lines.extend(inner.into_iter().map(indented));
            lines.push("}".to_string());
        }
    }
}

fn append(lines: &mut [String], text: &str) {
    if let Some(last) = lines.last_mut() {
        last.push_str(text);
    }
}

impl Printer<'_> {
    /// What stands between braces; nothing for nil.
    pub fn block(&self, process: &Process) -> Vec<String> {
        if process.is_bare_nil() {
            return Vec::new();
        }
        let chained = matches!(process.kind, Kind::Seq | Kind::Par) && process.labels.is_empty();
        if !chained {
            return self.item(process);
        }
        let sign = if process.kind == Kind::Seq { ";" } else { " |" };
        let mut lines = Vec::new();
        let mut rest = process;
        while rest.kind == process.kind && rest.labels.is_empty() {
            lines.extend(self.item(&rest.parts[0]));
            append(&mut lines, sign);
            rest = &rest.parts[1];
        }
        lines.extend(self.item(rest));
        lines
    }

    /// One item of a chain, with its labels.
    fn item(&self, process: &Process) -> Vec<String> {
        let mut lines = self.unlabelled(process);
        for label in process.labels.iter().rev() {
            lines[0].insert_str(0, &format!("{label}: "));
        }
        lines
    }

    fn unlabelled(&self, process: &Process) -> Vec<String> {
        let mut lines = vec![self.head(process)];
        match process.kind {
            Kind::Seq | Kind::Par => return self.group(process),
            Kind::If => {
                braces(&mut lines, self.block(&process.parts[0]));
                if !process.parts[1].is_bare_nil() {
                    append(&mut lines, " else");
                    braces(&mut lines, self.block(&process.parts[1]));
                }
            }
            Kind::While => braces(&mut lines, self.block(&process.parts[0])),
            Kind::Choice => {
                let inner: Vec<String> = process
                    .parts
                    .chunks(2)
                    .flat_map(|pair| self.branch(&pair[0], &pair[1]))
                    .collect();
                lines[0].push_str(" {");
                lines.extend(inner.into_iter().map(indented));
                lines.push("}".to_string());
            }
            Kind::Scope => {
                if !process.list.is_empty() {
                    append(&mut lines, " handlers");
                    braces(&mut lines, self.list(&process.list));
                }
                braces(&mut lines, self.block(&process.parts[0]));
            }
            Kind::Inst => braces(&mut lines, self.list(&process.list)),
            Kind::Solicit | Kind::Waiter if !process.list.is_empty() => {
                braces(&mut lines, self.list(&process.list))
            }
            Kind::Request | Kind::Executor if !process.parts[0].is_bare_nil() => {
                braces(&mut lines, self.block(&process.parts[0]))
            }
            _ => {}
        }
        lines
    }

    /// A chain inside another, in braces of its own.
    fn group(&self, process: &Process) -> Vec<String> {
        let plain = Process { labels: Vec::new(), ..process.clone() };
        let mut lines = vec!["{".to_string()];
        lines.extend(self.block(&plain).into_iter().map(indented));
        lines.push("}".to_string());
        lines
    }

    fn branch(&self, receiver: &Process, then: &Process) -> Vec<String> {
        let mut lines = self.item(receiver);
        if !then.is_bare_nil() {
            append(&mut lines, " then");
            braces(&mut lines, self.block(then));
        }
        lines
    }

    fn list(&self, list: &[Entry]) -> Vec<String> {
        list.iter().flat_map(|entry| self.entry(entry)).collect()
    }

    fn entry(&self, entry: &Entry) -> Vec<String> {
        let mut lines = vec![format!("on {}", self.key(entry.key))];
        braces(&mut lines, self.block(&entry.process));
        lines
    }

    pub fn key(&self, key: Key) -> String {
        match key {
            Key::Fault(name) => format!("fault {}", self.names.written(Family::Fault, name)),
            Key::Scope(name) => format!("scope {}", self.names.written(Family::Scope, name)),
        }
    }

    /// The first line of a process, without lists and processes in it.
    pub fn head(&self, process: &Process) -> String {
        let kind = process.kind.name();
        let expression = process.expression.as_ref();
        let expression =
            expression.map_or(String::new(), |expression| self.expression(expression, 0));
        match process.kind {
            Kind::Assign => format!("{} := {expression}", self.variable(process.name)),
            Kind::If | Kind::While => format!("{kind} {expression}"),
            Kind::OneWay | Kind::Request | Kind::Notify | Kind::Solicit => {
                self.communication_head(process)
            }
            Kind::Scope => self.scope_head(process),
            Kind::Throw => format!("{kind} {}", self.names.written(Family::Fault, process.name)),
            Kind::Comp => format!("{kind} {}", self.names.written(Family::Scope, process.name)),
            Kind::Executor | Kind::Waiter | Kind::Notice => self.end_head(process),
            _ => kind.to_string(),
        }
    }

    fn communication_head(&self, process: &Process) -> String {
        let operation = self.names.written(Family::Operation, process.name);
        let head = format!("{} {operation}", process.kind.name());
        let (x, y) = (self.message(&process.x), self.message(&process.y));
        let z = self.variable(process.z);
        match process.kind {
            Kind::OneWay => format!("{head} {x}"),
            Kind::Request => format!("{head} {x} reply {y}"),
            Kind::Notify => format!("{head} {y} to {z}"),
            _ => format!("{head} {y} to {z} reply {x}"),
        }
    }

    fn end_head(&self, process: &Process) -> String {
        let operation = self.names.written(Family::Operation, process.name);
        let head = format!("{} {operation}", process.kind.name());
        let (x, y) = (self.message(&process.x), self.message(&process.y));
        let fault = self.names.written(Family::Fault, process.fault);
        let other = self.names.engine(usize::from(process.engine));
        let serial = format!("serial {}", process.serial);
        match process.kind {
            Kind::Executor => format!("{head} reply {y} for {other} {serial}"),
            Kind::Waiter if process.dead => format!("{head} reply {x} from {other} {serial} dead"),
            Kind::Waiter => format!("{head} reply {x} from {other} {serial}"),
            _ => format!("{head} fault {fault} for {other} {serial}"),
        }
    }

    fn scope_head(&self, process: &Process) -> String {
        let mut head = format!("scope {}", self.names.written(Family::Scope, process.name));
        if process.zombie {
            head.push_str(" zombie");
        }
        match process.mark {
            Mark::None => {}
            Mark::Fault(fault) => head
                .push_str(&format!(" marked fault {}", self.names.written(Family::Fault, fault))),
            Mark::OwnName => head.push_str(" marked own"),
        }
        head
    }

    pub fn variable(&self, variable: u8) -> String {
        self.names.variable(self.engine, variable)
    }

    fn message(&self, variables: &[u8]) -> String {
        let names: Vec<String> =
            variables.iter().map(|variable| self.variable(*variable)).collect();
        format!("({})", names.join(", "))
    }

    /// In parentheses if it binds weaker than what is around it asks for.
    pub fn expression(&self, expression: &Expression, binds: u8) -> String {
        let (operator, left, right) = match expression {
            Expression::Constant(value) => return (*value as i32).to_string(),
            Expression::Variable(variable) => return self.variable(*variable),
            Expression::Binary(operator, left, right) => (*operator, left, right),
        };
        let compares = matches!(operator, Operator::Less | Operator::Equal);
        let (own, first) = if compares { (0, 1) } else { (1, 1) };
        let second = if compares { 1 } else { 2 };
        let decimal = matches!(operator, Operator::DecimalSum | Operator::DecimalDifference);
        let side = |side: &Expression, binds| match side {
            Expression::Constant(value) if decimal => format!("0x{value:x}"),
            side => self.expression(side, binds),
        };
        let text = format!(
            "{} {} {}",
            side(left, first),
            OPERATORS[operator as usize].1,
            side(right, second)
        );
        if own < binds {
            format!("({text})")
        } else {
            text
        }
    }
}
