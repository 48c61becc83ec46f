//! The tree of a configuration as a picture: SVG, or the language of graphviz. Rows are those of the viewer; an open serial joins its ends.

use crate::moves::able;
use crate::names::{title, Names};
use crate::show::{rows, serials, values_lines, Row};
use crate::state::State;
use std::collections::{BTreeMap, BTreeSet};
use std::fmt::Write;

const ROW: usize = 26;
const INDENT: usize = 24;

const STYLE: &str = "<style>
text { font: 13px monospace; fill: #222 }
.engine { font-weight: bold }
.values { fill: #555 }
rect { fill: #f4f4f4; stroke: #999 }
.enabled { fill: #e2f2e2; stroke: #3a7d3a }
.moves { fill: #bfe6bf; stroke: #1d5c1d; stroke-width: 2 }
path { fill: none; stroke: #999 }
.serial { stroke: #b04a00; stroke-dasharray: 5 3 }
.number { fill: #b04a00 }
</style>
";

/// A box: its edges, and the middle of its row.
#[derive(Clone, Copy)]
struct Edges {
    left: usize,
    right: usize,
    middle: usize,
}

/// What is drawn so far.
struct Drawing {
    body: String,
    /// By engine and position.
    boxes: BTreeMap<(usize, usize), Edges>,
    /// Where the next row begins.
    y: usize,
    width: usize,
}

pub fn svg(names: &Names, state: &State) -> String {
    let able = able(state);
    let mut drawing = Drawing { body: String::new(), boxes: BTreeMap::new(), y: 10, width: 300 };
    for engine in 0..state.tree.engines.len() {
        let values = values_lines(names, state, engine).join(", ");
        drawing.engine(&title(names, engine), &values);
        drawing.rows(engine, &rows(names, state, engine, &able));
    }
    for (serial, ends) in serials(state) {
        for pair in ends.windows(2) {
            drawing.serial((pair[0].0, pair[0].1), (pair[1].0, pair[1].1), serial);
        }
    }
    let (width, height) = (drawing.width + 150, drawing.y + 10);
    let size = format!("width=\"{width}\" height=\"{height}\" viewBox=\"0 0 {width} {height}\"");
    let body = drawing.body;
    format!("<svg xmlns=\"http://www.w3.org/2000/svg\" {size}>\n{STYLE}{body}</svg>\n")
}

impl Drawing {
    /// An engine's name, and its values below.
    fn engine(&mut self, title: &str, values: &str) {
        for (class, x, text) in [("engine", 10, title), ("values", 30, values)] {
            if !text.is_empty() {
                let (y, text) = (self.y + 17, escaped(text));
                let _ =
                    writeln!(self.body, r#"<text x="{x}" y="{y}" class="{class}">{text}</text>"#);
                self.width = self.width.max(x + 8 * text.len());
                self.y += ROW;
            }
        }
    }

    /// The tree of an engine, each process a box below the one that holds it.
    fn rows(&mut self, engine: usize, rows: &[Row]) {
        let mut above: Vec<Edges> = Vec::new();
        for row in rows {
            above.truncate(row.depth - 1);
            let edges = self.row(row, above.last().copied());
            self.boxes.insert((engine, row.position), edges);
            self.width = self.width.max(edges.right);
            above.push(edges);
            self.y += ROW;
        }
        self.y += ROW / 2;
    }

    /// A process's box, with the line to its holder's.
    fn row(&mut self, row: &Row, holder: Option<Edges>) -> Edges {
        let class = match (row.moves, row.enabled) {
            (true, _) => "moves",
            (false, true) => "enabled",
            (false, false) => "code",
        };
        let text = format!("{} {}", row.position, row.text);
        let (left, width) = (10 + INDENT * row.depth, 16 + 8 * text.chars().count());
        let (top, base, middle) = (self.y + 3, self.y + 17, self.y + ROW / 2);
        if let Some(holder) = holder {
            let (x, y) = (holder.left + 8, holder.middle + 10);
            let _ = writeln!(self.body, r#"<path d="M{x} {y} V{middle} H{left}"/>"#);
        }
        let size = format!(r#"width="{width}" height="20" rx="4""#);
        let _ = writeln!(self.body, r#"<rect x="{left}" y="{top}" {size} class="{class}"/>"#);
        let (x, text) = (left + 8, escaped(&text));
        let _ = writeln!(self.body, r#"<text x="{x}" y="{base}">{text}</text>"#);
        Edges { left, right: left + width, middle }
    }

    /// The line of a serial between its ends, with a bow on the right of all boxes.
    fn serial(&mut self, from: (usize, usize), to: (usize, usize), serial: u16) {
        let (Some(one), Some(other)) = (self.boxes.get(&from), self.boxes.get(&to)) else { return };
        let (edge, bow) = (self.width + 10, self.width + 50);
        let (up, down) = (one.middle, other.middle);
        let begin = format!("M{} {up} H{edge}", one.right);
        let curve = format!("C{bow} {up} {bow} {down} {edge} {down} H{}", other.right);
        let _ = writeln!(self.body, r#"<path class="serial" d="{begin} {curve}"/>"#);
        let (x, y) = (self.width + 46, (up + down) / 2);
        let _ =
            writeln!(self.body, r#"<text class="number" x="{x}" y="{y}">serial {serial}</text>"#);
    }
}

/// For graphviz: a cluster for each engine, a dashed line for each open serial.
pub fn dot(names: &Names, state: &State) -> String {
    let able = able(state);
    let node = "node [shape=box, fontname=monospace, style=filled, fillcolor=white];";
    let mut out = format!("digraph configuration {{\n  {node}\n");
    for engine in 0..state.tree.engines.len() {
        out.push_str(&cluster(names, state, engine, &able));
    }
    for (serial, ends) in serials(state) {
        let style = format!("style=dashed, dir=none, constraint=false, label=\"serial {serial}\"");
        for pair in ends.windows(2) {
            let ((a, at), (b, to)) = ((pair[0].0, pair[0].1), (pair[1].0, pair[1].1));
            let _ = writeln!(out, "  n{a}_{at} -> n{b}_{to} [{style}];");
        }
    }
    out + "}\n"
}

fn cluster(names: &Names, state: &State, engine: usize, able: &BTreeSet<(u16, u16)>) -> String {
    let mut lines = vec![title(names, engine)];
    lines.extend(values_lines(names, state, engine));
    let label: Vec<String> = lines.iter().map(|line| quoted(line)).collect();
    let label = label.join("\\n");
    let mut out = format!("  subgraph cluster_{engine} {{\n    label=\"{label}\";\n");
    let mut above: Vec<usize> = Vec::new();
    for row in rows(names, state, engine, able) {
        let fill = match (row.moves, row.enabled) {
            (true, _) => ", fillcolor=palegreen",
            (false, true) => ", fillcolor=honeydew",
            (false, false) => "",
        };
        let (position, text) = (row.position, quoted(&row.text));
        let _ = writeln!(out, "    n{engine}_{position} [label=\"{position} {text}\"{fill}];");
        above.truncate(row.depth - 1);
        if let Some(holder) = above.last() {
            let _ = writeln!(out, "    n{engine}_{holder} -> n{engine}_{position};");
        }
        above.push(position);
    }
    out + "  }\n"
}

fn quoted(text: &str) -> String {
    text.replace('\\', "\\\\").replace('"', "\\\"")
}

fn escaped(text: &str) -> String {
    text.replace('&', "&amp;").replace('<', "&lt;").replace('>', "&gt;")
}
