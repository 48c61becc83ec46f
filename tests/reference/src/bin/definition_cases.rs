//! Writes cases as theorems about the definitions: for each, what this implementation answers to the six calls, every field and every
//! word, as equations that the prover computes; those of the step and the checks at the figures of either cabinet. Arguments: the folder of
//! proofs to write to, and how many cases. `bin/compare-definitions` runs it.

use reference::generate::damage;
use reference::generate::edges::{acting_deep, result_deep, WAYS};
use reference::generate::random::Random;
use reference::generate::run::{Run, ORIGINS};
use reference::{
    check_readable, check_start, ends, pending_at, process_range, step, write, Limits, Numbers,
    SMALL, STANDARD,
};
use std::fmt::Write as _;
use std::fs;
use std::path::Path;

/// Cases in a file.
const FILE: usize = 100;

/// Longer configurations take the prover too long.
const LONGEST: usize = 600;

/// What stands in the output before a step.
const FILL: u16 = 42_405;

const HEAD: &str = "\
-- Cases of the second implementation, computed by the definitions.
use Prim.Native.Nat.{ℕ}
use mathlib.Core.Path.{◌≡◌, refl}
use mathlib.Core.Bool.{Bool, true, false}
use mathlib.Core.List.{List, [], ◌∷◌, ◌++◌}
use lib.ListN.{replicate}
use Rattle.sock.specs.Configuration.{standard}
use Rattle.sock.specs.Cabinets.{small}
use Rattle.sock.specs.Calls.{Numbers, Answer, Ends, Part, step_answer, step_output, check_readable, check_start, ends, process_part}
use Rattle.sock.specs.Pending.{Pending, enabled_in, is_pending, counted, search_of, pending, side_at, searched, pending_at}
use Rattle.sock.proofs.Computed.{computed}

abbrev numbers : ℕ → ℕ → ℕ → ℕ → ℕ → Numbers
numbers e p f q b = record { engine = e; position = p; second = f; second_position = q; branch = b }

abbrev answer : ℕ → ℕ → ℕ → ℕ → ℕ → Answer
answer n k s f l = record { number = n; kind = k; serial = s; fault = f; length = l }

abbrev counts : ℕ → ℕ → ℕ → Ends
counts n a b = record { number = n; waiters = a; workers = b }

abbrev part : ℕ → ℕ → Part
part a b = record { first = a; count = b }

abbrev finding : ℕ → Bool → ℕ → Pending
finding n f c = record { number = n; found = f; count = c }
";

/// The figures' name in the definitions, and the figures.
type Figures = (&'static str, Limits);

const LARGE: Figures = ("standard", STANDARD);
const LITTLE: Figures = ("small", SMALL);

struct Cases {
    folder: String,
    wanted: usize,
    count: usize,
    text: String,
    files: Vec<String>,
}

impl Cases {
    fn full(&self) -> bool {
        self.count >= self.wanted
    }

    fn add(
        &mut self,
        (figures, limits): Figures,
        words: &[u16],
        numbers: Numbers,
        room: usize,
        (serial, engine): (u16, u16),
    ) {
        if self.full() || words.len() > LONGEST {
            return;
        }
        let mut output = vec![FILL; room];
        let a = step(&limits, words, numbers, &mut output);
        let e = ends(&STANDARD, words, serial);
        let p = process_range(&STANDARD, words, engine);
        // Where the step's first process stands, and at other positions.
        let position = [numbers.position, 0, serial + 2][self.count % 3];
        let s = pending_at(&STANDARD, words, numbers.engine, position);
        let call = format!("{figures} words{0} numbers{0} (replicate {room} {FILL})", self.count);
        let _ = write!(
            self.text,
            "
words{0} : List ℕ
words{0} = {words}

numbers{0} : Numbers
numbers{0} = numbers {numbers}

case{0} :
    (step_answer {call} ≡ answer {answer})
    × (step_output {call} ≡ {output})
    × (check_readable {figures} words{0} ≡ {readable})
    × (check_start {figures} words{0} ≡ {start})
    × (ends standard words{0} {serial} ≡ counts {ends})
    × (process_part standard words{0} {engine} ≡ part {first} {length})
    × (pending_at standard words{0} {searched} {position} ≡ finding {search})
unfolding computed enabled_in is_pending counted search_of pending side_at searched pending_at words{0} numbers{0}
case{0} = (refl, refl, refl, refl, refl, refl, refl)
",
            self.count,
            words = list(words),
            numbers = five(numbers),
            answer = format_args!("{} {} {} {} {}", a.number, a.kind, a.serial, a.fault, a.length),
            output = list(&output),
            readable = check_readable(&limits, words),
            start = check_start(&limits, words),
            ends = format_args!("{} {} {}", e.number, e.waiters, e.workers),
            searched = numbers.engine,
            search = format_args!("{} {} {}", s.number, s.found, s.count),
            first = p.start,
            length = p.len(),
        );
        self.count += 1;
        if self.count % FILE == 0 || self.full() {
            self.write();
        }
    }

    fn write(&mut self) {
        let name = format!("Compared{}", self.files.len());
        let path = Path::new(&self.folder).join(format!("{name}.antt"));
        fs::write(path, format!("{HEAD}{}", self.text)).expect("a file of cases");
        self.files.push(name);
        self.text.clear();
    }
}

fn five(n: Numbers) -> String {
    format!("{} {} {} {} {}", n.engine, n.position, n.second_engine, n.second_position, n.branch)
}

/// A list as an expression, long rows of one word as `replicate`.
fn list(words: &[u16]) -> String {
    let mut text = String::from("(");
    let mut i = 0;
    while i < words.len() {
        let same = words[i..].iter().take_while(|w| **w == words[i]).count();
        if same >= 8 {
            let _ = write!(text, "replicate {same} {} ++ (", words[i]);
            i += same;
            return text + &list(&words[i..]) + "))";
        }
        let _ = write!(text, "{} ∷ ", words[i]);
        i += 1;
    }
    text + "[])"
}

/// Inputs and results as deep as the small cabinet reads, and a level deeper.
fn of_depth(cases: &mut Cases) {
    for way in WAYS {
        for (depth, figures) in [(32, LITTLE), (33, LITTLE), (33, LARGE)] {
            for (before, position) in [(acting_deep(*way, depth), 4), (result_deep(*way, depth), 3)]
            {
                let words = write::configuration(&before);
                let numbers = Numbers::new(0, position, 0, 0, 0);
                cases.add(figures, &words, numbers, LONGEST, (1, 0));
            }
        }
    }
}

fn main() {
    let mut arguments = std::env::args().skip(1);
    let folder = arguments.next().expect("a folder");
    let wanted = arguments.next().and_then(|n| n.parse().ok()).expect("a count");
    let mut cases = Cases { folder, wanted, count: 0, text: String::new(), files: Vec::new() };
    of_depth(&mut cases);
    for seed in 0.. {
        if cases.full() {
            break;
        }
        let mut run = Run::new(seed, ORIGINS[seed as usize % ORIGINS.len()]);
        let mut random = Random::new(seed + 1000);
        for turn in 0..12 {
            let Some(call) = run.call() else { break };
            let mut output = vec![0; call.room];
            let answer = step(&STANDARD, &run.words, call.numbers, &mut output);
            let room = call.room.min(run.words.len().max(usize::from(answer.length)) + 3);
            let asked = (random.below(4) as u16, random.below(5) as u16);
            let figures = if seed % 5 == 4 { LITTLE } else { LARGE };
            cases.add(figures, &run.words, call.numbers, room, asked);
            if turn % 4 == 0 {
                let damaged = damage::random_damage(&mut random, &run.words);
                let asked = (random.below(4) as u16, random.below(3) as u16);
                cases.add(figures, &damaged, call.numbers, room, asked);
            }
            run.take(&answer, &output);
        }
    }
    for name in &cases.files {
        println!("pub mod {name}");
    }
}
