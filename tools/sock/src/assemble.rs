//! From a text to words: lengths and positions are computed, and labels in steps become positions. To know where a labelled process
//! stands, the steps before are taken by the proved step; every result goes through the proved start check.

use crate::follow::find;
use crate::library::{self, Move};
use crate::names::Names;
use crate::parser::{parse, Place, Program, Spot};
use crate::state::State;
use crate::tree::{places, Configuration};
use crate::words::{Input, Trouble};

/// A text assembled.
#[derive(Clone, Debug)]
pub struct Assembled {
    pub names: Names,
    /// With the labels of the text.
    pub configuration: Configuration,
    pub input: Input,
    /// What the start check answers: 0, 11 for a configuration in the middle of a run, or 1.
    pub start: u8,
}

/// The words of a text, readable or not; without the steps if they are not.
pub fn assemble(text: &str) -> Result<Assembled, Trouble> {
    let program = parse(text)?;
    let words = program.configuration.words();
    let start = library::check_start(&words);
    let steps = if start == 1 { Vec::new() } else { resolve(&program, &words)? };
    let Program { names, configuration, .. } = program;
    Ok(Assembled { names, configuration, input: Input { words, steps }, start })
}

/// The steps with positions for labels, each looked up in what the accepted ones before it have left.
fn resolve(program: &Program, words: &[u16]) -> Result<Vec<Move>, Trouble> {
    let mut now = State { words: words.to_vec(), tree: program.configuration.clone() };
    let mut moves = Vec::new();
    for step in &program.steps {
        let (position, _) = spot(program, &now.tree, &step.first, moves.len())?;
        let mut next = Move::alone(step.first.engine, position);
        if let Some(second) = &step.second {
            let (position, branch) = spot(program, &now.tree, second, moves.len())?;
            next.second = second.engine;
            next.second_position = position;
            next.branch = if step.branch == 0 { branch } else { step.branch };
        }
        moves.push(next);
        now = now.take(next).1.unwrap_or(now);
    }
    Ok(moves)
}

/// Position, and branch where the label is that of a branch.
fn spot(
    program: &Program,
    now: &Configuration,
    spot: &Spot,
    taken: usize,
) -> Result<(u16, u16), Trouble> {
    let label = match &spot.place {
        Place::Position(position) => return Ok((*position, 0)),
        Place::Label(label) => label,
    };
    let engine = program.names.engine(usize::from(spot.engine));
    let found = find(now, usize::from(spot.engine), label);
    let after = format!("labelled '{label}' after {taken} steps");
    let said = match found.as_slice() {
        [one] => return Ok(*one),
        [] if declared(program, spot.engine, label) => {
            format!("an enabled process is expected: none of engine {engine} is {after}")
        }
        [] => format!("a label of engine {engine} is expected, and '{label}' is none"),
        several => {
            let count = several.len();
            format!("one process is expected: {count} enabled ones of engine {engine} are {after}")
        }
    };
    Err(Trouble::at(spot.at, said))
}

fn declared(program: &Program, engine: u16, label: &str) -> bool {
    let engine = program.configuration.engines.get(usize::from(engine));
    engine.is_some_and(|engine| {
        places(&engine.process)
            .iter()
            .any(|place| place.process.labels.iter().any(|other| &**other == label))
    })
}
