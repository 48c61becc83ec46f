//! Runs: a start, the steps taken, and all configurations since, so that one can go back. Interactive by lines, at random, or by the steps
//! that a file has.

use crate::library::Move;
use crate::moves::{any, moves};
use crate::names::Names;
use crate::random::Random;
use crate::show::{counted, show, Colours};
use crate::state::State;
use crate::tell::{sentence, step_by_labels, told};
use std::io::{self, BufRead, Write};

/// Moves listed at most if nothing else is said.
pub const MOST: usize = 1000;

pub struct Run {
    pub names: Names,
    /// The start, and what each accepted step left, or the last one alone.
    states: Vec<State>,
    pub steps: Vec<Move>,
    /// What each step did is printed.
    pub trace: bool,
    /// All configurations are kept, so that one can go back.
    pub keeps: bool,
}

impl Run {
    pub fn new(names: Names, start: State) -> Run {
        Run { names, states: vec![start], steps: Vec::new(), trace: false, keeps: true }
    }

    pub fn start(&self) -> &State {
        &self.states[0]
    }

    pub fn now(&self) -> &State {
        &self.states[self.states.len() - 1]
    }

    /// Takes a step; answers whether it was accepted, and the line that says what it did.
    pub fn take(&mut self, step: Move) -> (bool, String) {
        let (answer, after) = self.now().take(step);
        let line = told(&self.names, self.now(), step, answer, after.as_ref());
        let accepted = after.is_some();
        if let Some(after) = after {
            if !self.keeps {
                self.states.truncate(1);
            }
            self.states.push(after);
            self.steps.push(step);
        }
        let number = if accepted { self.steps.len().to_string() } else { "-".to_string() };
        (accepted, format!("{number:>4}  {line}"))
    }

    /// Takes a step, and says what it did if that is to be traced or it was refused.
    fn traced(&mut self, step: Move, out: &mut impl Write) -> io::Result<()> {
        let (accepted, line) = self.take(step);
        if self.trace || !accepted {
            writeln!(out, "{line}")?;
        }
        Ok(())
    }

    /// Goes back by one step; false at the start.
    pub fn back(&mut self) -> bool {
        self.steps.pop().is_some_and(|_| self.states.pop().is_some())
    }

    /// The steps of a file, refused ones too.
    pub fn replay(&mut self, steps: &[Move], out: &mut impl Write) -> io::Result<()> {
        steps.iter().try_for_each(|step| self.traced(*step, out))
    }

    /// Up to so many steps at random; ends early where nothing moves.
    pub fn random(&mut self, seed: u64, count: usize, out: &mut impl Write) -> io::Result<()> {
        let mut random = Random(seed);
        for _ in 0..count {
            match any(self.now(), &mut random) {
                Some(step) => self.traced(step, out)?,
                None => break,
            }
        }
        Ok(())
    }

    /// "7 steps taken; 2 moves are open".
    pub fn summary(&self) -> String {
        let open = moves(self.now(), MOST);
        let said = match open.moves.len() {
            count if open.more() => format!("{count} moves are open, and perhaps more"),
            0 => "nothing moves any more".to_string(),
            1 => "1 move is open".to_string(),
            count => format!("{count} moves are open"),
        };
        format!("{} taken; {said}", counted(self.steps.len(), "step"))
    }

    /// Lists the moves by number; answers them.
    fn list(&self, out: &mut impl Write) -> io::Result<Vec<Move>> {
        let found = moves(self.now(), MOST);
        for (index, step) in found.moves.iter().enumerate() {
            let said = sentence(&self.names, &self.now().tree, *step);
            writeln!(
                out,
                "{:>4}  {:<32} {said}",
                index + 1,
                step_by_labels(&self.names, &self.now().tree, *step)
            )?;
        }
        if let Some(note) = found.note() {
            writeln!(out, "      {note}")?;
        }
        Ok(found.moves)
    }
}

pub const COMMANDS: &str = "  NUMBER      take that move
  b           go back by one step
  s           show the configuration
  m           list the moves again
  h           the steps so far
  w FILE      write the configuration (.sock, .hex or bytes), to be resumed
  l FILE      write the start and the list of steps
  q           quit (so does the end of the input)
  ?           these commands
";

/// What an interactive run asks of its surroundings: writing a file.
pub type Save<'a> = &'a mut dyn FnMut(&str, &Names, &State, &[Move]) -> Result<(), String>;

/// What a person at a terminal has, or a script in its place.
pub struct Desk<'a, In, Out> {
    pub input: In,
    pub out: Out,
    pub colours: Colours,
    /// Lines are echoed if no terminal does so.
    pub echo: bool,
    pub save: Save<'a>,
}

/// Reads commands line by line until q or the end of the input.
pub fn interactive<In: BufRead, Out: Write>(
    run: &mut Run,
    mut desk: Desk<In, Out>,
) -> io::Result<()> {
    write!(desk.out, "{}", show(&run.names, run.now(), desk.colours))?;
    writeln!(desk.out, "\nmoves (? lists the commands)")?;
    let mut open = run.list(&mut desk.out)?;
    let mut bytes = Vec::new();
    loop {
        write!(desk.out, "> ")?;
        desk.out.flush()?;
        bytes.clear();
        if desk.input.read_until(b'\n', &mut bytes)? == 0 {
            return writeln!(desk.out);
        }
        let line = String::from_utf8_lossy(&bytes);
        let line = line.trim();
        if desk.echo {
            writeln!(desk.out, "{line}")?;
        }
        if line == "q" {
            return Ok(());
        }
        obey(run, &mut open, line, &mut desk)?;
    }
}

/// One command; `open` are the moves that were listed last.
fn obey<In, Out: Write>(
    run: &mut Run,
    open: &mut Vec<Move>,
    line: &str,
    desk: &mut Desk<In, Out>,
) -> io::Result<()> {
    let out = &mut desk.out;
    let (word, rest) = line.split_once(' ').unwrap_or((line, ""));
    let number = word.parse::<usize>().ok().and_then(|number| number.checked_sub(1));
    match word {
        "" => {}
        "?" => write!(out, "{COMMANDS}")?,
        "s" => write!(out, "{}", show(&run.names, run.now(), desk.colours))?,
        "m" => *open = run.list(out)?,
        "h" => history(run, out)?,
        "b" if run.back() => *open = run.list(out)?,
        "b" => writeln!(out, "this is the start")?,
        "w" => answer(out, (desk.save)(rest.trim(), &run.names, run.now(), &[]))?,
        "l" => answer(out, (desk.save)(rest.trim(), &run.names, run.start(), &run.steps))?,
        word => match number.and_then(|number| open.get(number).copied()) {
            Some(step) => {
                writeln!(out, "{}", run.take(step).1)?;
                *open = run.list(out)?;
            }
            None => {
                let expected = format!("the number of a move is expected, 1 to {}", open.len());
                writeln!(out, "'{word}': {expected}, or a command; ? lists them")?;
            }
        },
    }
    Ok(())
}

fn history(run: &Run, out: &mut impl Write) -> io::Result<()> {
    for (index, step) in run.steps.iter().enumerate() {
        writeln!(
            out,
            "{:>4}  {:<32} {}",
            index + 1,
            step_by_labels(&run.names, &run.states[index].tree, *step),
            sentence(&run.names, &run.states[index].tree, *step)
        )?;
    }
    Ok(())
}

fn answer(out: &mut impl Write, result: Result<(), String>) -> io::Result<()> {
    match result {
        Ok(()) => writeln!(out, "written"),
        Err(why) => writeln!(out, "{why}"),
    }
}
