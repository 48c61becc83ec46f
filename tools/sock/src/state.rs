//! A configuration as a run has it: its words, which the archive wrote, and its tree with labels.

use crate::diagnose;
use crate::follow::follow;
use crate::library::{self, Answer, Move};
use crate::tree::Configuration;

#[derive(Clone, Debug)]
pub struct State {
    pub words: Vec<u16>,
    pub tree: Configuration,
}

impl State {
    /// None if the proved check does not read the words.
    pub fn of(words: &[u16]) -> Option<State> {
        (library::check_readable(words) == 0)
            .then(|| State { words: words.to_vec(), tree: tree(words) })
    }

    /// The archive's step from here.
    pub fn take(&self, step: Move) -> (Answer, Option<State>) {
        let (answer, after) = library::step(&self.words, step);
        let next =
            after.map(|words| State { tree: follow(&self.tree, step, &tree(&words)), words });
        (answer, next)
    }

    /// After these steps; refused ones leave things as they are.
    pub fn after(self, steps: &[Move]) -> State {
        steps.iter().fold(self, |now, step| now.take(*step).1.unwrap_or(now))
    }
}

/// Of words that the archive reads; that the second reader reads them too is tested.
fn tree(words: &[u16]) -> Configuration {
    diagnose::read(words).unwrap_or_else(|why| {
        panic!("words that the proved library reads are not read here: please report {why:?}")
    })
}

/// What is said of each step and of what it reads.
pub fn along<T>(start: &State, steps: &[Move], say: impl Fn(&State, Move) -> T) -> Vec<T> {
    let mut now = start.clone();
    let mut said = Vec::new();
    for step in steps {
        said.push(say(&now, *step));
        if let (_, Some(next)) = now.take(*step) {
            now = next;
        }
    }
    said
}
