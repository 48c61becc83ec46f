//! Document 02's change m: keeper against the river. A naive recursion over whole trees of play, as the
//! document says it: every five numbers that name enabled processes are tried by the step, and all
//! moves of a side are played.

use crate::bytes::to_words;
use crate::calls::{self, Answer, Numbers};
use crate::configuration::Configuration;
use crate::context::enabled;
use crate::limits::STANDARD;
use crate::readable;
use crate::refusal::Refusal;
use crate::write;

/// The most moves that may be asked for.
pub const MOVES: u16 = 6;
/// Words of scratch, seven times the configuration limit.
pub const SCRATCH: usize = 7 * 8192;

const EXECUTOR: u8 = 16;
const NOTICE: u8 = 18;
/// A choice has at most so many branches.
const BRANCHES: u16 = 8;

#[derive(Clone, Copy, Debug, PartialEq, Eq)]
pub enum Side {
    Keeper,
    River,
}

impl Side {
    fn other(self) -> Side {
        match self {
            Side::Keeper => Side::River,
            Side::River => Side::Keeper,
        }
    }

    fn has(self, engines: u8, engine: u16) -> bool {
        (engines >> engine & 1 == 1) == (self == Side::Keeper)
    }
}

/// An accepted step: its numbers, its answer and the next configuration's words.
#[derive(Clone, Debug)]
pub struct Move {
    pub numbers: Numbers,
    pub answer: Answer,
    pub words: Vec<u16>,
}

/// What the call answers: a number; 0 no, 1 yes by a move, 2 yes by a pass. Which move is shown is
/// free, so this implementation names none.
#[derive(Clone, Copy, Debug, Default, PartialEq, Eq)]
pub struct Outcome {
    pub number: u8,
    pub outcome: u8,
}

/// The step with 8,192 words of output.
pub fn step(words: &[u16], numbers: Numbers) -> Option<Move> {
    tried(&readable::read(&STANDARD, words)?, numbers)
}

fn tried(before: &Configuration, numbers: Numbers) -> Option<Move> {
    let result = calls::transition(before, numbers).ok()?;
    let next = &result.configuration;
    if next.depth() > STANDARD.depth || next.size() > STANDARD.words {
        return None;
    }
    let (kind, serial, fault) = (result.kind, result.serial, result.fault);
    let answer = Answer { number: 0, kind, serial, fault, length: next.size() as u16 };
    Some(Move { numbers, answer, words: write::configuration(next) })
}

/// Every accepted step whose first engine is of the side. A step names enabled processes, and second
/// fields and branch 0 where the process moves alone.
pub fn moves(words: &[u16], engines: u8, side: Side) -> Vec<Move> {
    let Some(before) = readable::read(&STANDARD, words) else {
        return Vec::new();
    };
    let heads: Vec<(u16, u16)> = (0..)
        .zip(&before.engines)
        .flat_map(|(e, engine)| {
            enabled(&engine.process).into_iter().map(move |(p, _)| (e, p as u16))
        })
        .collect();
    let mut found = Vec::new();
    for &(engine, position) in heads.iter().filter(|head| side.has(engines, head.0)) {
        let with_partner = heads.iter().flat_map(|&(second, place)| {
            (0..=BRANCHES).map(move |branch| Numbers::new(engine, position, second, place, branch))
        });
        let partners =
            with_partner.filter(|n| (n.second_engine, n.second_position, n.branch) != (0, 0, 0));
        found.extend(tried(&before, Numbers::new(engine, position, 0, 0, 0)));
        found.extend(partners.filter_map(|numbers| tried(&before, numbers)));
    }
    found
}

/// The game for one set of engines and one serial, with a count of the positions that may still be searched.
#[derive(Clone, Copy, Debug)]
pub struct Game {
    pub engines: u8,
    pub serial: u16,
    pub positions: u64,
}

impl Game {
    pub fn new(engines: u8, serial: u16, positions: u64) -> Game {
        Game { engines, serial, positions }
    }

    /// Whether the keeper has won once this move is made, with so many moves left behind it; None if that takes too long.
    pub fn wins(&mut self, made: &Move, left: u16, next: Side) -> Option<bool> {
        let delivered =
            matches!(made.answer.kind, EXECUTOR | NOTICE) && made.answer.serial == self.serial;
        if delivered {
            return Some(made.answer.fault == 0);
        }
        self.forces(&made.words, left, next)
    }

    /// Whether the keeper can force a reply within so many moves, `side` to move; None if that takes too long.
    pub fn forces(&mut self, words: &[u16], left: u16, side: Side) -> Option<bool> {
        if left == 0 {
            return Some(false);
        }
        self.positions = self.positions.checked_sub(1)?;
        let moves = moves(words, self.engines, side);
        if moves.is_empty() {
            return self.forces(words, left - 1, side.other());
        }
        // The keeper needs one that wins, against every move of the river.
        let decides = side == Side::Keeper;
        for made in &moves {
            if self.wins(made, left - 1, side.other())? == decides {
                return Some(decides);
            }
        }
        Some(!decides)
    }
}

/// 1, 12, 23, 10; then the game.
pub fn keeper(words: &[u16], engines: u8, serial: u16, k: u16, scratch: usize) -> Outcome {
    keeper_within(words, Game::new(engines, serial, u64::MAX), k, scratch)
        .expect("any number of positions")
}

/// The same; None if the game has more positions than are allowed.
pub fn keeper_within(words: &[u16], mut game: Game, k: u16, scratch: usize) -> Option<Outcome> {
    if let Some(refusal) = refusal(words, game.serial, k, scratch) {
        return Some(Outcome { number: refusal.number(), outcome: 0 });
    }
    let outcome = match game.forces(words, k, Side::Keeper)? {
        false => 0,
        true if moves(words, game.engines, Side::Keeper).is_empty() => 2,
        true => 1,
    };
    Some(Outcome { number: 0, outcome })
}

fn refusal(words: &[u16], serial: u16, k: u16, scratch: usize) -> Option<Refusal> {
    let Some(configuration) = readable::read(&STANDARD, words) else {
        return Some(Refusal::Unreadable);
    };
    if serial == 0 || serial > configuration.issued {
        Some(Refusal::UnknownSerial)
    } else if k > MOVES {
        Some(Refusal::TooManyMoves)
    } else if scratch < SCRATCH {
        Some(Refusal::ShortOutput)
    } else {
        None
    }
}

/// What the call on bytes answers.
#[derive(Clone, Copy, Debug, Default, PartialEq, Eq)]
pub struct Packed {
    pub outcome: Outcome,
    pub numbers: Numbers,
}

/// 64 bits: number 8, outcome 8, zero 8, branch 8, engine 3, position 13, second engine 3, second
/// position 13.
pub fn unpack(bits: u64) -> Option<Packed> {
    let field = |low: u32, width: u32| (bits >> low & ((1 << width) - 1)) as u16;
    let outcome = Outcome { number: field(56, 8) as u8, outcome: field(48, 8) as u8 };
    let numbers =
        Numbers::new(field(29, 3), field(16, 13), field(13, 3), field(0, 13), field(32, 8));
    (field(40, 8) == 0).then_some(Packed { outcome, numbers })
}

/// The call for C: an odd length of the configuration is 1; the scratch is counted in words.
pub fn sock_keeper(bytes: &[u8], game: Game, k: u16, scratch: usize) -> Option<Outcome> {
    match to_words(bytes) {
        None => Some(Outcome { number: Refusal::Unreadable.number(), outcome: 0 }),
        Some(words) => keeper_within(&words, game, k, scratch),
    }
}
