//! Keeper against the river on both sides: the library's number and outcome are the naive recursion's, the move that it
//! shows is one of the keeper's and keeps the win, a refusal changes no word of the scratch, and all else that was lent
//! stays as it was. The scratch stands between inaccessible pages.

use crate::exported;
use crate::guard::Edge;
use crate::input::{Call, Source};
use crate::memory::{Lent, Memory};
use crate::memory_fault;
use crate::pages::{Pages, NONE, PAGE, READ_WRITE};
use reference::bytes::to_words;
use reference::keeper::{self, Game, Packed, Side, SCRATCH};
use reference::Numbers;
use std::collections::BTreeMap;

/// Inaccessible pages on either side of the scratch, and those between: two more than a scratch needs.
const GUARD: usize = 64 * PAGE;
const OPEN: usize = 30 * PAGE;
const FILL: u8 = 0x5a;

/// Memory for scratch that ends where an inaccessible page begins, or begins right behind one.
struct Room {
    pages: Pages,
    edge: Edge,
}

impl Room {
    fn new(edge: Edge) -> Room {
        let pages = Pages::map(GUARD + OPEN + GUARD, NONE);
        pages.protect(GUARD, OPEN, READ_WRITE);
        let mut room = Room { pages, edge };
        room.open().fill(FILL);
        room
    }

    fn open(&mut self) -> &mut [u8] {
        // The pages are this value's own, and no call runs on them meanwhile.
        unsafe { std::slice::from_raw_parts_mut(self.pages.start.add(GUARD), OPEN) }
    }

    fn lend(&mut self, words: usize) -> Lent {
        let length = 2 * words;
        let offset = if self.edge == Edge::Begin { 0 } else { OPEN - length };
        Lent { start: self.open()[offset..].as_mut_ptr(), length }
    }

    /// Whether no byte has changed, of the scratch or, if that may have, beside it; then all is as before.
    fn kept(&mut self, changed: Option<Lent>) -> bool {
        if let Some(lent) = changed {
            // Lent from these pages.
            unsafe { std::ptr::write_bytes(lent.start, FILL, lent.length) };
        }
        self.open().iter().all(|byte| *byte == FILL)
    }
}

/// Makes the calls, on memory of one kind, and counts what was met.
pub struct Keepers<M> {
    memory: M,
    room: Room,
    /// Where the next calls' input comes from.
    pub source: Source,
    /// The positions that the naive recursion may search in a call.
    pub positions: u64,
    /// By class: moves asked for, number and outcome.
    met: BTreeMap<(&'static str, u16, u8, u8), u64>,
}

/// What is asked of a configuration.
#[derive(Clone, Copy, Debug)]
pub struct Asked {
    pub engines: u8,
    pub serial: u16,
    pub k: u16,
    /// In words.
    pub scratch: usize,
}

impl<M: Memory> Keepers<M> {
    pub fn new(memory: M, edge: Edge) -> Keepers<M> {
        let source = Source { class: "", seed: 0, step: 0 };
        Keepers { memory, room: Room::new(edge), source, positions: 2000, met: BTreeMap::new() }
    }

    /// What the library answers; None if the naive recursion takes too long to say whether that is right.
    pub fn keeper(&mut self, config: &[u8], asked: Asked) -> Option<Packed> {
        let Asked { engines, serial, k, scratch } = asked;
        let expected =
            keeper::sock_keeper(config, Game::new(engines, serial, self.positions), k, scratch)?;
        let lent = self.memory.configuration(config);
        let room = self.room.lend(scratch);
        let call = Call::Keeper { engines, serial, k, scratch };
        memory_fault::entering(self.source, call);
        let bits = exported::keeper(lent, engines, serial, k, room);
        let packed = keeper::unpack(bits).expect("zero bits are 0");
        assert_eq!(packed.outcome, expected, "{}: {asked:?}", self.source);
        assert!(lent.bytes() == config, "{}: the configuration has changed", self.source);
        assert!(self.memory.intact(), "{}: {asked:?} wrote outside", self.source);
        let changed = (expected.number == 0).then_some(room);
        assert!(self.room.kept(changed), "{}: scratch of {asked:?}", self.source);
        self.shown(config, asked, &packed)?;
        *self.met.entry((self.source.class, k, expected.number, expected.outcome)).or_insert(0) +=
            1;
        Some(packed)
    }

    /// The move shown is one of the keeper's, and keeps the win; where none is shown its numbers are 0.
    fn shown(&self, config: &[u8], asked: Asked, packed: &Packed) -> Option<()> {
        if packed.outcome.outcome != 1 {
            assert_eq!(packed.numbers, Numbers::default(), "{}: {asked:?}", self.source);
            return Some(());
        }
        let words = to_words(config).expect("whole words");
        let made = keeper::step(&words, packed.numbers).expect("the move shown is accepted");
        assert_eq!(asked.engines >> packed.numbers.engine & 1, 1, "{}: {asked:?}", self.source);
        let mut game = Game::new(asked.engines, asked.serial, self.positions);
        let wins = game.wins(&made, asked.k - 1, Side::River)?;
        assert!(wins, "{}: {asked:?} shows {:?}", self.source, packed.numbers);
        Some(())
    }

    /// How often an outcome was met for so many moves, in all classes.
    pub fn met(&self, k: u16, outcome: u8) -> u64 {
        let all = self.met.iter().filter(|(met, _)| (met.1, met.2, met.3) == (k, 0, outcome));
        all.map(|(_, count)| count).sum()
    }

    pub fn report(&self, test: &str) {
        println!("{test}: {:?}", self.met);
    }

    /// How many calls were answered with this number.
    pub fn numbered(&self, number: u8) -> u64 {
        self.met.iter().filter(|(met, _)| met.2 == number).map(|(_, count)| count).sum()
    }
}

/// A scratch that is just enough.
pub const ENOUGH: usize = SCRATCH;
