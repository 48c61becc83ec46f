//! Memory between inaccessible pages (Linux on x86-64). What is lent ends exactly where one
//! begins, or begins right behind one; a configuration's pages are read-only during the call.
//!
//! Seen at once, by a fault: any access past the guarded edge, up to `GUARD` bytes away, and any
//! write to a configuration or to the rest of its pages. Seen after the call, by comparison: a
//! write on an output's other side, in the rest of its pages, that changes a byte. Not seen: a
//! read on the side that is not guarded, from there to the next guard. The same input lent at
//! the other edge shows that one.

use crate::memory::{Lent, Memory};
use crate::pages::{Pages, NONE, PAGE, READ, READ_WRITE};

/// Inaccessible on either side: more than 65,535 words, the farthest that a position names.
const GUARD: usize = 64 * PAGE;
/// Accessible between: room for more bytes than any configuration has.
const OPEN: usize = 10 * PAGE;
const REST_BYTE: u8 = 0x69;
/// What stands in the accessible pages beside what is lent.
static REST: [u8; OPEN] = [REST_BYTE; OPEN];

/// Which edge of the lent bytes is guarded.
#[derive(Clone, Copy, Debug, PartialEq, Eq)]
pub enum Edge {
    Begin,
    End,
}

struct Region {
    pages: Pages,
    /// Of the accessible pages.
    open: *mut u8,
    edge: Edge,
    /// Offset and length of what is lent.
    lent: (usize, usize),
}

impl Region {
    fn new(edge: Edge) -> Region {
        let pages = Pages::map(GUARD + OPEN + GUARD, NONE);
        let open = unsafe { pages.start.add(GUARD) };
        let region = Region { pages, open, edge, lent: (0, 0) };
        region.protect(READ_WRITE);
        unsafe { std::ptr::write_bytes(open, REST_BYTE, OPEN) };
        region
    }

    fn protect(&self, protection: i32) {
        self.pages.protect(GUARD, OPEN, protection);
    }

    /// The pages have to be writable. Of no bytes, the pointer stands in the guard itself.
    fn lend(&mut self, bytes: &[u8]) -> Lent {
        assert!(bytes.len() <= OPEN, "more than the pages hold");
        let (old, count) = self.lent;
        let offset = match self.edge {
            Edge::Begin => 0,
            Edge::End => OPEN - bytes.len(),
        };
        self.lent = (offset, bytes.len());
        let start = unsafe {
            std::ptr::write_bytes(self.open.add(old), REST_BYTE, count);
            std::ptr::copy_nonoverlapping(bytes.as_ptr(), self.open.add(offset), bytes.len());
            match (self.edge, bytes.len()) {
                (Edge::Begin, 0) => self.open.sub(1),
                _ => self.open.add(offset),
            }
        };
        Lent { start, length: bytes.len() }
    }

    fn intact(&self) -> bool {
        let all = unsafe { std::slice::from_raw_parts(self.open, OPEN) };
        let (offset, length) = self.lent;
        let after = offset + length;
        all[..offset] == REST[..offset] && all[after..] == REST[after..]
    }
}

pub struct Guarded {
    configuration: Region,
    output: Region,
}

impl Guarded {
    pub fn new(edge: Edge) -> Guarded {
        Guarded { configuration: Region::new(edge), output: Region::new(edge) }
    }
}

impl Memory for Guarded {
    fn configuration(&mut self, bytes: &[u8]) -> Lent {
        self.configuration.protect(READ_WRITE);
        let lent = self.configuration.lend(bytes);
        self.configuration.protect(READ);
        lent
    }

    fn output(&mut self, bytes: &[u8]) -> Lent {
        self.output.lend(bytes)
    }

    fn intact(&self) -> bool {
        self.configuration.intact() && self.output.intact()
    }
}
