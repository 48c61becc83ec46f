//! Memory from which configurations and outputs are lent, and the plain kind: between margins
//! that are compared after each call.

/// What a call is lent. Raw, since the library may be wrong about it.
#[derive(Clone, Copy, Debug)]
pub struct Lent {
    pub start: *mut u8,
    pub length: usize,
}

impl Lent {
    /// What stands there now.
    pub fn bytes(&self) -> &[u8] {
        // Lent memory lives as long as its `Memory`, which is not changed between lending and this.
        unsafe { std::slice::from_raw_parts(self.start, self.length) }
    }
}

pub trait Memory {
    /// Lends a copy of the configuration, until the next one is lent.
    fn configuration(&mut self, bytes: &[u8]) -> Lent;
    /// Lends an output that holds these bytes, until the next one is lent.
    fn output(&mut self, bytes: &[u8]) -> Lent;
    /// Whether the bytes around what is lent are as they were.
    fn intact(&self) -> bool;
}

/// Bytes on either side of what is lent.
const MARGIN: usize = 64;
const MARGIN_BYTE: u8 = 0x96;

/// Bytes between margins, at each address modulo 8 in turn.
#[derive(Default)]
struct Margins {
    all: Vec<u8>,
    before: usize,
    length: usize,
}

impl Margins {
    fn lend(&mut self, bytes: &[u8]) -> Lent {
        self.before = MARGIN + (self.before + 1) % 8;
        self.length = bytes.len();
        self.all.clear();
        self.all.resize(self.before, MARGIN_BYTE);
        self.all.extend_from_slice(bytes);
        self.all.resize(self.before + self.length + MARGIN, MARGIN_BYTE);
        Lent { start: self.all[self.before..].as_mut_ptr(), length: self.length }
    }

    fn intact(&self) -> bool {
        let before = self.all.iter().take(self.before);
        let after = self.all.iter().skip(self.before + self.length);
        before.chain(after).all(|byte| *byte == MARGIN_BYTE)
    }
}

#[derive(Default)]
pub struct Plain {
    configuration: Margins,
    output: Margins,
}

impl Memory for Plain {
    fn configuration(&mut self, bytes: &[u8]) -> Lent {
        self.configuration.lend(bytes)
    }

    fn output(&mut self, bytes: &[u8]) -> Lent {
        self.output.lend(bytes)
    }

    fn intact(&self) -> bool {
        self.configuration.intact() && self.output.intact()
    }
}
