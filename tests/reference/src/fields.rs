//! Fields of a 16-bit word, packed from the most significant bit; unused bits are 0.

/// Takes fields off a word.
pub struct Fields {
    rest: u16,
}

impl Fields {
    pub fn of(word: u16) -> Fields {
        Fields { rest: word }
    }

    /// The next field, of 1 to 15 bits.
    pub fn take(&mut self, bits: u32) -> u16 {
        let field = self.rest >> (16 - bits);
        self.rest <<= bits;
        field
    }

    /// A field of at most 8 bits.
    pub fn small(&mut self, bits: u32) -> u8 {
        self.take(bits) as u8
    }

    /// None unless all bits that were not taken are 0.
    pub fn end(self) -> Option<()> {
        (self.rest == 0).then_some(())
    }
}

/// Puts fields into a word.
pub struct Packed {
    word: u16,
    used: u32,
}

impl Packed {
    pub fn new() -> Packed {
        Packed { word: 0, used: 0 }
    }

    /// The next field; the fields of one word have at most 16 bits together. Bits of the value
    /// above the field's width are cut off.
    pub fn put(mut self, value: u16, bits: u32) -> Packed {
        self.used += bits;
        let kept = value & (((1u32 << bits) - 1) as u16);
        self.word |= kept << (16 - self.used);
        self
    }

    pub fn word(self) -> u16 {
        self.word
    }
}

impl Default for Packed {
    fn default() -> Packed {
        Packed::new()
    }
}
