//! The two figures that bound a configuration; passed in, so that other figures can be tried.

#[derive(Clone, Copy, Debug, PartialEq, Eq)]
pub struct Limits {
    /// Deepest nesting of processes and expressions; a root has depth 1.
    pub depth: usize,
    /// Most words in a configuration. Answers carry lengths in 16 bits, so at most 65,535.
    pub words: usize,
}

/// The figures of document 01, the large cabinet's.
pub const STANDARD: Limits = Limits { depth: 64, words: 8192 };

/// The swing bridge cabinet's (document 02, i).
pub const SMALL: Limits = Limits { depth: 32, words: 2048 };
