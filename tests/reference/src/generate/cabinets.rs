//! Two cabinets that share configurations (document 02, i): what the small one's step has to come to,
//! by the large one's on the same words with the same lent, and configurations on which they differ.
//! The caller makes the steps, on any implementation.

use crate::build;
use crate::calls::Answer;
use crate::configuration::Configuration;
use crate::generate::edges::{around, Way};
use crate::limits::SMALL;
use crate::process::{Key, Mark};
use crate::readable;

/// The refusals that are tried after reading and before the limits.
const BEFORE_LIMITS: [u8; 7] = [2, 3, 4, 5, 13, 6, 7];

/// What a step answered, its result's words, and all that it was lent, as it left it.
#[derive(Clone, Debug)]
pub struct Outcome<'a> {
    pub answer: Answer,
    pub result: Vec<u16>,
    pub left: Vec<&'a [u8]>,
}

/// How often the two came to what.
#[derive(Clone, Copy, Debug, Default)]
pub struct Seen {
    /// Both accepted.
    pub both: usize,
    /// The large one alone: the input beyond the small figures, the result too deep, too long.
    pub input_beyond: usize,
    pub deep: usize,
    pub long: usize,
    /// Both refused, with the same number; with different ones.
    pub alike: usize,
    pub differ: usize,
}

impl Seen {
    /// Of one step on these words, lent the same in both cabinets.
    pub fn judge(&mut self, words: &[u16], large: &Outcome, small: &Outcome) {
        let inside = |words: &[u16]| readable::read(&SMALL, words).is_some();
        let [ours, theirs] = [small.answer.number, large.answer.number];
        let read = inside(words);
        let fits = theirs == 0 && read && inside(&large.result);
        assert_eq!(ours == 0, fits, "small {ours}, large {theirs}");
        if !read {
            assert_eq!(ours, 1, "an input beyond the small figures");
        }
        if read && (BEFORE_LIMITS.contains(&ours) || BEFORE_LIMITS.contains(&theirs)) {
            assert_eq!(ours, theirs, "refused before the limits");
        }
        match (ours, theirs) {
            (0, _) => {
                assert_eq!(small.answer, large.answer);
                assert_eq!(small.result, large.result);
                assert_eq!(small.left, large.left);
                self.both += 1;
            }
            (1, 0) => self.input_beyond += 1,
            (8, 0) => self.deep += 1,
            (9, 0) => self.long += 1,
            (_, 0) => panic!("small {ours}, where the large one accepts"),
            _ if ours == theirs => self.alike += 1,
            _ => self.differ += 1,
        }
    }
}

/// A configuration inside the small figures whose inst, at the position given, has a result of depth
/// 34 and of more than 8,192 words: too deep for the small cabinet, too long for the large one.
pub fn deep_here_long_there() -> (Configuration, u16) {
    let key = Key::Fault(1);
    let old = (0..24).fold(build::comp(1), |inner, _| around(Way::SeqSecond, inner));
    // 256 times the old entry, each nine levels below the root.
    let many =
        (0..8).fold(build::current_handler(), |half, _| build::par(half.clone(), half.clone()));
    let installs = build::inst(build::list([(key, many)]));
    let handlers = build::list([(key, old)]);
    let root = build::scope_with(1, Mark::None, false, handlers, installs);
    // Behind the scope's two words, its list's count and key, and the entry's 49 words.
    (build::configuration(0, vec![root]), 2 + 2 + 49)
}
