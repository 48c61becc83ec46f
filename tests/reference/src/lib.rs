//! A second implementation of document 01 (SOCK engines with dynamic handlers) as document 02
//! changes it, in plain Rust over trees. It is the oracle for an implementation that works on the words themselves, so
//! it follows the document sentence by sentence and prefers clarity to speed.
//!
//! Words become trees (`read`, `readable`), rules change trees (`alone`, `pair`, with `fault`,
//! `handlers` and `context`), trees become words (`write`), and `calls` ties them together.
//! `billing` is document 02's change j, and stands by itself.
//!
//! Decisions where document 01 leaves room:
//! - Parts of trees are shared (`Rc`), so that a result of millions of words can be measured
//!   and refused without being built.
//! - The limits are a parameter of the calls on words, and of those on bytes that the swing bridge
//!   cabinet has too (document 02, i: `..._within`); the other calls on bytes and the program
//!   handover take document 01's figures. Handover's bound on L and its output room are both
//!   the limit of words.
//! - The process of an engine is the range 0..0 when there is none, and packed 0.
//! - Ends are counted among enabled processes, the only place where a readable configuration
//!   has them.
//! - In handover, a length word that is cut itself counts as missing words; "cut" stands alone
//!   in its line, in place of "end" and the length.
//!
//! `window` is document 02's change h, and stands by itself; `pending` is change b: what a side has
//! that can't be killed is searched apart from killing it. `earlier` is the format before change c,
//! with no lists of variables, and how it is rewritten. `journal` is change f, over the
//! step of `calls`, `index` change g, over both, and `engines` change k. `planning` is change e, a
//! reader of its own, and `keeper` change m, a naive recursion over the step.

pub mod alone;
pub mod billing;
pub mod build;
pub mod bytes;
pub mod calls;
pub mod configuration;
pub mod context;
pub mod coverage;
pub mod earlier;
pub mod engines;
pub mod expression;
pub mod fault;
pub mod fields;
pub mod generate;
pub mod handlers;
pub mod handover;
pub mod index;
pub mod journal;
pub mod keeper;
pub mod limits;
pub mod measure;
pub mod pair;
pub mod pending;
pub mod planning;
pub mod process;
pub mod read;
pub mod readable;
pub mod refusal;
pub mod variables;
pub mod window;
pub mod write;

pub use bytes::{
    sock_check_readable, sock_check_readable_within, sock_check_start, sock_check_start_within,
    sock_ends, sock_pending, sock_process, sock_step, sock_step_within,
};
pub use calls::{
    check_readable, check_start, ends, pending_at, process_of, process_range, step, Answer, Ends,
    Numbers, Pending,
};
pub use limits::{Limits, SMALL, STANDARD};
