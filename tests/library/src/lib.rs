//! Compares the calls on configurations that the static library exports for C with the second implementation:
//! the answer's 64 bits, every byte of the output, and that nothing else changes. A test over calls that both
//! cabinets have is made for each of them (`cabinet`).
//!
//! `billing` does the same for the bill, which reads no configuration.
//!
//! `exported` declares the calls, `memory` and `guard` lend them configurations and outputs,
//! `compare` makes one call on both sides, `walk` makes the calls of a run, `bytes` and
//! `outputs` give inputs and output lengths, `counts` says what was met. `painted` measures the
//! stack that a call needs, on the configurations of `deep`. All is deterministic; a difference
//! prints the class, seed and step of the input, the call and the bytes.
//!
//! `window` does the same for the window of faults, which reads no configuration, `journal`
//! for the step with a journal and for taking back, `index` for both with an index of open
//! requests, its beginning and its two questions, `engines` for joining and leaving, `planning` for
//! translating planners' starts, and `keeper` for keeper against the river.

pub mod billing;
pub mod bytes;
pub mod cabinet;
pub mod compare;
pub mod counts;
pub mod deep;
pub mod engines;
pub mod exported;
pub mod guard;
pub mod index;
pub mod input;
pub mod journal;
pub mod keeper;
pub mod memory;
pub mod memory_fault;
pub mod outputs;
pub mod pages;
pub mod painted;
pub mod planning;
pub mod walk;
pub mod window;
