//! What the benchmarks share: configurations of many shapes, a clock, and a case for each rule.

pub mod clock;
pub mod rules;
pub mod shapes;
pub mod walker;
