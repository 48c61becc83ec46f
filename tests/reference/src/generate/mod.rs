//! Generators for tests: random starts, readable configurations, steps, damage and edges. All
//! are deterministic in the seed of their `Random`.

pub mod beside;
pub mod cabinets;
pub mod code;
pub mod comers;
pub mod damage;
pub mod edges;
pub mod games;
pub mod growth;
pub mod indexes;
pub mod plans;
pub mod random;
pub mod replace;
pub mod roles;
pub mod run;
pub mod running;
pub mod start;
pub mod steps;
