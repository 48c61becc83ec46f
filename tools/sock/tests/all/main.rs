//! All tests as one program, so that they are built once and run beside each other: by subject, and what they share (`given`, `texts`).

mod check;
mod commands;
mod errors;
mod given;
mod help;
mod labels;
mod moves;
mod plans;
mod runs;
mod show;
mod text;
mod texts;
mod tutorial;
