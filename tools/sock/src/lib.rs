//! The command sock: configurations as text, where and why words are unreadable, what a configuration looks like, which steps there
//! are, and runs. Steps, checks and ends are those of the proved archive (`library`); what else is here is for reading and writing.

pub mod assemble;
pub mod diagnose;
pub mod files;
pub mod follow;
pub mod help;
pub mod hex;
pub mod lexer;
pub mod library;
pub mod moves;
pub mod names;
pub mod parser;
pub mod picture;
pub mod print;
pub mod random;
pub mod run;
pub mod show;
pub mod state;
pub mod tell;
pub mod tree;
pub mod words;
