//! Routines as Checked C text: text to words and back, verdicts with their reasons, runs. The command `mizzengrape` is made of it.

pub mod closed;
pub mod command;
mod comments;
pub mod diagnostics;
pub mod explain;
pub mod files;
pub mod findings;
pub mod form;
pub mod image;
mod lexer;
pub mod library;
pub mod lsp;
pub mod map;
mod memory;
pub mod names;
mod parser;
pub mod printer;
pub mod program;
pub mod propose;
pub mod repair;
mod rows;
mod suggest;
pub mod table;
pub mod tokens;
mod tree;
pub mod words;
