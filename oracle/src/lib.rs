//! A test oracle: the routine checker and interpreter a second time, in plain Rust, written from the papers
//! alone and close to their words. It is to be read and believed, not to be quick.

pub mod answer;
pub mod bounds;
pub mod calls;
pub mod checker;
pub mod claim;
pub mod dispatch;
pub mod draft;
pub mod editor;
pub mod entry;
pub mod facts;
pub mod frame;
pub mod loop_facts;
pub mod machine;
pub mod reach;
pub mod report;
pub mod rows;
pub mod set;
pub mod statements;
pub mod syntax;
pub mod table;
