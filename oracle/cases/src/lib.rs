//! Cases for the explorers: a seeded generator, hand-built ones, their text, and the comparison of
//! answers. The binary `cases` makes commands of them; FORMAT.md describes the text.

pub mod claims;
pub mod command;
pub mod compare;
pub mod condition;
mod damage;
mod draw;
mod edit;
pub mod format;
mod generate;
pub mod hand;
pub mod lines;
pub mod list;
pub mod pick;
pub mod random;
mod recipes;
pub mod run;
mod spread;
pub mod state;
pub mod table;
pub mod tally;
pub mod texts;

pub use generate::case;
