//! The tables of document 01 in Rust: packed words, cases as text, made-up sound tables, and the
//! entry and placement rules once more, written apart from the proved code.

pub mod answer;
pub mod case;
pub mod generate;
pub mod placed;
pub mod rng;
pub mod sound;
pub mod text;
pub mod words;
