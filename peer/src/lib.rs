//! The peer: a second, independent implementation of the Floesedge translator
//! and evaluator, written from the papers alone, in safe Rust without any
//! dependency. It exists to disagree with the proved library; `check` compares
//! the two and `bench` measures them side by side.
//!
//! One module stands for each section of the papers, and `roster` for the names
//! of the slots, which go beyond them; `names` serves the model, and `limits` all
//! of them.

#![forbid(unsafe_code)]

pub mod blocks;
pub mod deck;
pub mod evaluate;
pub mod faults;
pub mod grammar;
pub mod limits;
pub mod listing;
pub mod model;
pub mod names;
pub mod order;
pub mod program;
pub mod roster;
pub mod tokens;
pub mod translate;

pub use evaluate::{evaluate, judge_reason, start, step, Answer, Reason};
pub use listing::listing;
pub use roster::name_slots;
pub use translate::{translate, Verdict};
