//! The library under the signatures of the peer: its raw answers, as the Rust
//! bindings give them.

use floesedge::raw;
use floesedge_peer::{Answer, Verdict};

/// The peer's form of an answer.
fn answer(raw::Answer { number, record }: raw::Answer) -> Answer {
    Answer { number, record }
}

/// The peer's form of a verdict.
fn verdict(raw::Verdict { number, count }: raw::Verdict) -> Verdict {
    Verdict { number, count }
}

/// Translates a text.
pub fn translate(text: &[u8], faults: &mut [u8], program: &mut [u8]) -> Verdict {
    verdict(raw::translate(text, faults, program))
}

/// Names the slots of a text.
pub fn name_slots(text: &[u8], faults: &mut [u8], names: &mut [u8]) -> Verdict {
    verdict(raw::names(text, faults, names))
}

/// Evaluates a program.
pub fn evaluate(program: &[u8], values: &mut [f64], derivs: &mut [f64]) -> Answer {
    answer(raw::evaluate(program, values, derivs))
}

/// Starts a program.
pub fn start(program: &[u8], values: &mut [f64], derivs: &mut [f64]) -> Answer {
    answer(raw::start(program, values, derivs))
}

/// Goes on by one step.
pub fn step(program: &[u8], h: f64, values: &mut [f64], derivs: &mut [f64]) -> Answer {
    answer(raw::step(program, h, values, derivs))
}
