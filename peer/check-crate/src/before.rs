//! Programs of before request 9, when there were 256 slots. Where the library
//! runs one with a place for each slot of now, the places of then must be what
//! the peer leaves where there are 256 slots, and the others stay as lent.

use crate::runs::{self, alike, identical, run, Act, Buffers, Evaluated, Evaluator};
use floesedge_peer::evaluate::{evaluate_within, start_within, step_within};
use floesedge_peer::limits::RECORD;
use floesedge_peer::program::{CONSTANT, DERIVATIVE, INITIAL, PUSH_SLOT, STORE, STORE_AGAIN};

/// The slots of before.
pub const SLOTS: usize = 256;

/// The peer where there are only these.
const PEER: Evaluator = Evaluator {
    evaluate: evaluate_within::<SLOTS>,
    start: start_within::<SLOTS>,
    step: step_within::<SLOTS>,
};

/// Whether all slots that a program names are slots of before.
pub fn is_of_before(program: &[u8]) -> bool {
    let mut records = program.chunks_exact(RECORD);
    records.all(|record| {
        let named = matches!(
            record[0],
            CONSTANT | INITIAL | PUSH_SLOT | STORE | DERIVATIVE | STORE_AGAIN
        );
        !named || (u16::from_le_bytes([record[2], record[3]]) as usize) < SLOTS
    })
}

/// What the peer leaves where there are the slots of before, by the same acts.
pub fn run_before(program: &[u8], acts: &[Act], lent: &Buffers) -> Evaluated {
    run(&PEER, program, acts, &lent.first(SLOTS))
}

/// Whether a run with the slots of now gave the same answers as one with those of
/// before, left the same in their places, and all others as they were lent.
pub fn agree(before: &Evaluated, now: &Evaluated, lent: &Buffers) -> bool {
    let others_stay = now.iter().all(|(_, left)| stays_behind(left, lent));
    runs::agree(before, &first_of(now), alike) && others_stay
}

/// A run, of which only the places of before are kept.
fn first_of(now: &Evaluated) -> Evaluated {
    let kept = now
        .iter()
        .map(|(answer, left)| (*answer, left.first(SLOTS)));
    kept.collect()
}

/// Whether what stands behind the places of before is as it was lent.
fn stays_behind(left: &Buffers, lent: &Buffers) -> bool {
    left.behind(SLOTS).agree(&lent.behind(SLOTS), identical)
}

/// Prints two such runs of the same acts.
pub fn show(acts: &[Act], before: &Evaluated, now: &Evaluated, lent: &Buffers) {
    let few = format!("peer of {SLOTS} slots");
    runs::show(acts, [&few, "library"], [before, &first_of(now)], alike);
    for (number, (_, left)) in now.iter().enumerate() {
        if !stays_behind(left, lent) {
            println!("places from {SLOTS} on are not as lent after act {number}");
        }
    }
}
