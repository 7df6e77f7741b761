//! The limits near which texts are made: those of the papers, and those of
//! before request 9, over which nothing is refused any more.

use floesedge_peer::deck::Lines;
use floesedge_peer::limits::{MAX_DEFINITIONS, MAX_LINES, MAX_STATEMENTS, MAX_TEXT};
use floesedge_peer::translate::ordered;

use crate::random::Random;

/// How much of something a text may have, and how much it might have before.
#[derive(Clone, Copy)]
pub struct Limit {
    pub name: &'static str,
    pub most: usize,
    pub before: usize,
}

pub const BYTES: Limit = Limit {
    name: "bytes",
    most: MAX_TEXT,
    before: 16_384,
};
pub const LINES: Limit = Limit {
    name: "lines",
    most: MAX_LINES,
    before: 512,
};
pub const STATEMENTS: Limit = Limit {
    name: "statements",
    most: MAX_STATEMENTS,
    before: 256,
};
pub const DEFINITIONS: Limit = Limit {
    name: "definitions",
    most: MAX_DEFINITIONS,
    before: 255,
};

/// The least length of a lent fault list before.
pub const FAULT_LIST_BEFORE: usize = 2_048;

impl Limit {
    /// All of them.
    pub const ALL: [Limit; 4] = [BYTES, LINES, STATEMENTS, DEFINITIONS];

    /// A number just about the limit, or, once in three times, about that of before.
    pub fn about(self, random: &mut Random) -> usize {
        let limit = if random.once_in(3) {
            self.before
        } else {
            self.most
        };
        limit + random.pick(&[0, 1, 1, 1, 2, 3]) - 1
    }
}

/// How much of something a text has.
#[derive(Clone, Copy, Debug, PartialEq, Eq, PartialOrd, Ord)]
pub enum Size {
    /// More than was allowed before.
    OverBefore,
    /// As much as is allowed.
    Full,
}

/// Of what a text with verdict 0 has so much, by the names of the limits.
pub fn sizes(text: &[u8]) -> Vec<(&'static str, Size)> {
    let (Some((model, _)), Some(lines)) = (ordered(text), Lines::find(text)) else {
        return Vec::new();
    };
    let counts = [
        text.len(),
        lines.count(),
        lines.statements().count(),
        model.definitions.len(),
    ];
    let mut sizes = Vec::new();
    for (limit, count) in Limit::ALL.into_iter().zip(counts) {
        if count > limit.before {
            sizes.push((limit.name, Size::OverBefore));
        }
        if count == limit.most {
            sizes.push((limit.name, Size::Full));
        }
    }
    sizes
}
