//! The program: records of 16 bytes.

use crate::limits::RECORD;
use crate::model::{Model, Sort, Unit};
use crate::names::slot;
use crate::tokens::Name;

pub const CONSTANT: u8 = 1;
pub const INITIAL: u8 = 2;
pub const PUSH_VALUE: u8 = 3;
pub const PUSH_SLOT: u8 = 4;
pub const ADD: u8 = 5;
pub const SUBTRACT: u8 = 6;
pub const MULTIPLY: u8 = 7;
pub const DIVIDE: u8 = 8;
pub const NEGATE: u8 = 9;
pub const INSW: u8 = 10;
pub const LIMIT: u8 = 11;
pub const COMPAR: u8 = 12;
pub const STORE: u8 = 13;
pub const DERIVATIVE: u8 = 14;
pub const STORE_AGAIN: u8 = 15;

/// A record of an equation before its line is put in. While names are not yet
/// resolved, the bits of an item that pushes what a name stands for are the name,
/// or, inside a block that is looked at already, its slot is the name's index.
#[derive(Clone, Copy, Debug)]
pub struct Item {
    pub kind: u8,
    pub slot: u16,
    pub bits: u64,
}

impl Item {
    /// An item without operands.
    pub fn plain(kind: u8) -> Self {
        Item {
            kind,
            slot: 0,
            bits: 0,
        }
    }

    /// Pushes a number.
    pub fn number(value: f64) -> Self {
        Item {
            kind: PUSH_VALUE,
            slot: 0,
            bits: value.to_bits(),
        }
    }

    /// Pushes what a name stands for.
    pub fn name(name: Name) -> Self {
        Item {
            kind: PUSH_SLOT,
            slot: 0,
            bits: name,
        }
    }

    /// Pushes the time.
    pub fn time() -> Self {
        Item::plain(PUSH_SLOT)
    }
}

/// The bytes of one record.
pub fn record(kind: u8, slot: u16, line: u32, bits: u64) -> [u8; RECORD] {
    let head = kind as u64 | (slot as u64) << 16 | (line as u64) << 32;
    let mut bytes = [0; RECORD];
    bytes[..8].copy_from_slice(&head.to_le_bytes());
    bytes[8..].copy_from_slice(&bits.to_le_bytes());
    bytes
}

/// How many records a model needs.
#[inline(always)]
pub fn records_needed(model: &Model) -> usize {
    let valued = |sort| matches!(sort, Sort::Constant | Sort::State);
    let values = model
        .definitions
        .iter()
        .filter(|definition| valued(definition.sort))
        .count();
    values + model.items.len()
}

/// Writes the whole program into a lent buffer that has room for it.
pub fn write(model: &Model, order: &[Unit], program: &mut [u8]) {
    let mut room = program.chunks_exact_mut(RECORD);
    let mut put = |bytes: [u8; RECORD]| {
        if let Some(place) = room.next() {
            place.copy_from_slice(&bytes);
        }
    };
    for (kind, sort) in [(CONSTANT, Sort::Constant), (INITIAL, Sort::State)] {
        for definition in &model.definitions {
            if definition.sort == sort {
                put(record(
                    kind,
                    slot(definition.known),
                    definition.line,
                    definition.value.to_bits(),
                ));
            }
        }
    }
    for unit in order {
        for equation in model.equations_of(unit) {
            for item in model.items_of(equation) {
                put(record(item.kind, item.slot, equation.line, item.bits));
            }
        }
    }
}
