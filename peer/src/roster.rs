//! The names of the slots: an entry of 16 bytes for each definition.

use crate::blocks;
use crate::limits::{ENTRY, MAX_PROGRAM};
use crate::model::{Definition, Model, Sort};
use crate::names::slot;
use crate::tokens::unpack;
use crate::translate::{ordered, translate, Verdict};

/// The number of a verdict for which the room lent for names is too short.
pub const SHORT: u32 = 10;

/// What a name is.
pub const CONSTANT: u8 = 1;
pub const STATE: u8 = 2;
/// Assigned outside of all blocks, or as the output of one.
pub const ASSIGNED: u8 = 3;
/// Set inside a block of which it is no output.
pub const HIDDEN: u8 = 4;

/// Names the slots of a text, or refuses it as translating it with room for the
/// largest program does.
pub fn name_slots(text: &[u8], faults: &mut [u8], names: &mut [u8]) -> Verdict {
    let verdict = translate(text, faults, &mut vec![0; MAX_PROGRAM]);
    match ordered(text) {
        Some((model, _)) if verdict.number == 0 => write(&entries(&model), names),
        _ => verdict,
    }
}

/// The entries of all names of a model without faults.
fn entries(model: &Model) -> Vec<[u8; ENTRY]> {
    let definitions = model.definitions.iter().zip(what_each_is(model));
    definitions
        .filter(|(definition, _)| definition.sort != Sort::Again)
        .map(|(definition, what)| entry(definition, what))
        .collect()
}

/// What the name of each definition is, those that set again among them.
fn what_each_is(model: &Model) -> Vec<u8> {
    let outside = |definition: &Definition| match definition.sort {
        Sort::Constant => CONSTANT,
        Sort::State => STATE,
        Sort::Assigned | Sort::Again => ASSIGNED,
    };
    let mut whats: Vec<u8> = model.definitions.iter().map(outside).collect();
    for block in blocks::pair(&model.marks).unwrap_or_default() {
        let outputs = model.header_known(block.header.outputs);
        for index in block.definitions.0 as usize..block.definitions.1 as usize {
            if !outputs.contains(&model.definitions[index].known) {
                whats[index] = HIDDEN;
            }
        }
    }
    whats
}

/// The bytes of one entry.
fn entry(definition: &Definition, what: u8) -> [u8; ENTRY] {
    let mut bytes = [0; ENTRY];
    bytes[..8].copy_from_slice(&unpack(definition.name));
    bytes[8] = what;
    bytes[10..12].copy_from_slice(&slot(definition.known).to_le_bytes());
    bytes[12..].copy_from_slice(&definition.line.to_le_bytes());
    bytes
}

/// Writes all entries, if there is room for them.
fn write(entries: &[[u8; ENTRY]], names: &mut [u8]) -> Verdict {
    let (number, count) = match names.get_mut(..entries.len() * ENTRY) {
        Some(room) => {
            room.copy_from_slice(entries.as_flattened());
            (0, entries.len() as u32)
        }
        None => (SHORT, 0),
    };
    Verdict { number, count }
}
