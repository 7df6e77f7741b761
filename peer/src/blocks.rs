//! Procedural blocks: pairing, and what may stand inside.

use crate::faults::Fault;
use crate::model::{Equation, Model, Sort};
use crate::names::Names;

/// An unpaired header or end, or a header inside a pair.
pub const UNPAIRED: u8 = 25;
/// A statement that may not stand inside, or outputs that are not as they must be.
pub const INSIDE: u8 = 26;

/// What a header says: where its outputs and its inputs begin and end.
#[derive(Clone, Copy, Debug)]
pub struct Header {
    pub outputs: (u16, u16),
    pub inputs: (u16, u16),
}

/// A header, or an end, and how much of the model stands above it.
#[derive(Clone, Copy, Debug)]
pub struct Mark {
    pub line: u32,
    pub header: Option<Header>,
    pub definitions: u16,
    pub equations: u16,
}

/// A block: a header and what stands between it and its end.
#[derive(Clone, Copy, Debug)]
pub struct Block {
    pub line: u32,
    pub header: Header,
    pub definitions: (u16, u16),
    pub equations: (u16, u16),
}

/// Pairs headers with ends and gives the blocks, or the faults 25.
pub fn pair(marks: &[Mark]) -> Result<Vec<Block>, Vec<Fault>> {
    let mut ends = vec![None; marks.len()];
    let mut open = Vec::new();
    let mut faulty = vec![false; marks.len()];
    for (index, mark) in marks.iter().enumerate() {
        if mark.header.is_some() {
            open.push(index);
        } else {
            match open.pop() {
                Some(header) => ends[header] = Some(index),
                None => faulty[index] = true,
            }
        }
    }
    let mut blocks = Vec::new();
    // The end of the last pair that lies in no other.
    let mut last = 0;
    for (index, mark) in marks.iter().enumerate() {
        match (mark.header, ends[index]) {
            (Some(header), Some(end)) if index >= last => {
                last = end;
                blocks.push(Block {
                    line: mark.line,
                    header,
                    definitions: (mark.definitions, marks[end].definitions),
                    equations: (mark.equations, marks[end].equations),
                });
            }
            (Some(_), _) => faulty[index] = true,
            (None, _) => {}
        }
    }
    let mut faults = Vec::new();
    for (mark, _) in marks.iter().zip(faulty).filter(|(_, faulty)| *faulty) {
        faults.push(Fault::at_first(mark.line, UNPAIRED));
    }
    if faults.is_empty() {
        Ok(blocks)
    } else {
        Err(faults)
    }
}

/// Looks at the inside of each block, or gives the faults 26. A setting that
/// sets again is marked as such, a use inside is given the index of its name.
pub fn judge(model: &mut Model, blocks: &[Block], names: &mut Names) -> Result<(), Vec<Fault>> {
    let mut faults = Vec::new();
    for (index, block) in blocks.iter().enumerate() {
        let number = index as u16 + 1;
        let place = faults.len();
        let mut good = enter_header(model, block, number, names);
        judge_inside(model, block, number, names, &mut faults);
        for &output in model.header_known(block.header.outputs) {
            good &= names.at(output).set_in == number;
        }
        if !good {
            faults.insert(place, Fault::at_first(block.line, INSIDE));
        }
    }
    if faults.is_empty() {
        Ok(())
    } else {
        Err(faults)
    }
}

/// Notes the inputs and outputs of a block; false if an output is named twice.
fn enter_header(model: &Model, block: &Block, number: u16, names: &mut Names) -> bool {
    for &input in model.header_known(block.header.inputs) {
        names.at_mut(input).input_of = number;
    }
    let mut good = true;
    for &output in model.header_known(block.header.outputs) {
        let known = names.at_mut(output);
        good &= known.output_of != number;
        known.output_of = number;
    }
    good
}

/// Looks at all statements inside a block from the top.
fn judge_inside(
    model: &mut Model,
    block: &Block,
    number: u16,
    names: &mut Names,
    faults: &mut Vec<Fault>,
) {
    let mut equation = block.equations.0 as usize;
    for index in block.definitions.0 as usize..block.definitions.1 as usize {
        let definition = model.definitions[index];
        let good = match definition.sort {
            Sort::Constant => false,
            Sort::State => {
                equation += 1;
                false
            }
            Sort::Assigned | Sort::Again => {
                let whole = model.equations[equation];
                equation += 1;
                let allowed = uses_allowed(model, &whole, number, names);
                let known = names.at_mut(definition.known);
                if known.set_in == number {
                    model.definitions[index].sort = Sort::Again;
                } else {
                    known.set_in = number;
                    known.hidden = known.output_of != number;
                }
                allowed && known.input_of != number
            }
        };
        let line = definition.line;
        if !good && faults.last().map(|fault| fault.line) != Some(line) {
            faults.push(Fault::at_first(line, INSIDE));
        }
    }
}

/// Whether an assignment inside a block uses only what it may, each use given
/// the index of its name.
fn uses_allowed(model: &mut Model, equation: &Equation, number: u16, names: &Names) -> bool {
    let mut allowed = true;
    for &index in &model.uses[equation.uses.0 as usize..equation.uses.1 as usize] {
        let item = &mut model.items[index as usize];
        match names.find(item.bits) {
            Some(name) => {
                let known = names.at(name);
                allowed &= known.valued || known.input_of == number || known.set_in == number;
                (item.slot, item.bits) = (name, 0);
            }
            None => allowed = false,
        }
    }
    allowed
}
