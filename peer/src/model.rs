//! The model: what the statements define and use, and the faults seen only
//! in the whole text.

use crate::blocks::{Block, Mark};
use crate::faults::Fault;
use crate::limits::{MAX_DEFINITIONS, MAX_RECORDS};
use crate::names::{slot, Names};
use crate::program::{Item, STORE_AGAIN};
use crate::tokens::Name;

/// Defines a name that is defined already.
pub const DOUBLE: u8 = 21;
/// Names what nothing defines.
pub const UNDEFINED: u8 = 22;
/// An initial name that is no constant.
pub const INITIAL: u8 = 23;
/// Unsortable.
pub const UNSORTABLE: u8 = 24;

/// What a definition makes of its name.
#[derive(Clone, Copy, Debug, PartialEq)]
pub enum Sort {
    Constant,
    Assigned,
    State,
    /// Set again inside a block: no definition, but counted as one.
    Again,
}

/// A definition, or a setting that sets again.
#[derive(Clone, Copy, Debug)]
pub struct Definition {
    pub name: Name,
    pub line: u32,
    pub sort: Sort,
    /// The index of its name, once names are entered.
    pub known: u16,
    /// The constant's value, or the state's initial value.
    pub value: f64,
}

/// An assignment or a state statement.
#[derive(Clone, Copy, Debug)]
pub struct Equation {
    pub line: u32,
    /// Where its postfix items begin and end.
    pub items: (u16, u16),
    /// Where its uses of names begin and end.
    pub uses: (u16, u16),
    /// The index of its definition.
    pub definition: u16,
    /// The name of the initial value, if it is given by name.
    pub initial: Option<Name>,
}

/// What the order puts in its place as one: an assignment or a state statement
/// outside of all blocks, or a block with the equations inside.
#[derive(Clone, Copy, Debug)]
pub struct Unit {
    pub line: u32,
    /// Where its equations begin and end.
    pub equations: (u16, u16),
    /// Where its inputs begin and end, if it is a block.
    pub inputs: Option<(u16, u16)>,
}

/// All that the statements say, in text order.
#[derive(Default)]
pub struct Model {
    pub definitions: Vec<Definition>,
    pub equations: Vec<Equation>,
    pub items: Vec<Item>,
    /// The indexes of those items that push what a name stands for.
    pub uses: Vec<u16>,
    /// The headers and ends of blocks.
    pub marks: Vec<Mark>,
    /// The outputs and inputs of all headers.
    pub header_names: Vec<Name>,
    /// The index of each of these names, once names are entered.
    pub header_known: Vec<u16>,
    /// The definitions whose names have an earlier one, once names are entered.
    pub later: Vec<u16>,
}

impl Model {
    /// An empty model with room for what a text of this size usually says.
    pub fn with_room(lines: usize, bytes: usize) -> Self {
        let items = (bytes / 2).min(MAX_RECORDS);
        Model {
            definitions: Vec::with_capacity(lines.min(MAX_DEFINITIONS)),
            equations: Vec::with_capacity(lines.min(MAX_DEFINITIONS)),
            items: Vec::with_capacity(items),
            uses: Vec::with_capacity(items / 2),
            ..Model::default()
        }
    }

    /// The postfix items of an equation.
    pub fn items_of(&self, equation: &Equation) -> &[Item] {
        &self.items[equation.items.0 as usize..equation.items.1 as usize]
    }

    /// The slots that an equation uses by name, once names are resolved.
    pub fn slots_of(&self, equation: &Equation) -> impl Iterator<Item = u16> + '_ {
        let uses = &self.uses[equation.uses.0 as usize..equation.uses.1 as usize];
        uses.iter().map(|&index| self.items[index as usize].slot)
    }

    /// The indexes of some names of headers.
    pub fn header_known(&self, range: (u16, u16)) -> &[u16] {
        &self.header_known[range.0 as usize..range.1 as usize]
    }

    /// The equations of a unit.
    pub fn equations_of(&self, unit: &Unit) -> &[Equation] {
        &self.equations[unit.equations.0 as usize..unit.equations.1 as usize]
    }

    /// Enters all names that are defined or stand in a header into a table.
    pub fn names(&mut self) -> Names {
        let mut names = Names::with_room(self.definitions.len() + self.header_names.len());
        for (index, definition) in self.definitions.iter_mut().enumerate() {
            let index = index as u16;
            let valued = definition.sort != Sort::Assigned;
            let fresh;
            (definition.known, fresh) = names.define(definition.name, index, valued);
            if !fresh {
                self.later.push(index);
            }
        }
        let header_names = self.header_names.iter();
        self.header_known = header_names.map(|&name| names.enter(name)).collect();
        names
    }

    /// The units of the text.
    pub fn units(&self, blocks: &[Block]) -> Vec<Unit> {
        let mut units = Vec::with_capacity(self.equations.len());
        let mut next = 0;
        for block in blocks {
            units.extend(self.single_units(next, block.equations.0));
            units.push(Unit {
                line: block.line,
                equations: block.equations,
                inputs: Some(block.header.inputs),
            });
            next = block.equations.1;
        }
        units.extend(self.single_units(next, self.equations.len() as u16));
        units
    }

    /// A unit for each equation from one to before another.
    fn single_units(&self, from: u16, to: u16) -> impl Iterator<Item = Unit> + '_ {
        let equations = self.equations[from as usize..to as usize].iter();
        equations.zip(from..to).map(|(equation, index)| Unit {
            line: equation.line,
            equations: (index, index + 1),
            inputs: None,
        })
    }

    /// Gives the faults 21 if there are any.
    pub fn doubles(&self) -> Result<(), Vec<Fault>> {
        let mut faults: Vec<Fault> = Vec::new();
        for &index in &self.later {
            let Definition { line, sort, .. } = self.definitions[index as usize];
            if sort != Sort::Again && faults.last().map(|fault| fault.line) != Some(line) {
                faults.push(Fault::at_first(line, DOUBLE));
            }
        }
        if faults.is_empty() {
            Ok(())
        } else {
            Err(faults)
        }
    }

    /// Puts slots in place of names and values in place of initial names,
    /// or gives the faults 22 and 23.
    pub fn resolve(&mut self, units: &[Unit], names: &Names) -> Result<(), Vec<Fault>> {
        let mut faults = Vec::new();
        for unit in units {
            let code = match unit.inputs {
                Some(inputs) => self.resolve_block(unit, inputs, names),
                None => self.resolve_single(unit.equations.0, names),
            };
            if let Some(code) = code {
                faults.push(Fault::at_first(unit.line, code));
            }
        }
        if faults.is_empty() {
            Ok(())
        } else {
            Err(faults)
        }
    }

    /// Resolves an equation outside of all blocks, and gives its fault.
    fn resolve_single(&mut self, index: u16, names: &Names) -> Option<u8> {
        let mut code = None;
        let equation = &self.equations[index as usize];
        let own = equation.definition as usize;
        self.items[equation.items.1 as usize - 1].slot = slot(self.definitions[own].known);
        for &index in &self.uses[equation.uses.0 as usize..equation.uses.1 as usize] {
            let item = &mut self.items[index as usize];
            match names.find_outside(item.bits) {
                Some(name) => (item.slot, item.bits) = (slot(name), 0),
                None => code = Some(UNDEFINED),
            }
        }
        if let Some(name) = equation.initial {
            match names.find_outside(name) {
                Some(name) => match self.definitions[names.at(name).definition as usize] {
                    Definition {
                        sort: Sort::Constant,
                        value,
                        ..
                    } => self.definitions[own].value = value,
                    _ => code = code.or(Some(INITIAL)),
                },
                None => code = Some(UNDEFINED),
            }
        }
        code
    }

    /// Resolves the equations inside a block, and gives the fault of its inputs.
    fn resolve_block(&mut self, unit: &Unit, inputs: (u16, u16), names: &Names) -> Option<u8> {
        for equation in &self.equations[unit.equations.0 as usize..unit.equations.1 as usize] {
            for &index in &self.uses[equation.uses.0 as usize..equation.uses.1 as usize] {
                let item = &mut self.items[index as usize];
                item.slot = slot(item.slot);
            }
            let definition = &self.definitions[equation.definition as usize];
            let last = &mut self.items[equation.items.1 as usize - 1];
            last.slot = slot(definition.known);
            if definition.sort == Sort::Again {
                last.kind = STORE_AGAIN;
            }
        }
        let mut inputs = self.header_known(inputs).iter();
        let defined = inputs.all(|&input| names.is_outside(input));
        (!defined).then_some(UNDEFINED)
    }
}
