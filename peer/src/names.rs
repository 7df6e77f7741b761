//! The names of a model, each once, and what is known of it. Those that are
//! defined come first, in the order of their definitions, so that the slot of
//! each is its index plus 1.

use crate::tokens::Name;

/// What is known of a name. Blocks are numbered from 1.
#[derive(Clone, Copy)]
pub struct Known {
    pub name: Name,
    /// The index of its first definition, if it has any.
    pub definition: u16,
    /// Some statement makes it a constant or a state.
    pub valued: bool,
    /// It is set inside a block of which it is no output.
    pub hidden: bool,
    /// The last block that has it as an input.
    pub input_of: u16,
    /// The last block that has it as an output.
    pub output_of: u16,
    /// The last block inside which it is set.
    pub set_in: u16,
}

/// A table of names, each with its index from 0.
pub struct Names {
    /// The index plus 1 of the name at each place, 0 if the place is free.
    places: Vec<u16>,
    shift: u32,
    known: Vec<Known>,
    /// How many of them are defined.
    defined: u16,
}

/// The slot of a name that is defined, by its index.
pub fn slot(index: u16) -> u16 {
    index + 1
}

impl Names {
    /// An empty table with room for this many names.
    pub fn with_room(count: usize) -> Self {
        let size = (count * 2).next_power_of_two().max(16);
        Names {
            places: vec![0; size],
            shift: 64 - size.trailing_zeros(),
            known: Vec::with_capacity(count),
            defined: 0,
        }
    }

    /// Enters the name of a definition, and tells whether it is there first.
    pub fn define(&mut self, name: Name, definition: u16, valued: bool) -> (u16, bool) {
        let index = self.enter(name);
        let fresh = index == self.defined;
        let known = &mut self.known[index as usize];
        known.valued |= valued;
        if fresh {
            known.definition = definition;
            self.defined += 1;
        }
        (index, fresh)
    }

    /// The index of a name, which is entered if it is not there yet.
    pub fn enter(&mut self, name: Name) -> u16 {
        let place = self.place(name);
        if self.places[place] == 0 {
            self.known.push(Known {
                name,
                definition: 0,
                valued: false,
                hidden: false,
                input_of: 0,
                output_of: 0,
                set_in: 0,
            });
            self.places[place] = self.known.len() as u16;
        }
        self.places[place] - 1
    }

    /// The index of a name, if it is there.
    pub fn find(&self, name: Name) -> Option<u16> {
        self.places[self.place(name)].checked_sub(1)
    }

    /// What is known of the name of an index.
    pub fn at(&self, index: u16) -> &Known {
        &self.known[index as usize]
    }

    /// The same, to be changed.
    pub fn at_mut(&mut self, index: u16) -> &mut Known {
        &mut self.known[index as usize]
    }

    /// Whether the name of an index is defined outside of all blocks or as the
    /// output of one.
    pub fn is_outside(&self, index: u16) -> bool {
        index < self.defined && !self.at(index).hidden
    }

    /// The index of such a name.
    pub fn find_outside(&self, name: Name) -> Option<u16> {
        self.find(name).filter(|&index| self.is_outside(index))
    }

    /// The place where a name stands or would stand.
    fn place(&self, name: Name) -> usize {
        let mut place = (name.wrapping_mul(0x9e37_79b9_7f4a_7c15) >> self.shift) as usize;
        loop {
            let index = self.places[place];
            if index == 0 || self.known[index as usize - 1].name == name {
                return place;
            }
            place = (place + 1) & (self.places.len() - 1);
        }
    }
}
