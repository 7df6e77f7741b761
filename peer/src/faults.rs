//! Faults: the statement, what is wrong with it, and the place in the text.
//!
//! Reading a statement notes only where among its cards or tokens it went wrong.
//! The place is then sought in the lines of that statement alone.

use crate::deck::{Card, Lines};
use crate::limits::FAULT;
use crate::tokens::begins;

/// A fault of the statement with this first line.
#[derive(Clone, Copy, Debug, PartialEq)]
pub struct Fault {
    pub line: u32,
    pub code: u8,
    pub spot: Spot,
    pub place: Place,
}

/// A byte of the text by its line and its column, both from 1.
#[derive(Clone, Copy, Debug, PartialEq)]
pub struct Place {
    pub line: u32,
    pub column: u32,
}

/// What is wrong with a statement, its place not yet sought.
#[derive(Clone, Copy, Debug, PartialEq)]
pub struct Wrong {
    pub code: u8,
    pub spot: Spot,
}

/// Where in its statement a fault is.
#[derive(Clone, Copy, Debug, PartialEq)]
pub enum Spot {
    /// At the first byte.
    First,
    /// At a bad token: on the card of this index from 0, behind this many bytes.
    Bad { card: u16, before: u16 },
    /// At the token of this index from 0, all tokens being sound.
    Token(u16),
    /// At the last byte of the last card.
    Last,
}

impl Fault {
    /// A fault at the first byte of its statement.
    pub fn at_first(line: u32, code: u8) -> Self {
        Fault {
            line,
            code,
            spot: Spot::First,
            place: behind(line, 0),
        }
    }

    /// Its bytes in the list.
    pub fn bytes(&self) -> [u8; FAULT] {
        let Place { line, column } = self.place;
        let head = self.line | (self.code as u32) << 16;
        (head as u64 | (line as u64) << 32 | (column as u64) << 48).to_le_bytes()
    }
}

impl Wrong {
    /// The fault that it makes of the statement with this first line.
    pub fn fault(self, lines: &Lines, line: u32) -> Fault {
        let Wrong { code, spot } = self;
        let place = spot.place(lines, line);
        Fault {
            line,
            code,
            spot,
            place: place.expect("what was read before stands in the text"),
        }
    }
}

impl Spot {
    /// Its place in the statement with this first line, if that has it.
    fn place(self, lines: &Lines, line: u32) -> Option<Place> {
        let mut cards = lines.cards(line);
        match self {
            Spot::First => Some(behind(line, 0)),
            Spot::Bad { card, before } => {
                let card = cards.nth(card as usize)?;
                Some(behind(card.line, before as usize))
            }
            Spot::Token(index) => cards.flat_map(token_places).nth(index as usize),
            Spot::Last => cards.last().map(|card| last_byte(&card)),
        }
    }
}

/// The place behind some bytes of a line.
fn behind(line: u32, before: usize) -> Place {
    let column = before as u32 + 1;
    Place { line, column }
}

/// The places of the tokens on a card.
fn token_places(card: Card<'_>) -> impl Iterator<Item = Place> + '_ {
    begins(card.part).map(move |before| behind(card.line, before))
}

/// The place of the last byte of a card, dots and spaces included; column 1 if
/// the card is empty.
fn last_byte(card: &Card) -> Place {
    behind(card.line, card.whole.len().saturating_sub(1))
}

#[cfg(test)]
mod tests {
    use super::*;

    #[test]
    fn bytes_of_a_fault() {
        let mut fault = Fault::at_first(300, 24);
        assert_eq!(fault.bytes(), [44, 1, 24, 0, 44, 1, 1, 0]);
        fault.place = behind(0x0203, 0x7fff);
        assert_eq!(fault.bytes(), [44, 1, 24, 0, 3, 2, 0, 0x80]);
    }

    /// Line and column of a spot of the first statement of a text.
    fn place(text: &str, spot: Spot) -> (u32, u32) {
        let lines = Lines::find(text.as_bytes()).unwrap();
        let line = lines.statements().next().unwrap().line;
        let fault = Wrong { code: 18, spot }.fault(&lines, line);
        (fault.place.line, fault.place.column)
    }

    #[test]
    fn spots() {
        let text = "\n* C\n  A = 1.5...  \n*\n\n";
        assert_eq!(place(text, Spot::First), (3, 1));
        assert_eq!(place(text, Spot::Token(0)), (3, 3));
        assert_eq!(place(text, Spot::Token(1)), (3, 5));
        assert_eq!(place(text, Spot::Token(2)), (3, 7));
        assert_eq!(place(text, Spot::Last), (5, 1));
        let text = "A=...\n* C\n ...\n* C\n  2+3";
        assert_eq!(place(text, Spot::Token(1)), (1, 2));
        assert_eq!(place(text, Spot::Token(2)), (5, 3));
        assert_eq!(place(text, Spot::Last), (5, 5));
        let bad = |card, before| place(text, Spot::Bad { card, before });
        assert_eq!(bad(0, 1), (1, 2));
        assert_eq!(bad(1, 0), (3, 1));
        assert_eq!(bad(2, 2), (5, 3));
    }
}
