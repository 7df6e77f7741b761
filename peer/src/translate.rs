//! The verdict.

use crate::blocks;
use crate::deck::{Lines, Statement};
use crate::faults::{Fault, Spot, Wrong};
use crate::grammar;
use crate::limits::{
    FAULT, FAULT_LIST, MAX_DEFINITIONS, MAX_RECORDS, MAX_STATEMENTS, MAX_TEXT, RECORD,
};
use crate::model::{Model, Unit};
use crate::order::order;
use crate::program;
use crate::tokens::{cut, Bad, Token};

/// The answer of the translator: its number, and the count of records, faults or
/// names.
#[derive(Clone, Copy, Debug, PartialEq, Eq)]
pub struct Verdict {
    pub number: u32,
    pub count: u32,
}

impl Verdict {
    /// A verdict that counts nothing.
    fn bare(number: u32) -> Self {
        Verdict { number, count: 0 }
    }
}

/// Translates a text into a program, or refuses it.
pub fn translate(text: &[u8], faults: &mut [u8], program: &mut [u8]) -> Verdict {
    translate_ordered(text, faults, program).0
}

/// The same, and hands the order out; none without verdict 0.
pub fn translate_ordered(
    text: &[u8],
    faults: &mut [u8],
    program: &mut [u8],
) -> (Verdict, Vec<Unit>) {
    match judge(text, faults.len()) {
        Judged::Bare(number) => (Verdict::bare(number), Vec::new()),
        Judged::Faulty(number, found) => (write_faults(number, &found, faults), Vec::new()),
        Judged::Sorted(model, order) => {
            let needed = program::records_needed(&model);
            if needed > MAX_RECORDS.min(program.len() / RECORD) {
                return (Verdict::bare(8), Vec::new());
            }
            program::write(&model, &order, program);
            let verdict = Verdict {
                number: 0,
                count: needed as u32,
            };
            (verdict, order)
        }
    }
}

/// The model of a text and its units in order; none unless its verdict is 0
/// where room enough is lent.
pub fn ordered(text: &[u8]) -> Option<(Model, Vec<Unit>)> {
    match judge(text, FAULT_LIST) {
        Judged::Sorted(model, order) if program::records_needed(&model) <= MAX_RECORDS => {
            Some((model, order))
        }
        _ => None,
    }
}

/// The faults of a text, in line order; none unless it is refused with 5 or 7.
pub fn faults(text: &[u8]) -> Vec<Fault> {
    match judge(text, FAULT_LIST) {
        Judged::Faulty(_, found) => found,
        _ => Vec::new(),
    }
}

/// What a text is before the room for its program is looked at.
enum Judged {
    /// Refused by a number alone.
    Bare(u32),
    /// Refused with 5 or 7.
    Faulty(u32, Vec<Fault>),
    /// Sound, its units in order.
    Sorted(Model, Vec<Unit>),
}

/// Goes through the verdicts 1 to 7 in their order.
fn judge(text: &[u8], fault_room: usize) -> Judged {
    if fault_room < FAULT_LIST {
        return Judged::Bare(1);
    }
    if text.len() > MAX_TEXT {
        return Judged::Bare(2);
    }
    let Some(lines) = Lines::find(text) else {
        return Judged::Bare(3);
    };
    let mut model = Model::with_room(lines.count(), text.len());
    let Some(found) = read_statements(&lines, &mut model) else {
        return Judged::Bare(4);
    };
    if !found.is_empty() {
        return Judged::Faulty(5, found);
    }
    if model.definitions.len() > MAX_DEFINITIONS {
        return Judged::Bare(6);
    }
    match sorted(&mut model) {
        Ok(order) => Judged::Sorted(model, order),
        Err(found) => Judged::Faulty(7, found),
    }
}

/// Reads all statements and gives their faults; none if they are too many.
fn read_statements(lines: &Lines, model: &mut Model) -> Option<Vec<Fault>> {
    let mut faults = Vec::new();
    let mut tokens = Vec::with_capacity(64);
    for (index, statement) in lines.statements().enumerate() {
        if index == MAX_STATEMENTS {
            return None;
        }
        if let Err(wrong) = read_statement(&statement, &mut tokens, model) {
            faults.push(wrong.fault(lines, statement.line));
        }
    }
    Some(faults)
}

/// Reads one statement: its lines, then all of its tokens, then the grammar.
fn read_statement(
    statement: &Statement,
    tokens: &mut Vec<Token>,
    model: &mut Model,
) -> Result<(), Wrong> {
    if let Some(wrong) = statement.wrong() {
        return Err(wrong);
    }
    tokens.clear();
    for (card, part) in (0..).zip(statement.parts()) {
        cut(part, tokens).map_err(|Bad { code, before }| Wrong {
            code,
            spot: Spot::Bad { card, before },
        })?;
    }
    tokens.push(Token::End);
    grammar::read(tokens, statement.line, model)
}

/// Seeks the model faults in their order, and gives the units in order if
/// there are none.
fn sorted(model: &mut Model) -> Result<Vec<Unit>, Vec<Fault>> {
    let blocks = blocks::pair(&model.marks)?;
    let mut names = model.names();
    blocks::judge(model, &blocks, &mut names)?;
    model.doubles()?;
    let units = model.units(&blocks);
    model.resolve(&units, &names)?;
    order(model, &units)
}

/// Writes the fault list; there is at most one fault for each statement.
fn write_faults(number: u32, found: &[Fault], faults: &mut [u8]) -> Verdict {
    for (place, fault) in faults.chunks_exact_mut(FAULT).zip(found) {
        place.copy_from_slice(&fault.bytes());
    }
    Verdict {
        number,
        count: found.len() as u32,
    }
}
