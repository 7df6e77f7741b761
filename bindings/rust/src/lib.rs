//! Translate a model text into a program of records, name its slots, and run it.
//!
//! The five functions are those of the proved library `libfloesedge.a`, on slices. They allocate nothing, keep nothing
//! between calls and always return. What the library leaves to its callers (valid, aligned pointers and buffers that do
//! not overlap) is what Rust's slices are.
//!
//! ```
//! use floesedge::{start, step, translate, Answer, Verdict, FAULT_ROOM, PROGRAM_ROOM, RECORD_BYTES, SLOTS};
//!
//! let mut faults = [0; FAULT_ROOM];
//! let mut program = vec![0; PROGRAM_ROOM];
//! let verdict = translate(b"X=INTGRL(1,-X)\n", &mut faults, &mut program);
//! assert_eq!(verdict, Verdict::Translated { records: 4 });
//!
//! let program = &program[..verdict.count() * RECORD_BYTES];
//! let (mut values, mut derivs) = ([0.0; SLOTS], [0.0; SLOTS]);
//! assert_eq!(start(program, &mut values, &mut derivs), Answer::Done);
//! assert_eq!(step(program, 0.25, &mut values, &mut derivs), Answer::Done);
//! assert_eq!(values[..2], [0.25, 0.75]); // TIME and X
//! ```
//!
//! The roster of a text says which slot a name has:
//!
//! ```
//! use floesedge::{names, roster_of, Entry, Verdict, What, FAULT_ROOM, NAMES_ROOM};
//!
//! let mut faults = [0; FAULT_ROOM];
//! let mut roster = vec![0; NAMES_ROOM];
//! let verdict = names(b"* DECAY\nPARAM K=2\nX=INTGRL(1,-K*X)\n", &mut faults, &mut roster);
//! assert_eq!(verdict, Verdict::Named { names: 2 });
//!
//! let roster = roster_of(verdict, &roster);
//! assert_eq!(roster.slot_of("X"), Some(2));
//! let first = Entry { name: "K", slot: 1, what: What::Constant, line: 2 };
//! assert_eq!(roster.entries().next(), Some(first));
//! ```
//!
//! A text that can't be translated has its faults in the list, each with its place:
//!
//! ```
//! use floesedge::{faults_of, translate, Verdict, FAULT_ROOM};
//!
//! let mut faults = [0; FAULT_ROOM];
//! let verdict = translate(b"Q=K*\n", &mut faults, &mut []);
//! assert_eq!(verdict, Verdict::StatementFaults { faults: 1 });
//!
//! let fault = faults_of(verdict, &faults).next().unwrap();
//! assert_eq!((fault.line, fault.place_line, fault.column), (1, 1, 4));
//! assert_eq!(fault.to_string(), "1:4: 18, the grammar: no statement goes on like this");
//! ```

pub mod raw;

use std::fmt;

/// Bytes to lend for the fault list; fewer is verdict 1.
pub const FAULT_ROOM: usize = MOST_STATEMENTS * FAULT_BYTES;
/// Bytes that hold every program.
pub const PROGRAM_ROOM: usize = MOST_RECORDS * RECORD_BYTES;
/// Bytes that hold the roster of every text.
pub const NAMES_ROOM: usize = MOST_DEFINITIONS * NAME_BYTES;
/// Places to lend in values and in derivatives; fewer is answer 1.
pub const SLOTS: usize = 1024;
/// Bytes of a record.
pub const RECORD_BYTES: usize = 16;
/// Bytes of a fault.
pub const FAULT_BYTES: usize = 8;
/// Bytes of an entry of the roster: a name with its slot.
pub const NAME_BYTES: usize = 16;
/// Most bytes of a text.
pub const MOST_TEXT_BYTES: usize = 32_768;
/// Most lines of a text.
pub const MOST_LINES: usize = 1024;
/// Most statements of a text.
pub const MOST_STATEMENTS: usize = 512;
/// Most definitions of a text.
pub const MOST_DEFINITIONS: usize = 1023;
/// Most records of a program.
pub const MOST_RECORDS: usize = 4096;

/// What translating and naming say, by its number from 0 to 8, or 10.
#[derive(Clone, Copy, Debug, PartialEq, Eq)]
pub enum Verdict {
    /// 0 of [`translate`]: the program is written, so many records.
    Translated { records: usize },
    /// 0 of [`names`]: the roster is written, so many names.
    Named { names: usize },
    /// 1: fewer than [`FAULT_ROOM`] bytes lent for the fault list.
    FaultListShort,
    /// 2: over [`MOST_TEXT_BYTES`].
    TextTooLong,
    /// 3: over [`MOST_LINES`].
    TooManyLines,
    /// 4: over [`MOST_STATEMENTS`].
    TooManyStatements,
    /// 5: the fault list is written, so many faults with codes 11 to 19.
    StatementFaults { faults: usize },
    /// 6: over [`MOST_DEFINITIONS`], doubles counted.
    TooManyDefinitions,
    /// 7: the fault list is written, so many faults with codes 21 to 26.
    ModelFaults { faults: usize },
    /// 8: over [`MOST_RECORDS`], or over the bytes lent for them divided by [`RECORD_BYTES`].
    ProgramTooLarge,
    /// 10, of [`names`] alone: fewer than [`NAME_BYTES`] bytes lent for each name.
    NamesShort,
}

impl Verdict {
    /// The number, from 0 to 8, or 10.
    pub fn number(self) -> u32 {
        match self {
            Verdict::Translated { .. } | Verdict::Named { .. } => 0,
            Verdict::FaultListShort => 1,
            Verdict::TextTooLong => 2,
            Verdict::TooManyLines => 3,
            Verdict::TooManyStatements => 4,
            Verdict::StatementFaults { .. } => 5,
            Verdict::TooManyDefinitions => 6,
            Verdict::ModelFaults { .. } => 7,
            Verdict::ProgramTooLarge => 8,
            Verdict::NamesShort => 10,
        }
    }

    /// Records or names for 0, faults for 5 and 7, else 0.
    pub fn count(self) -> usize {
        match self {
            Verdict::Translated { records } => records,
            Verdict::Named { names } => names,
            Verdict::StatementFaults { faults } | Verdict::ModelFaults { faults } => faults,
            _ => 0,
        }
    }
}

impl fmt::Display for Verdict {
    fn fmt(&self, f: &mut fmt::Formatter<'_>) -> fmt::Result {
        write!(f, "verdict {}: ", self.number())?;
        match self {
            Verdict::Translated { records } => write!(f, "translated, {records} records"),
            Verdict::Named { names } => write!(f, "translated, {names} names"),
            Verdict::FaultListShort => f.write_str("the fault list lent has fewer than 4096 bytes"),
            Verdict::TextTooLong => f.write_str("the text has more than 32768 bytes"),
            Verdict::TooManyLines => f.write_str("the text has more than 1024 lines"),
            Verdict::TooManyStatements => f.write_str("the text has more than 512 statements"),
            Verdict::StatementFaults { faults } => write!(f, "statement faults, {faults} of them"),
            Verdict::TooManyDefinitions => f.write_str("the text has more than 1023 definitions"),
            Verdict::ModelFaults { faults } => write!(f, "model faults, {faults} of them"),
            Verdict::ProgramTooLarge => {
                f.write_str("the program has more than 4096 records, or more than the bytes lent hold")
            }
            Verdict::NamesShort => f.write_str("the roster lent has fewer than 16 bytes for each name"),
        }
    }
}

/// The code of a fault.
#[derive(Clone, Copy, Debug, PartialEq, Eq)]
#[repr(u8)]
pub enum Code {
    OpenEnd = 11,
    TooManyCards = 12,
    LineTooLong = 13,
    BadByte = 14,
    LongName = 15,
    BadNumber = 16,
    NumberRange = 17,
    Grammar = 18,
    TooDeep = 19,
    DefinedTwice = 21,
    Undefined = 22,
    Initial = 23,
    Unsortable = 24,
    Unpaired = 25,
    Inside = 26,
}

impl Code {
    /// Every code, in rising order.
    pub const ALL: [Code; 15] = [
        Code::OpenEnd,
        Code::TooManyCards,
        Code::LineTooLong,
        Code::BadByte,
        Code::LongName,
        Code::BadNumber,
        Code::NumberRange,
        Code::Grammar,
        Code::TooDeep,
        Code::DefinedTwice,
        Code::Undefined,
        Code::Initial,
        Code::Unsortable,
        Code::Unpaired,
        Code::Inside,
    ];

    /// The code with this number.
    pub fn from_number(number: u8) -> Option<Code> {
        Code::ALL.into_iter().find(|code| *code as u8 == number)
    }
}

impl fmt::Display for Code {
    fn fmt(&self, f: &mut fmt::Formatter<'_>) -> fmt::Result {
        let words = match self {
            Code::OpenEnd => "the text ends while the statement continues",
            Code::TooManyCards => "the statement has more than 4 lines, comments aside",
            Code::LineTooLong => "a line of the statement, comments aside, has more than 72 bytes",
            Code::BadByte => "a byte that is no letter A to Z, digit, point, space or mark",
            Code::LongName => "a name of more than 6 characters",
            Code::BadNumber => "a malformed number",
            Code::NumberRange => "a number with too many digits or too large a power of ten",
            Code::Grammar => "the grammar: no statement goes on like this",
            Code::TooDeep => "parentheses and calls more than 16 deep",
            Code::DefinedTwice => "a name that is already defined",
            Code::Undefined => "a name that nothing defines",
            Code::Initial => "the initial name is no constant",
            Code::Unsortable => "in a loop without a state, or behind one",
            Code::Unpaired => "a PROCED or ENDPRO without its other, or a PROCED inside a block",
            Code::Inside => "not allowed inside a block, or an output not set there or named twice",
        };
        write!(f, "{}, {words}", *self as u8)
    }
}

/// A fault of a statement, with its place. Lines and columns count from 1, and columns count bytes.
///
/// The place is the first byte of the token at fault, for [`Code::BadByte`] that byte itself, for [`Code::TooDeep`] the
/// parenthesis. For [`Code::OpenEnd`], and for [`Code::Grammar`] where the statement ends too early, it is the last
/// byte of the statement's last line, its dots and spaces included, or column 1 if that line is empty; a comment is no
/// line of the statement. For [`Code::TooManyCards`], [`Code::LineTooLong`] and the model faults it is the statement's
/// first byte: its first line, column 1, space or not.
#[derive(Clone, Copy, Debug, PartialEq, Eq)]
pub struct Fault {
    /// The first line of the statement.
    pub line: u16,
    pub code: Code,
    /// The byte behind the code, which is 0.
    pub zero: u8,
    /// The line of the place.
    pub place_line: u16,
    /// The column of the place.
    pub column: u16,
}

/// `LINE:COLUMN: CODE, words`, by the place, as compilers write it; put the name of a file and a colon in front. The
/// statement is named if it begins in another line.
impl fmt::Display for Fault {
    fn fmt(&self, f: &mut fmt::Formatter<'_>) -> fmt::Result {
        write!(f, "{}:{}: {}", self.place_line, self.column, self.code)?;
        if self.place_line != self.line {
            write!(f, " (statement of line {})", self.line)?;
        }
        Ok(())
    }
}

/// The faults that a verdict 5 or 7 wrote to the list; none for another verdict.
pub fn faults_of(verdict: Verdict, list: &[u8]) -> impl Iterator<Item = Fault> + '_ {
    let count = match verdict {
        Verdict::StatementFaults { faults } | Verdict::ModelFaults { faults } => faults,
        _ => 0,
    };
    list.chunks_exact(FAULT_BYTES).take(count).filter_map(|fault| {
        Some(Fault {
            line: u16::from_le_bytes([fault[0], fault[1]]),
            code: Code::from_number(fault[2])?,
            zero: fault[3],
            place_line: u16::from_le_bytes([fault[4], fault[5]]),
            column: u16::from_le_bytes([fault[6], fault[7]]),
        })
    })
}

/// What a name is.
#[derive(Clone, Copy, Debug, PartialEq, Eq)]
#[repr(u8)]
pub enum What {
    Constant = 1,
    State = 2,
    /// By a statement outside blocks, or as an output of a block.
    Assigned = 3,
    /// Set inside a block and no output: not known outside.
    Hidden = 4,
}

impl What {
    /// All four, in rising order.
    pub const ALL: [What; 4] = [What::Constant, What::State, What::Assigned, What::Hidden];

    /// What has this number.
    pub fn from_number(number: u8) -> Option<What> {
        What::ALL.into_iter().find(|what| *what as u8 == number)
    }
}

/// The word that `./list --slots` has for it.
impl fmt::Display for What {
    fn fmt(&self, f: &mut fmt::Formatter<'_>) -> fmt::Result {
        f.pad(match self {
            What::Constant => "constant",
            What::State => "state",
            What::Assigned => "assigned",
            What::Hidden => "hidden",
        })
    }
}

/// A name with its slot. What a block sets is defined where it is set first.
#[derive(Clone, Copy, Debug, PartialEq, Eq)]
pub struct Entry<'a> {
    pub name: &'a str,
    /// Its place in values, and in derivatives if it is a state; from 1.
    pub slot: usize,
    pub what: What,
    /// The first line of the statement that defines it, from 1.
    pub line: u32,
}

impl Entry<'_> {
    /// The entry that stands in these [`NAME_BYTES`] bytes.
    fn read(bytes: &[u8]) -> Option<Entry<'_>> {
        let name = bytes[..8].split(|byte| *byte == 0).next()?;
        Some(Entry {
            name: std::str::from_utf8(name).ok()?,
            slot: u16::from_le_bytes([bytes[10], bytes[11]]).into(),
            what: What::from_number(bytes[8])?,
            line: u32::from_le_bytes([bytes[12], bytes[13], bytes[14], bytes[15]]),
        })
    }
}

/// The roster of a text: its names with their slots. TIME is slot 0 and has no entry.
#[derive(Clone, Copy, Debug)]
pub struct Roster<'a> {
    names: usize,
    bytes: &'a [u8],
}

impl<'a> Roster<'a> {
    /// The names in the order of their slots, from slot 1 on; each stands there once.
    pub fn entries(self) -> impl Iterator<Item = Entry<'a>> {
        let entries = self.bytes.chunks_exact(NAME_BYTES);
        entries.take(self.names).filter_map(Entry::read)
    }

    /// The slot of a name, or none if the text does not define it. That of `TIME` is 0, as in every program.
    pub fn slot_of(self, name: &str) -> Option<usize> {
        if name == "TIME" {
            return Some(0);
        }
        self.entries().find(|entry| entry.name == name).map(|entry| entry.slot)
    }
}

/// The roster that a verdict 0 of [`names`] wrote; one without entries for another verdict.
pub fn roster_of(verdict: Verdict, written: &[u8]) -> Roster<'_> {
    let names = match verdict {
        Verdict::Named { names } => names,
        _ => 0,
    };
    Roster { names, bytes: written }
}

/// What evaluating, starting and stepping say, by its number from 0 to 4. All but [`Answer::Done`] write nothing.
#[derive(Clone, Copy, Debug, PartialEq, Eq)]
pub enum Answer {
    /// 0: without refusal.
    Done,
    /// 1: values or derivatives have fewer than [`SLOTS`] places.
    RoomShort,
    /// 2: the program is no multiple of [`RECORD_BYTES`], or has over [`MOST_RECORDS`] records.
    BadLength,
    /// 3: the first bad record, from 0.
    BadRecord { record: usize },
    /// 4: the end finds a value on the stack, or a state without derivative.
    BadEnd,
}

impl Answer {
    /// The number, from 0 to 4.
    pub fn number(self) -> u32 {
        match self {
            Answer::Done => 0,
            Answer::RoomShort => 1,
            Answer::BadLength => 2,
            Answer::BadRecord { .. } => 3,
            Answer::BadEnd => 4,
        }
    }
}

impl fmt::Display for Answer {
    fn fmt(&self, f: &mut fmt::Formatter<'_>) -> fmt::Result {
        write!(f, "answer {}: ", self.number())?;
        match self {
            Answer::Done => f.write_str("done"),
            Answer::RoomShort => f.write_str("values or derivatives have fewer than 1024 places"),
            Answer::BadLength => f.write_str("the program is no multiple of 16 bytes, or has more than 4096 records"),
            Answer::BadRecord { record } => write!(f, "record {record} is bad"),
            Answer::BadEnd => f.write_str("the end finds a value on the stack, or a state without derivative"),
        }
    }
}

/// Translates a text. Verdict 0 writes the program and 5 and 7 write the fault list, from the front of what is lent;
/// bytes past that, and the other buffer, stay. Any other verdict writes nothing.
pub fn translate(text: &[u8], faults: &mut [u8], program: &mut [u8]) -> Verdict {
    let translated = |records| Verdict::Translated { records };
    verdict(raw::translate(text, faults, program), translated)
}

/// Names the slots of a text; [`roster_of`] reads what it writes. The verdict is that of translating the text into
/// [`PROGRAM_ROOM`] bytes; but where that is 0 and the roster has fewer than [`NAME_BYTES`] bytes for each name, it is
/// 10. Verdict 0 writes the roster and 5 and 7 write the fault list, from the front of what is lent; bytes past that,
/// and the other buffer, stay. Any other verdict writes nothing.
pub fn names(text: &[u8], faults: &mut [u8], roster: &mut [u8]) -> Verdict {
    let named = |names| Verdict::Named { names };
    verdict(raw::names(text, faults, roster), named)
}

/// The verdict of this number and count; that of 0 is what was asked for.
fn verdict(given: raw::Verdict, zero: fn(usize) -> Verdict) -> Verdict {
    let count = given.count as usize;
    match given.number {
        0 => zero(count),
        1 => Verdict::FaultListShort,
        2 => Verdict::TextTooLong,
        3 => Verdict::TooManyLines,
        4 => Verdict::TooManyStatements,
        5 => Verdict::StatementFaults { faults: count },
        6 => Verdict::TooManyDefinitions,
        7 => Verdict::ModelFaults { faults: count },
        8 => Verdict::ProgramTooLarge,
        10 => Verdict::NamesShort,
        _ => unreachable!("the library's verdicts are 0 to 8, and 10"),
    }
}

/// Evaluates a program: reads slot 0 and the states, writes constants, assigned names and the states' derivatives. Other
/// places stay.
pub fn evaluate(program: &[u8], values: &mut [f64], derivs: &mut [f64]) -> Answer {
    answer(raw::evaluate(program, values, derivs))
}

/// Starts a program: slot 0 is 0, and each state has its initial value. Other places stay.
pub fn start(program: &[u8], values: &mut [f64], derivs: &mut [f64]) -> Answer {
    answer(raw::start(program, values, derivs))
}

/// One Euler step: evaluates, then adds `h` times its derivative to each state, and `h` to slot 0.
pub fn step(program: &[u8], h: f64, values: &mut [f64], derivs: &mut [f64]) -> Answer {
    answer(raw::step(program, h, values, derivs))
}

fn answer(given: raw::Answer) -> Answer {
    match given.number {
        0 => Answer::Done,
        1 => Answer::RoomShort,
        2 => Answer::BadLength,
        3 => Answer::BadRecord {
            record: given.record as usize,
        },
        4 => Answer::BadEnd,
        _ => unreachable!("the library's answers are 0 to 4"),
    }
}
