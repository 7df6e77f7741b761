//! The limits of the papers, all in one place.

/// The most bytes of a text.
pub const MAX_TEXT: usize = 32_768;
/// The most lines of a text.
pub const MAX_LINES: usize = 1_024;
/// The most statements of a text.
pub const MAX_STATEMENTS: usize = 512;
/// The most definitions of a text.
pub const MAX_DEFINITIONS: usize = 1_023;
/// The least length of a lent fault list.
pub const FAULT_LIST: usize = 4_096;
/// How many slots there are, from 0 on.
pub const SLOTS: usize = 1_024;
/// The most records of a program.
pub const MAX_RECORDS: usize = 4_096;

/// The bytes of a fault in the list.
pub const FAULT: usize = 8;
/// The bytes of a record.
pub const RECORD: usize = 16;
/// The bytes of the largest program.
pub const MAX_PROGRAM: usize = MAX_RECORDS * RECORD;
/// The bytes of an entry in the list of names.
pub const ENTRY: usize = 16;
/// The bytes of the longest list of names.
pub const MAX_NAMES: usize = MAX_DEFINITIONS * ENTRY;

/// The most lines of a statement.
pub const STATEMENT_LINES: usize = 4;
/// The most bytes of a line of a statement, byte 10 aside.
pub const LINE_BYTES: usize = 72;
/// The most characters of a name.
pub const NAME_BYTES: usize = 6;
/// How deep parentheses and function calls may stand.
pub const LEVELS: u32 = 16;
/// The places of the working stack.
pub const STACK: usize = 67;

// Each statement may have a fault, and each definition needs a slot. What is
// counted in a text, places and columns among it, fits two bytes.
const _: () = assert!(MAX_STATEMENTS * FAULT <= FAULT_LIST);
const _: () = assert!(MAX_DEFINITIONS < SLOTS);
const _: () = assert!(MAX_TEXT < u16::MAX as usize);
