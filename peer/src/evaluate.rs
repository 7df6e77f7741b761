//! Evaluating: judging a program, running it, its start and one Euler step.

use crate::limits::{MAX_RECORDS, RECORD, SLOTS, STACK};
use crate::program::{
    ADD, COMPAR, CONSTANT, DERIVATIVE, DIVIDE, INITIAL, INSW, LIMIT, MULTIPLY, NEGATE, PUSH_SLOT,
    PUSH_VALUE, STORE, STORE_AGAIN, SUBTRACT,
};

/// The answer of the evaluator: its number, and the record that is bad for 3.
#[derive(Clone, Copy, Debug, PartialEq, Eq)]
pub struct Answer {
    pub number: u32,
    pub record: u32,
}

impl Answer {
    /// An answer that names no record.
    fn bare(number: u32) -> Self {
        Answer { number, record: 0 }
    }
}

/// Why a program is refused with 3 (all but the last two) or with 4.
#[derive(Clone, Copy, Debug, PartialEq, Eq, PartialOrd, Ord, Hash)]
pub enum Reason {
    UnknownKind,
    ByteOne,
    UnusedField,
    SlotOver1023,
    ConstantLate,
    InitialLate,
    SlotZeroSet,
    SetTwice,
    ReadBeforeSet,
    TooFewValues,
    SixtyEighthValue,
    StoreCount,
    DerivativeCount,
    DerivativeOfNoState,
    DerivativeTwice,
    AgainCount,
    AgainUnset,
    AgainTime,
    AgainConstant,
    AgainState,
    ValueLeft,
    StateWithoutDerivative,
}

impl Reason {
    /// All reasons, in the order of the papers.
    pub const ALL: [Reason; 22] = [
        Reason::UnknownKind,
        Reason::ByteOne,
        Reason::UnusedField,
        Reason::SlotOver1023,
        Reason::ConstantLate,
        Reason::InitialLate,
        Reason::SlotZeroSet,
        Reason::SetTwice,
        Reason::ReadBeforeSet,
        Reason::TooFewValues,
        Reason::SixtyEighthValue,
        Reason::StoreCount,
        Reason::DerivativeCount,
        Reason::DerivativeOfNoState,
        Reason::DerivativeTwice,
        Reason::AgainCount,
        Reason::AgainUnset,
        Reason::AgainTime,
        Reason::AgainConstant,
        Reason::AgainState,
        Reason::ValueLeft,
        Reason::StateWithoutDerivative,
    ];
}

/// A refusal by the records: the number of the bad one, or none if the end is.
#[derive(Clone, Copy, Debug, PartialEq, Eq)]
pub struct Refusal {
    pub record: Option<u32>,
    pub reason: Reason,
}

/// A record taken apart, its line left out.
struct Record {
    kind: u8,
    one: u8,
    operand: u16,
    bits: u64,
}

impl Record {
    /// Takes the 16 bytes of a record apart.
    #[inline(always)]
    fn of(bytes: &[u8]) -> Self {
        let head = u64::from_le_bytes(bytes[..8].try_into().unwrap());
        let bits = u64::from_le_bytes(bytes[8..RECORD].try_into().unwrap());
        Record {
            kind: head as u8,
            one: (head >> 8) as u8,
            operand: (head >> 16) as u16,
            bits,
        }
    }

    /// The operand of a record that is judged good for N slots.
    #[inline(always)]
    fn slot<const N: usize>(&self) -> usize {
        self.operand as usize % N
    }

    /// The value of a constant, an initial or a pushed value.
    #[inline(always)]
    fn value(&self) -> f64 {
        f64::from_bits(self.bits)
    }
}

/// A slot that has a value.
const SET: u8 = 1;
/// A slot that is a state.
const STATE: u8 = 2;
/// A state that has its derivative.
const DERIVED: u8 = 4;
/// A slot that a record of kind 13 set.
const STORED: u8 = 8;

/// What judging knows after some records.
struct Judge<const N: usize> {
    /// The marks of each slot.
    marks: [u8; N],
    /// How many values stand on the stack.
    values: usize,
    /// How many states are without derivative.
    open_states: usize,
    /// 1 while all kinds were 1, 2 while all were 1 or 2, else 3.
    stage: u8,
}

impl<const N: usize> Judge<N> {
    /// What is known before the first record.
    fn new() -> Self {
        let mut marks = [0; N];
        marks[0] = SET;
        Judge {
            marks,
            values: 0,
            open_states: 0,
            stage: 1,
        }
    }

    /// Judges the next record.
    #[inline(always)]
    fn record(&mut self, record: &Record) -> Result<(), Reason> {
        if record.one != 0 && (CONSTANT..=STORE_AGAIN).contains(&record.kind) {
            return Err(Reason::ByteOne);
        }
        match record.kind {
            CONSTANT => {
                let slot = any_slot::<N>(record)?;
                demand(self.stage == 1, Reason::ConstantLate)?;
                self.set(slot)
            }
            INITIAL => {
                let slot = any_slot::<N>(record)?;
                demand(self.stage <= 2, Reason::InitialLate)?;
                self.stage = 2;
                self.set(slot)?;
                self.marks[slot] |= STATE;
                self.open_states += 1;
                Ok(())
            }
            PUSH_VALUE => {
                demand(record.operand == 0, Reason::UnusedField)?;
                self.push()
            }
            PUSH_SLOT => {
                let slot = slot_only::<N>(record)?;
                demand(self.marks[slot] & SET != 0, Reason::ReadBeforeSet)?;
                self.push()
            }
            ADD..=COMPAR => {
                demand(record.operand == 0 && record.bits == 0, Reason::UnusedField)?;
                self.stage = 3;
                let taken = match record.kind {
                    NEGATE => 1,
                    INSW | LIMIT => 3,
                    _ => 2,
                };
                demand(self.values >= taken, Reason::TooFewValues)?;
                self.values -= taken - 1;
                Ok(())
            }
            STORE => {
                let slot = slot_only::<N>(record)?;
                self.stage = 3;
                self.set(slot)?;
                self.marks[slot] |= STORED;
                demand(self.values == 1, Reason::StoreCount)?;
                self.values = 0;
                Ok(())
            }
            DERIVATIVE => {
                let slot = slot_only::<N>(record)?;
                self.stage = 3;
                demand(self.values == 1, Reason::DerivativeCount)?;
                self.values = 0;
                let marks = self.marks[slot];
                demand(marks & STATE != 0, Reason::DerivativeOfNoState)?;
                demand(marks & DERIVED == 0, Reason::DerivativeTwice)?;
                self.marks[slot] |= DERIVED;
                self.open_states -= 1;
                Ok(())
            }
            STORE_AGAIN => {
                let slot = slot_only::<N>(record)?;
                self.stage = 3;
                demand(self.values == 1, Reason::AgainCount)?;
                self.values = 0;
                self.stored(slot)
            }
            _ => Err(Reason::UnknownKind),
        }
    }

    /// Sets a slot that is not yet set.
    #[inline(always)]
    fn set(&mut self, slot: usize) -> Result<(), Reason> {
        demand(slot != 0, Reason::SlotZeroSet)?;
        demand(self.marks[slot] & SET == 0, Reason::SetTwice)?;
        self.marks[slot] |= SET;
        Ok(())
    }

    /// Asks that a record of kind 13 set a slot, or says what it is instead.
    #[inline(always)]
    fn stored(&self, slot: usize) -> Result<(), Reason> {
        let marks = self.marks[slot];
        if marks & STORED != 0 {
            return Ok(());
        }
        Err(if slot == 0 {
            Reason::AgainTime
        } else if marks & STATE != 0 {
            Reason::AgainState
        } else if marks & SET != 0 {
            Reason::AgainConstant
        } else {
            Reason::AgainUnset
        })
    }

    /// Puts a value on the stack.
    #[inline(always)]
    fn push(&mut self) -> Result<(), Reason> {
        self.stage = 3;
        demand(self.values < STACK, Reason::SixtyEighthValue)?;
        self.values += 1;
        Ok(())
    }

    /// Judges the end of the program.
    fn end(&self) -> Result<(), Reason> {
        demand(self.values == 0, Reason::ValueLeft)?;
        demand(self.open_states == 0, Reason::StateWithoutDerivative)
    }
}

/// Refuses with a reason unless a condition holds.
#[inline(always)]
fn demand(holds: bool, reason: Reason) -> Result<(), Reason> {
    if holds {
        Ok(())
    } else {
        Err(reason)
    }
}

/// The operand as one of N slots.
#[inline(always)]
fn any_slot<const N: usize>(record: &Record) -> Result<usize, Reason> {
    demand((record.operand as usize) < N, Reason::SlotOver1023)?;
    Ok(record.slot::<N>())
}

/// The operand as a slot of a record without value.
#[inline(always)]
fn slot_only<const N: usize>(record: &Record) -> Result<usize, Reason> {
    demand(record.bits == 0, Reason::UnusedField)?;
    any_slot::<N>(record)
}

/// So many slots do for most programs of fewer records, and are cleared sooner.
const FEW: usize = 256;

/// Judges all records of a program whose length is right.
pub fn judge_reason(program: &[u8]) -> Result<(), Refusal> {
    judge_within::<SLOTS>(program)
}

/// The same where there are N slots.
fn judge_within<const N: usize>(program: &[u8]) -> Result<(), Refusal> {
    if FEW < N && program.len() < FEW * RECORD {
        match judge_all::<FEW>(program) {
            Err(refusal) if refusal.reason == Reason::SlotOver1023 => {}
            judged => return judged,
        }
    }
    judge_all::<N>(program)
}

/// Judges record after record, each slot being one of N.
fn judge_all<const N: usize>(program: &[u8]) -> Result<(), Refusal> {
    let mut judge = Judge::<N>::new();
    for (index, bytes) in program.chunks_exact(RECORD).enumerate() {
        if let Err(reason) = judge.record(&Record::of(bytes)) {
            return Err(Refusal {
                record: Some(index as u32),
                reason,
            });
        }
    }
    judge.end().map_err(|reason| Refusal {
        record: None,
        reason,
    })
}

/// Looks at all that is lent, and gives the places of the slots or the refusal.
fn accept<'a, const N: usize>(
    program: &[u8],
    values: &'a mut [f64],
    derivs: &'a mut [f64],
) -> Result<(&'a mut [f64; N], &'a mut [f64; N]), Answer> {
    let (Some(values), Some(derivs)) = (values.first_chunk_mut(), derivs.first_chunk_mut()) else {
        return Err(Answer::bare(1));
    };
    if !program.len().is_multiple_of(RECORD) || program.len() / RECORD > MAX_RECORDS {
        return Err(Answer::bare(2));
    }
    match judge_within::<N>(program) {
        Ok(()) => Ok((values, derivs)),
        Err(Refusal {
            record: Some(record),
            ..
        }) => Err(Answer { number: 3, record }),
        Err(Refusal { record: None, .. }) => Err(Answer::bare(4)),
    }
}

/// Runs a program that is judged good. The last value pushed is kept aside, so
/// that the stack holds those below it.
fn run<const N: usize>(program: &[u8], values: &mut [f64; N], derivs: &mut [f64; N]) {
    let mut stack = [0.0; STACK];
    let mut count = 0;
    let mut top = 0.0;
    for bytes in program.chunks_exact(RECORD) {
        let record = Record::of(bytes);
        match record.kind {
            CONSTANT => values[record.slot::<N>()] = record.value(),
            PUSH_VALUE => {
                stack[count] = top;
                count += 1;
                top = record.value();
            }
            PUSH_SLOT => {
                stack[count] = top;
                count += 1;
                top = values[record.slot::<N>()];
            }
            ADD => {
                count -= 1;
                top += stack[count];
            }
            SUBTRACT => {
                count -= 1;
                top = stack[count] - top;
            }
            MULTIPLY => {
                count -= 1;
                top *= stack[count];
            }
            DIVIDE => {
                count -= 1;
                top = stack[count] / top;
            }
            NEGATE => top = -top,
            INSW => {
                count -= 2;
                top = insw(stack[count], stack[count + 1], top);
            }
            LIMIT => {
                count -= 2;
                top = limit(stack[count], stack[count + 1], top);
            }
            COMPAR => {
                count -= 1;
                top = compar(stack[count], top);
            }
            STORE | STORE_AGAIN => {
                count = 0;
                values[record.slot::<N>()] = top;
            }
            DERIVATIVE => {
                count = 0;
                derivs[record.slot::<N>()] = top;
            }
            _ => {}
        }
    }
}

/// A if P is below 0, else B.
fn insw(p: f64, a: f64, b: f64) -> f64 {
    if p < 0.0 {
        a
    } else {
        b
    }
}

/// L if X is below L, else U if X is above U, else X.
fn limit(l: f64, u: f64, x: f64) -> f64 {
    if x < l {
        l
    } else if x > u {
        u
    } else {
        x
    }
}

/// 1 if A is not below B, else 0; 0 with a NaN.
fn compar(a: f64, b: f64) -> f64 {
    if a >= b {
        1.0
    } else {
        0.0
    }
}

/// The slot and initial value of each state of a program that is judged good.
fn initials<const N: usize>(program: &[u8]) -> impl Iterator<Item = (usize, f64)> + '_ {
    let records = program.chunks_exact(RECORD);
    let behind = records.skip_while(|bytes| bytes[0] == CONSTANT);
    let initials = behind.take_while(|bytes| bytes[0] == INITIAL);
    initials.map(|bytes| {
        let record = Record::of(bytes);
        (record.slot::<N>(), record.value())
    })
}

/// Evaluates a program at the lent time and states.
pub fn evaluate(program: &[u8], values: &mut [f64], derivs: &mut [f64]) -> Answer {
    evaluate_within::<SLOTS>(program, values, derivs)
}

/// Sets the time to 0 and the states to their initial values.
pub fn start(program: &[u8], values: &mut [f64], derivs: &mut [f64]) -> Answer {
    start_within::<SLOTS>(program, values, derivs)
}

/// Evaluates, then goes on by one Euler step of h.
pub fn step(program: &[u8], h: f64, values: &mut [f64], derivs: &mut [f64]) -> Answer {
    step_within::<SLOTS>(program, h, values, derivs)
}

/// Evaluates where there are N slots.
pub fn evaluate_within<const N: usize>(
    program: &[u8],
    values: &mut [f64],
    derivs: &mut [f64],
) -> Answer {
    match accept::<N>(program, values, derivs) {
        Ok((values, derivs)) => {
            run(program, values, derivs);
            Answer::bare(0)
        }
        Err(answer) => answer,
    }
}

/// Starts where there are N slots.
pub fn start_within<const N: usize>(
    program: &[u8],
    values: &mut [f64],
    derivs: &mut [f64],
) -> Answer {
    match accept::<N>(program, values, derivs) {
        Ok((values, _)) => {
            values[0] = 0.0;
            for (slot, value) in initials::<N>(program) {
                values[slot] = value;
            }
            Answer::bare(0)
        }
        Err(answer) => answer,
    }
}

/// Takes a step where there are N slots.
pub fn step_within<const N: usize>(
    program: &[u8],
    h: f64,
    values: &mut [f64],
    derivs: &mut [f64],
) -> Answer {
    match accept::<N>(program, values, derivs) {
        Ok((values, derivs)) => {
            run(program, values, derivs);
            for (slot, _) in initials::<N>(program) {
                let product = h * derivs[slot];
                values[slot] += product;
            }
            values[0] += h;
            Answer::bare(0)
        }
        Err(answer) => answer,
    }
}
