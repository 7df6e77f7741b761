//! Programs in other orders: the units of a text in another good order and in a
//! bad one, and the statements of its program in any. The library runs each as
//! it ran the text's own program, and the two are compared.

use crate::library;
use crate::random::Random;
use crate::runs::{self, agree, alike, identical, run, Act, Buffers, Evaluated, LIBRARY, PEER};
use floesedge_peer::limits::{FAULT_LIST, MAX_PROGRAM, RECORD, SLOTS};
use floesedge_peer::model::{Model, Unit};
use floesedge_peer::order::{order_by, uses, Set};
use floesedge_peer::program::{
    records_needed, write, CONSTANT, DERIVATIVE, INITIAL, PUSH_SLOT, STORE, STORE_AGAIN,
};
use floesedge_peer::translate::ordered;
use floesedge_peer::Answer;

/// What another order was, and what came of it.
#[derive(Clone, Copy, Debug, PartialEq, Eq, PartialOrd, Ord)]
pub enum Event {
    /// A good order of the units that turned out to be the text's own.
    OwnOrder,
    /// A random one that is another: accepted, and all the same by bits.
    GoodOrder,
    /// Another with the greatest ready unit always next: likewise.
    GreatestFirst,
    /// A block has another place in it.
    BlockMoved,
    /// A block that sets a name again has.
    AgainMoved,
    /// A NaN was among what was written.
    NanWritten,
    /// A unit right behind one that uses it: refused.
    UsedBehindUser,
    /// The one that uses it is a block.
    UsedBehindBlock,
    /// A block right behind a unit that uses it.
    BlockBehindUser,
    /// A unit right behind a block that has it as an input and does not read it:
    /// accepted, and all the same.
    UnreadInput,
    /// Statements in random order: accepted, and all the same.
    ShuffledAccepted,
    ShuffledRefused,
    /// Two neighbouring statements exchanged: accepted, and all the same.
    ExchangedAccepted,
    ExchangedRefused,
    /// Statements in a random order, each after those whose names it reads:
    /// accepted, and all the same.
    ReadsKept,
    /// The same three of a program with a block that sets a name again, where
    /// the values may be others.
    ApartRefused,
    ApartSame,
    ApartOther,
}

impl Event {
    /// All of them.
    pub const ALL: [Event; 18] = [
        Event::OwnOrder,
        Event::GoodOrder,
        Event::GreatestFirst,
        Event::BlockMoved,
        Event::AgainMoved,
        Event::NanWritten,
        Event::UsedBehindUser,
        Event::UsedBehindBlock,
        Event::BlockBehindUser,
        Event::UnreadInput,
        Event::ShuffledAccepted,
        Event::ShuffledRefused,
        Event::ExchangedAccepted,
        Event::ExchangedRefused,
        Event::ReadsKept,
        Event::ApartRefused,
        Event::ApartSame,
        Event::ApartOther,
    ];
}

/// Tries other orders of a text, chosen by a seed, and gives what came of them;
/// nothing unless its verdict is 0.
pub fn check(text: &[u8], seed: u64) -> Result<Vec<Event>, Box<Difference>> {
    let Some((model, own)) = ordered(text) else {
        return Ok(Vec::new());
    };
    let mut random = Random::new(seed, 4);
    let trial = Trial::new(&mut random, own_program(text));
    let mut found = Vec::new();
    let tried = try_good(&mut random, &trial, &model, &own, &mut found)
        .and_then(|()| try_bad(&mut random, &trial, &model, &own, &mut found))
        .and_then(|()| try_statements(&mut random, &trial, &mut found));
    match tried {
        Ok(()) => Ok(found),
        Err(wrong) => Err(Box::new(Difference { trial, wrong })),
    }
}

// Running a program beside the text's own.

/// The library's program of a text.
fn own_program(text: &[u8]) -> Vec<u8> {
    let mut program = vec![0; MAX_PROGRAM];
    let verdict = library::translate(text, &mut [0; FAULT_LIST], &mut program);
    program.truncate(verdict.count as usize * RECORD);
    program
}

/// A text's own program, what is lent to it and to others, the acts that are
/// done from there, list by list, and what the library left behind each.
struct Trial {
    own: Vec<u8>,
    lent: Buffers,
    lists: [Vec<Act>; 3],
    left: [Evaluated; 3],
}

/// What a program in another order came to.
#[derive(Clone, Copy, PartialEq)]
enum Found {
    Refused,
    /// Accepted, and all the same by bits as of the own program.
    Same,
    /// Accepted, and something is not the same.
    Other,
}

/// A program that did not come to what it must, and what was wrong.
struct Wrong {
    program: Vec<u8>,
    why: &'static str,
}

/// Such a program, beside the text's own.
pub struct Difference {
    trial: Trial,
    wrong: Wrong,
}

impl Trial {
    /// Lends random values and derivatives to a program, and runs it.
    fn new(random: &mut Random, own: Vec<u8>) -> Self {
        let mut room = || SLOTS + random.pick(&[0, 0, 0, 1, 276]);
        let rooms = (room(), room());
        let lent = Buffers::random(random, rooms);
        let mut step = || Act::Step(runs::step_of(random));
        let lists = [
            vec![Act::Evaluate],
            vec![Act::Start, step(), step(), step()],
            vec![step(), step()],
        ];
        let left = lists
            .each_ref()
            .map(|acts| run(&LIBRARY, &own, acts, &lent));
        Trial {
            own,
            lent,
            lists,
            left,
        }
    }

    /// Runs another program. It must be refused just if its records say so,
    /// nothing be written then, and the peer must give the same.
    fn compare(&self, program: &[u8]) -> Result<Found, Wrong> {
        let bad = first_bad(program);
        let answer = Answer {
            number: if bad.is_some() { 3 } else { 0 },
            record: bad.unwrap_or(0),
        };
        let mut found = Found::Same;
        for (acts, own) in self.lists.iter().zip(&self.left) {
            let ours = run(&PEER, program, acts, &self.lent);
            let theirs = run(&LIBRARY, program, acts, &self.lent);
            if theirs.iter().any(|(given, _)| *given != answer) {
                return Err(wrong(program, "the answer is not what the records say"));
            }
            if !agree(&ours, &theirs, alike) {
                return Err(wrong(program, "the peer gives something else"));
            }
            if bad.is_some() {
                found = Found::Refused;
                let stays = |left: &Buffers| left.agree(&self.lent, identical);
                if !theirs.iter().all(|(_, left)| stays(left)) {
                    return Err(wrong(program, "it is refused, and something is written"));
                }
            } else if !agree(own, &theirs, identical) {
                found = Found::Other;
            }
        }
        Ok(found)
    }

    /// Whether the own program wrote a NaN.
    fn writes_nan(&self) -> bool {
        let mut left = self.left.iter().flatten();
        left.any(|(_, left)| left.has_new_nan(&self.lent))
    }
}

impl Difference {
    /// Prints both programs, and how they were run.
    pub fn show(&self) {
        let Difference { trial, wrong } = self;
        println!("{}", wrong.why);
        println!("own program:");
        runs::show_records(&trial.own);
        println!("in the other order:");
        runs::show_records(&wrong.program);
        for (acts, own) in trial.lists.iter().zip(&trial.left) {
            let ours = run(&PEER, &wrong.program, acts, &trial.lent);
            let theirs = run(&LIBRARY, &wrong.program, acts, &trial.lent);
            runs::show(acts, ["own", "other"], [own, &theirs], identical);
            runs::show(acts, ["peer", "library"], [&ours, &theirs], alike);
        }
    }
}

/// A program that is wrong.
fn wrong(program: &[u8], why: &'static str) -> Wrong {
    Wrong {
        program: program.to_vec(),
        why,
    }
}

/// The operand of a record.
fn slot(record: &[u8]) -> usize {
    u16::from_le_bytes([record[2], record[3]]) as usize % SLOTS
}

/// The first record that reads a slot before it is set, or stores again to one
/// before it is stored to; all else must be as it is in the program of a text.
fn first_bad(program: &[u8]) -> Option<u32> {
    let (mut known, mut stored) = ([false; SLOTS], [false; SLOTS]);
    known[0] = true;
    let bad = program.chunks_exact(RECORD).position(|record| {
        let slot = slot(record);
        match record[0] {
            PUSH_SLOT => return !known[slot],
            STORE_AGAIN => return !stored[slot],
            CONSTANT | INITIAL => known[slot] = true,
            STORE => (known[slot], stored[slot]) = (true, true),
            _ => {}
        }
        false
    });
    bad.map(|index| index as u32)
}

// Orders of units.

/// The program of a text with its units in a given order.
fn program_of(model: &Model, order: &[Unit]) -> Vec<u8> {
    let mut program = vec![0; records_needed(model) * RECORD];
    write(model, order, &mut program);
    program
}

/// The records of a program, whatever their order.
fn sorted_records(program: &[u8]) -> Vec<&[u8]> {
    let mut records: Vec<&[u8]> = program.chunks_exact(RECORD).collect();
    records.sort_unstable();
    records
}

/// Takes the member out of a set before which so many stand.
fn take_nth(set: &mut Set, mut before: usize) -> Option<usize> {
    for (i, word) in set.iter_mut().enumerate() {
        let count = word.count_ones() as usize;
        if before < count {
            let rest = (0..before).fold(*word, |rest, _| rest & (rest - 1));
            let bit = rest.trailing_zeros() as usize;
            *word &= !(1 << bit);
            return Some(i * 64 + bit);
        }
        before -= count;
    }
    None
}

/// A good order of units: each ready one is as likely to be next, or the
/// greatest always is.
fn good_order(random: &mut Random, model: &Model, own: &[Unit], greatest: bool) -> Vec<Unit> {
    let mut units = own.to_vec();
    units.sort_by_key(|unit| unit.line);
    let take = |ready: &mut Set| {
        let count: usize = ready.iter().map(|word| word.count_ones() as usize).sum();
        let last = count.checked_sub(1)?;
        take_nth(ready, if greatest { last } else { random.below(count) })
    };
    order_by(model, &units, take).expect("units of a text with verdict 0")
}

/// Tries a good order: the same records, and all the same by bits.
fn try_good(
    random: &mut Random,
    trial: &Trial,
    model: &Model,
    own: &[Unit],
    found: &mut Vec<Event>,
) -> Result<(), Wrong> {
    let greatest = random.once_in(4);
    let order = good_order(random, model, own, greatest);
    let program = program_of(model, &order);
    if sorted_records(&program) != sorted_records(&trial.own) {
        return Err(wrong(&program, "the records are not the same"));
    }
    if trial.compare(&program)? != Found::Same {
        return Err(wrong(&program, "a good order is not the same"));
    }
    let pairs = own.iter().zip(&order);
    let moved: Vec<&Unit> = pairs
        .filter(|(before, after)| before.line != after.line)
        .map(|(unit, _)| unit)
        .collect();
    if moved.is_empty() {
        found.push(Event::OwnOrder);
        return Ok(());
    }
    found.push(if greatest {
        Event::GreatestFirst
    } else {
        Event::GoodOrder
    });
    if moved.iter().any(|unit| unit.inputs.is_some()) {
        found.push(Event::BlockMoved);
    }
    if moved.iter().any(|unit| sets_again(model, unit)) {
        found.push(Event::AgainMoved);
    }
    if trial.writes_nan() {
        found.push(Event::NanWritten);
    }
    Ok(())
}

/// Whether a unit sets a name again.
fn sets_again(model: &Model, unit: &Unit) -> bool {
    let mut equations = model.equations_of(unit).iter();
    equations.any(|equation| {
        let last = model.items_of(equation).last();
        last.is_some_and(|item| item.kind == STORE_AGAIN)
    })
}

/// Tries a bad order, if there is any: a unit right behind one that uses it.
fn try_bad(
    random: &mut Random,
    trial: &Trial,
    model: &Model,
    own: &[Unit],
    found: &mut Vec<Event>,
) -> Result<(), Wrong> {
    let pairs = uses(model, own);
    if pairs.is_empty() {
        return Ok(());
    }
    let (user, used) = random.pick(&pairs);
    let mut order = own.to_vec();
    order[used..=user].rotate_left(1);
    let program = program_of(model, &order);
    let is_block = |index: usize| own[index].inputs.is_some();
    let event = match trial.compare(&program)? {
        Found::Refused if is_block(user) => Event::UsedBehindBlock,
        Found::Refused if is_block(used) => Event::BlockBehindUser,
        Found::Refused => Event::UsedBehindUser,
        Found::Same if is_block(user) => Event::UnreadInput,
        _ => return Err(wrong(&program, "a bad order is not refused")),
    };
    found.push(event);
    Ok(())
}

// Orders of statements.

/// What stands in front of the statements of a program, and these, each up to
/// its store or derivative.
fn statements(program: &[u8]) -> (&[u8], Vec<&[u8]>) {
    let kinds = || program.iter().step_by(RECORD);
    let head = kinds().take_while(|&&kind| kind <= INITIAL).count();
    let mut statements = Vec::new();
    let mut from = head * RECORD;
    for (index, kind) in kinds().enumerate() {
        if matches!(*kind, STORE | DERIVATIVE | STORE_AGAIN) {
            let to = (index + 1) * RECORD;
            statements.push(&program[from..to]);
            from = to;
        }
    }
    (&program[..head * RECORD], statements)
}

/// Statements that are being put in order, each after those of kind 13 whose
/// slots it reads or stores to again.
struct Placing<'a> {
    statements: &'a [&'a [u8]],
    /// For each slot the statement of kind 13.
    givers: [Option<usize>; SLOTS],
    met: Vec<bool>,
    order: Vec<&'a [u8]>,
}

impl Placing<'_> {
    /// Places a statement, and before it what it waits for.
    fn place(&mut self, index: usize) {
        if self.met[index] {
            return;
        }
        self.met[index] = true;
        for record in self.statements[index].chunks_exact(RECORD) {
            if let (PUSH_SLOT | STORE_AGAIN, Some(giver)) = (record[0], self.givers[slot(record)]) {
                self.place(giver);
            }
        }
        self.order.push(self.statements[index]);
    }
}

/// Statements in a random order in which none is bad.
fn keep_reads<'a>(random: &mut Random, statements: &'a [&'a [u8]]) -> Vec<&'a [u8]> {
    let mut placing = Placing {
        statements,
        givers: [None; SLOTS],
        met: vec![false; statements.len()],
        order: Vec::with_capacity(statements.len()),
    };
    for (index, statement) in statements.iter().enumerate() {
        let last = &statement[statement.len() - RECORD..];
        if last[0] == STORE {
            placing.givers[slot(last)] = Some(index);
        }
    }
    let mut indexes: Vec<usize> = (0..statements.len()).collect();
    random.shuffle(&mut indexes);
    for index in indexes {
        placing.place(index);
    }
    placing.order
}

/// How statements are put into another order.
#[derive(Clone, Copy)]
enum Way {
    Shuffle,
    Exchange,
    KeepReads,
}

/// Tries another order of single statements, those inside blocks too. What is
/// accepted must be the same, unless a block sets a name again.
fn try_statements(random: &mut Random, trial: &Trial, found: &mut Vec<Event>) -> Result<(), Wrong> {
    let (head, statements) = statements(&trial.own);
    let mut order = statements.clone();
    let way = random.pick(&[Way::Shuffle, Way::Shuffle, Way::Exchange, Way::KeepReads]);
    match way {
        Way::Shuffle => random.shuffle(&mut order),
        Way::Exchange if order.len() > 1 => {
            let first = random.below(order.len() - 1);
            order.swap(first, first + 1);
        }
        Way::Exchange => {}
        Way::KeepReads => order = keep_reads(random, &statements),
    }
    let program = [head, &order.concat()].concat();
    if program == trial.own {
        return Ok(());
    }
    let again = trial
        .own
        .iter()
        .step_by(RECORD)
        .any(|&kind| kind == STORE_AGAIN);
    found.push(match (trial.compare(&program)?, way) {
        (Found::Refused, Way::KeepReads) => {
            return Err(wrong(&program, "it is refused, and no record is bad"));
        }
        (Found::Refused, _) if again => Event::ApartRefused,
        (Found::Same, _) if again => Event::ApartSame,
        (Found::Other, _) if again => Event::ApartOther,
        (Found::Other, _) => return Err(wrong(&program, "what is accepted is not the same")),
        (Found::Refused, Way::Shuffle) => Event::ShuffledRefused,
        (Found::Refused, Way::Exchange) => Event::ExchangedRefused,
        (Found::Same, Way::Shuffle) => Event::ShuffledAccepted,
        (Found::Same, Way::Exchange) => Event::ExchangedAccepted,
        (Found::Same, Way::KeepReads) => Event::ReadsKept,
    });
    Ok(())
}
