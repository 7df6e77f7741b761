//! Compares the library with the peer on random texts and programs, and its
//! answers with and without one comment more in each text, on the program of
//! each text in its own order and in others, and on programs of before with the
//! slots of then and of now; and the names that it gives to the slots of each text
//! with the program.
//!
//! `check N SEED [FROM]`: N texts and N programs of a seed, from case FROM on.

use std::collections::BTreeMap;
use std::process::ExitCode;

use floesedge_check::before;
use floesedge_check::comments::{self, Shape};
use floesedge_check::limits::{self, Limit, Size};
use floesedge_check::orders::{self, Event};
use floesedge_check::places::{self, Kind, Sort};
use floesedge_check::random::Random;
use floesedge_check::runs::{
    self, agree, alike, hex, run, Act, Buffers, Evaluated, LIBRARY, MARGIN, PEER,
};
use floesedge_check::{library, names, programs, texts};
use floesedge_peer::limits::{ENTRY, FAULT, FAULT_LIST, MAX_PROGRAM, RECORD, SLOTS};
use floesedge_peer::{self as peer, roster, Reason, Verdict};

/// How many differences are shown before the run stops.
const SHOWN: usize = 5;

/// How often each outcome occurred.
#[derive(Default)]
struct Counts {
    verdicts: BTreeMap<u32, u64>,
    faults: BTreeMap<u8, u64>,
    /// The same of texts with blocks: verdict 0 under 0, and fault codes.
    with_blocks: BTreeMap<u8, u64>,
    /// The same of texts with comments inside statements.
    with_comments: BTreeMap<u8, u64>,
    /// Texts that were read, by what of comments inside statements they have.
    shapes: BTreeMap<Shape, u64>,
    /// Faults, by the sort of their place.
    places: BTreeMap<(Sort, Kind), u64>,
    /// Comments put in, by the verdict and whether they stand inside a statement.
    put_in: BTreeMap<(u32, bool), u64>,
    /// Texts with verdict 0, by what they have very much of.
    sizes: BTreeMap<(&'static str, Size), u64>,
    /// Other orders of texts with verdict 0, by what came of them.
    orders: BTreeMap<Event, u64>,
    /// Texts whose slots were to be named, by the verdict.
    named: BTreeMap<u32, u64>,
    /// Texts whose slots were named, by what there is among their names.
    whats: BTreeMap<u8, u64>,
    answers: BTreeMap<u32, u64>,
    /// Programs run with just the places of now, by whether their slots are all of
    /// before and whether they were accepted.
    slots: BTreeMap<(bool, bool), u64>,
    reasons: BTreeMap<Reason, u64>,
    /// Reasons for which a record of kind 15 was bad.
    again: BTreeMap<Reason, u64>,
}

/// Why a record of kind 15 may be bad.
const AGAIN: [Reason; 8] = [
    Reason::ByteOne,
    Reason::UnusedField,
    Reason::SlotOver1023,
    Reason::AgainCount,
    Reason::AgainUnset,
    Reason::AgainTime,
    Reason::AgainConstant,
    Reason::AgainState,
];

fn main() -> ExitCode {
    let mut arguments = std::env::args()
        .skip(1)
        .map(|argument| argument.parse::<u64>());
    let (Some(Ok(count)), Some(Ok(seed))) = (arguments.next(), arguments.next()) else {
        eprintln!("use: check N SEED [FROM]");
        return ExitCode::from(2);
    };
    let from = arguments.next().and_then(Result::ok).unwrap_or(0);
    let mut counts = Counts::default();
    let mut differences = 0;
    for case in from..from + count {
        differences += check_text(seed, case, &mut counts) as usize;
        differences += check_program(seed, case, &mut counts) as usize;
        if differences >= SHOWN {
            println!("stopped at case {case} after {differences} differences");
            return ExitCode::FAILURE;
        }
    }
    let complete = report(&counts);
    println!("{count} texts and {count} programs of seed {seed}: {differences} differences");
    if differences > 0 || (count >= 2000 && !complete) {
        ExitCode::FAILURE
    } else {
        ExitCode::SUCCESS
    }
}

/// Prints how often each outcome occurred; false if any never did.
fn report(counts: &Counts) -> bool {
    let mut complete = true;
    let mut line = |name: String, count: Option<&u64>| {
        let count = count.copied().unwrap_or(0);
        complete &= count > 0;
        println!(
            "{name:<38}{count:>10}{}",
            if count == 0 { "  NEVER" } else { "" }
        );
    };
    for number in 0..=8 {
        line(format!("verdict {number}"), counts.verdicts.get(&number));
    }
    for code in (11..=19).chain(21..=26) {
        line(format!("fault {code}"), counts.faults.get(&code));
    }
    let with_blocks = &counts.with_blocks;
    line("verdict 0 with blocks".into(), with_blocks.get(&0));
    for code in 21..=26 {
        line(format!("fault {code} with blocks"), with_blocks.get(&code));
    }
    let with_comments = &counts.with_comments;
    line(
        "verdict 0 with comments inside".into(),
        with_comments.get(&0),
    );
    for code in (11..=19).chain([24]) {
        line(
            format!("fault {code} with comments inside"),
            with_comments.get(&code),
        );
    }
    for shape in Shape::ALL {
        line(format!("{shape:?}"), counts.shapes.get(&shape));
    }
    for number in [0, 5, 7] {
        for (inside, place) in [(false, "outside"), (true, "inside")] {
            line(
                format!("comment put in {place}, verdict {number}"),
                counts.put_in.get(&(number, inside)),
            );
        }
    }
    for Limit { name, most, before } in Limit::ALL {
        let (over, full) = ((name, Size::OverBefore), (name, Size::Full));
        line(
            format!("verdict 0, more than {before} {name}"),
            counts.sizes.get(&over),
        );
        line(format!("verdict 0, {most} {name}"), counts.sizes.get(&full));
    }
    for event in Event::ALL {
        line(format!("{event:?}"), counts.orders.get(&event));
    }
    for number in (0..=8).chain([roster::SHORT]) {
        line(
            format!("names: verdict {number}"),
            counts.named.get(&number),
        );
    }
    for (what, name) in names::WHATS {
        line(format!("names: {name}"), counts.whats.get(&what));
    }
    for number in 0..=4 {
        line(format!("answer {number}"), counts.answers.get(&number));
    }
    for (of_before, slots) in [(true, "slots of before"), (false, "slots over them")] {
        for (accepted, answer) in [(true, "accepted"), (false, "refused")] {
            line(
                format!("{slots}, {answer}"),
                counts.slots.get(&(of_before, accepted)),
            );
        }
    }
    for reason in Reason::ALL {
        line(format!("{reason:?}"), counts.reasons.get(&reason));
    }
    for reason in AGAIN {
        line(format!("{reason:?} of kind 15"), counts.again.get(&reason));
    }
    report_places(counts) && complete
}

/// Prints how often the place of each fault was of each sort; false if any never was.
fn report_places(counts: &Counts) -> bool {
    println!("places of faults, by code:");
    let mut complete = true;
    for (sort, kinds) in Sort::ALL {
        print!("{:<18}", format!("{sort:?}"));
        for &kind in kinds {
            let count = counts.places.get(&(sort, kind)).copied().unwrap_or(0);
            complete &= count > 0;
            let never = if count == 0 { " NEVER" } else { "" };
            print!("  {kind}: {count}{never}");
        }
        println!();
    }
    complete
}

// Texts.

/// What a translator gave back: verdict, and both buffers whole. The second one is
/// the program, or the names of the slots.
type Translated = (Verdict, Vec<u8>, Vec<u8>);

/// A translator, or what names the slots.
type Translate = fn(&[u8], &mut [u8], &mut [u8]) -> Verdict;

/// Fault list and program, or names, as they are lent, with their margins.
type Lent = (Vec<u8>, Vec<u8>);

/// Runs a translator on buffers that are lent without their margins.
fn run_text(translate: Translate, text: &[u8], lent: &Lent) -> Translated {
    let (mut faults, mut other) = lent.clone();
    let verdict = translate(text, inside(&mut faults), inside(&mut other));
    (verdict, faults, other)
}

/// What is lent of a buffer.
fn inside(buffer: &mut [u8]) -> &mut [u8] {
    let end = buffer.len() - MARGIN;
    &mut buffer[MARGIN..end]
}

/// Random bytes of random lengths to lend for a text.
fn lent(random: &mut Random, text: &[u8]) -> Lent {
    let rooms = rooms(random, text);
    let faults = random.bytes(rooms.0 + 2 * MARGIN);
    (faults, random.bytes(rooms.1 + 2 * MARGIN))
}

/// Random lengths to lend for a text.
fn rooms(random: &mut Random, text: &[u8]) -> (usize, usize) {
    let before = limits::FAULT_LIST_BEFORE;
    let faults = match random.below(24) {
        0 => random.pick(&[0, 8, before - 1, before, before + 8, FAULT_LIST - 1]),
        1 => random.range(FAULT_LIST - 8, FAULT_LIST + 8),
        2 | 3 => FAULT_LIST + random.pick(&[1, 8, 1000, FAULT_LIST]),
        _ => FAULT_LIST,
    };
    let verdict = peer::translate(text, &mut [0; FAULT_LIST], &mut vec![0; MAX_PROGRAM]);
    let needed = verdict.count as usize * RECORD;
    let program = match random.below(10) {
        0 if verdict.number == 0 => needed.saturating_sub(1),
        1 if verdict.number == 0 => needed.saturating_sub(random.range(1, 40)),
        2 | 3 if verdict.number == 0 => needed,
        4 if verdict.number == 0 => needed + random.range(1, 40),
        _ if verdict.number == 8 => MAX_PROGRAM + random.pick(&[0, 1, 16, 17, 465, 4465]) - 1,
        5 => random.pick(&[0, 15, 16, 100, 4096, MAX_PROGRAM - 16, MAX_PROGRAM - 1]),
        6 => MAX_PROGRAM + 4464,
        _ => MAX_PROGRAM,
    };
    (faults, program)
}

/// Compares both translators on one case; true if they differ.
fn check_text(seed: u64, case: u64, counts: &mut Counts) -> bool {
    let mut random = Random::new(seed, case * 2);
    let text = texts::text(&mut random);
    let lent = lent(&mut random, &text);
    let both = |text: &[u8]| {
        let ours = run_text(peer::translate, text, &lent);
        (ours, run_text(library::translate, text, &lent))
    };
    let (ours, theirs) = both(&text);
    count_text(&text, &ours, counts);
    if ours == theirs {
        return check_comment(&mut random, case, &text, (&lent, theirs), counts)
            || check_orders(&mut random, case, &text, counts)
            || check_names(&mut random, case, &text, &lent.0, counts);
    }
    let differs = |text: &[u8]| {
        let (ours, theirs) = both(text);
        ours != theirs
    };
    let text = shrink(text, 1, differs);
    println!("DIFFERENCE in text of case {case}, {}", lengths(&lent));
    println!("text: {}", text.escape_ascii());
    println!("hex: {}", hex(&text));
    let (ours, theirs) = both(&text);
    show_text("peer", &ours);
    show_text("library", &theirs);
    true
}

/// How much is lent.
fn lengths((faults, other): &Lent) -> String {
    let room = |buffer: &[u8]| buffer.len() - 2 * MARGIN;
    format!("lent {} and {} bytes", room(faults), room(other))
}

/// Counts what a text is and what it gave.
fn count_text(text: &[u8], translated: &Translated, counts: &mut Counts) {
    let number = translated.0.number;
    *counts.verdicts.entry(number).or_default() += 1;
    let mut codes = fault_codes(translated);
    for code in &codes {
        *counts.faults.entry(*code).or_default() += 1;
    }
    if number == 0 {
        codes.push(0);
    }
    let sorts = [
        (texts::has_blocks(text), &mut counts.with_blocks),
        (
            comments::has_comments_inside(text),
            &mut counts.with_comments,
        ),
    ];
    for (_, sort) in sorts.into_iter().filter(|(has, _)| *has) {
        for code in &codes {
            *sort.entry(*code).or_default() += 1;
        }
    }
    if !matches!(number, 1..=4) {
        for shape in comments::shapes(text) {
            *counts.shapes.entry(shape).or_default() += 1;
        }
    }
    if matches!(number, 5 | 7) {
        for place in places::sorts(text) {
            *counts.places.entry(place).or_default() += 1;
        }
    }
    if number == 0 {
        for size in limits::sizes(text) {
            *counts.sizes.entry(size).or_default() += 1;
        }
    }
}

// An entry of a name is as long as a record.
const _: () = assert!(ENTRY == RECORD);

/// The length of what is written to the fault list, and to the program or the names.
fn written(verdict: Verdict) -> (usize, usize) {
    let count = verdict.count as usize;
    match verdict.number {
        0 => (0, count * RECORD),
        5 | 7 => (count * FAULT, 0),
        _ => (0, 0),
    }
}

/// The codes in a written fault list.
fn fault_codes(translated: &Translated) -> Vec<u8> {
    let (verdict, faults, _) = translated;
    faults[MARGIN..MARGIN + written(*verdict).0]
        .chunks_exact(FAULT)
        .map(|fault| fault[2])
        .collect()
}

/// Puts one comment into a text and compares what the library gives with what it
/// gave before: the same, each line behind the comment one higher, also those of
/// places. True if not.
fn check_comment(
    random: &mut Random,
    case: u64,
    text: &[u8],
    (lent, before): (&Lent, Translated),
    counts: &mut Counts,
) -> bool {
    let place = comments::place(random, text);
    let card = comments::comment(random);
    let with = |text: &[u8]| {
        let longer = comments::put_in(text, place, &card);
        run_text(library::translate, &longer, lent)
    };
    let without = |text: &[u8]| run_text(library::translate, text, lent);
    let after = with(text);
    let number = after.0.number;
    if !changes(before, after, place) {
        let inside = comments::is_inside(text, place);
        *counts.put_in.entry((number, inside)).or_default() += 1;
        return false;
    }
    let differs = |text: &[u8]| changes(without(text), with(text), place);
    let text = shrink(text.to_vec(), 1, differs);
    println!(
        "DIFFERENCE by a comment in text of case {case}, {}",
        lengths(lent)
    );
    let longer = comments::put_in(&text, place, &card);
    println!("text: {}", text.escape_ascii());
    println!("with the comment: {}", longer.escape_ascii());
    println!("hex: {} and {}", hex(&text), hex(&longer));
    show_text("without", &without(&text));
    show_text("with", &with(&text));
    true
}

/// Whether a comment at a place changes more than lines; not if the text is, or
/// becomes, refused for its size.
fn changes(before: Translated, after: Translated, place: usize) -> bool {
    let sized = |translated: &Translated| matches!(translated.0.number, 2..=4);
    !sized(&before) && !sized(&after) && moved(before, place) != after
}

/// What was given back, each line number over a place one higher.
fn moved((verdict, mut faults, mut program): Translated, place: usize) -> Translated {
    let (listed, recorded) = written(verdict);
    for fault in faults[MARGIN..MARGIN + listed].chunks_exact_mut(FAULT) {
        // The line of the statement and that of the place; the column stays.
        for at in [0, 4] {
            let line = u16::from_le_bytes([fault[at], fault[at + 1]]);
            let line = line + (line as usize > place) as u16;
            fault[at..at + 2].copy_from_slice(&line.to_le_bytes());
        }
    }
    for record in program[MARGIN..MARGIN + recorded].chunks_exact_mut(RECORD) {
        let line = u32::from_le_bytes(record[4..8].try_into().unwrap());
        let line = line + (line as usize > place) as u32;
        record[4..8].copy_from_slice(&line.to_le_bytes());
    }
    (verdict, faults, program)
}

/// Compares what the library leaves on the program of a text and on the same in
/// other orders; true if it is not as it must be.
fn check_orders(random: &mut Random, case: u64, text: &[u8], counts: &mut Counts) -> bool {
    let seed = random.word();
    match orders::check(text, seed) {
        Ok(found) => {
            for event in found {
                *counts.orders.entry(event).or_default() += 1;
            }
            false
        }
        Err(_) => {
            let differs = |text: &[u8]| orders::check(text, seed).is_err();
            let lines: Vec<&[u8]> = text.split_inclusive(|&byte| byte == b'\n').collect();
            let text = shrink(lines, 1, |lines| differs(&lines.concat())).concat();
            let text = shrink(text, 1, differs);
            println!("DIFFERENCE by another order in text of case {case}");
            println!("text: {}", text.escape_ascii());
            println!("hex: {}", hex(&text));
            if let Err(difference) = orders::check(&text, seed) {
                difference.show();
            }
            true
        }
    }
}

/// Compares what both give where they name the slots of a text, and the library's
/// names with its program; true if it is not as it must be.
fn check_names(
    random: &mut Random,
    case: u64,
    text: &[u8],
    faults: &[u8],
    counts: &mut Counts,
) -> bool {
    let room = names::room(random, text);
    let lent = (faults.to_vec(), random.bytes(room + 2 * MARGIN));
    let both = |text: &[u8]| {
        let ours = run_text(peer::name_slots, text, &lent);
        (ours, run_text(library::name_slots, text, &lent))
    };
    let (ours, theirs) = both(text);
    count_names(&ours, counts);
    if ours == theirs && names::check(text).is_ok() {
        return false;
    }
    let differs = |text: &[u8]| {
        let (ours, theirs) = both(text);
        ours != theirs || names::check(text).is_err()
    };
    let text = shrink(text.to_vec(), 1, differs);
    println!("DIFFERENCE in names of case {case}, {}", lengths(&lent));
    println!("text: {}", text.escape_ascii());
    println!("hex: {}", hex(&text));
    let (ours, theirs) = both(&text);
    show_text("peer", &ours);
    show_text("library", &theirs);
    if let Err(why) = names::check(&text) {
        println!("names and program of the library: {why}");
    }
    true
}

/// Counts what naming the slots of a text gave.
fn count_names((verdict, _, names): &Translated, counts: &mut Counts) {
    *counts.named.entry(verdict.number).or_default() += 1;
    for what in names::whats(*verdict, &names[MARGIN..]) {
        *counts.whats.entry(what).or_default() += 1;
    }
}

/// Prints what a translator gave back.
fn show_text(who: &str, translated: &Translated) {
    let (verdict, faults, other) = translated;
    println!("{who}: verdict {} count {}", verdict.number, verdict.count);
    let inside = |buffer: &[u8], most: usize| {
        let end = buffer.len() - MARGIN;
        hex(&buffer[MARGIN..end.min(MARGIN + most)])
    };
    let (listed, recorded) = written(*verdict);
    println!("  fault list: {} ..", inside(faults, listed + FAULT));
    println!(
        "  other buffer: {} ..",
        inside(other, recorded.min(3200) + 4)
    );
}

// Programs.

/// A random length to lend for values or derivatives.
fn room(random: &mut Random) -> usize {
    match random.below(40) {
        0 => random.pick(&[0, 1, before::SLOTS, SLOTS - 2, SLOTS - 1]),
        1..=4 => SLOTS + random.pick(&[1, 276]),
        _ => SLOTS,
    }
}

/// Random acts.
fn acts(random: &mut Random) -> Vec<Act> {
    let mut acts = match random.below(3) {
        0 => vec![Act::Evaluate],
        1 => vec![Act::Start, Act::Evaluate],
        _ => vec![Act::Evaluate, Act::Start],
    };
    for _ in 0..3 {
        acts.push(Act::Step(runs::step_of(random)));
    }
    acts
}

/// Compares both evaluators on one case; true if they differ.
fn check_program(seed: u64, case: u64, counts: &mut Counts) -> bool {
    let mut random = Random::new(seed, case * 2 + 1);
    let program = programs::program(&mut random);
    let acts = acts(&mut random);
    let rooms = (room(&mut random), room(&mut random));
    let lent = Buffers::random(&mut Random::new(random.word(), 3), rooms);
    let both = |program: &[u8]| {
        let ours = run(&PEER, program, &acts, &lent);
        (ours, run(&LIBRARY, program, &acts, &lent))
    };
    let (ours, theirs) = both(&program);
    let number = ours[0].0.number;
    *counts.answers.entry(number).or_default() += 1;
    if let (3 | 4, Err(refusal)) = (number, peer::judge_reason(&program)) {
        *counts.reasons.entry(refusal.reason).or_default() += 1;
        let kind = refusal
            .record
            .map(|record| program[record as usize * RECORD]);
        if kind == Some(15) {
            *counts.again.entry(refusal.reason).or_default() += 1;
        }
    }
    if agree(&ours, &theirs, alike) {
        return rooms == (SLOTS, SLOTS)
            && check_before(case, &program, &acts, (&lent, &theirs), counts);
    }
    let differs = |program: &[u8]| {
        let (ours, theirs) = both(program);
        !agree(&ours, &theirs, alike)
    };
    let program = shrink(program, RECORD, differs);
    println!(
        "DIFFERENCE in program of case {case}, lent {} values and {} derivatives",
        rooms.0, rooms.1
    );
    runs::show_records(&program);
    let (ours, theirs) = both(&program);
    runs::show(&acts, ["peer", "library"], [&ours, &theirs], alike);
    true
}

/// Compares what the library left of a program of before, with just the places
/// of now, with what the peer leaves with the slots of before; true if it is not
/// as it must be.
fn check_before(
    case: u64,
    program: &[u8],
    acts: &[Act],
    (lent, theirs): (&Buffers, &Evaluated),
    counts: &mut Counts,
) -> bool {
    let of_before = before::is_of_before(program);
    let accepted = theirs[0].0.number == 0;
    *counts.slots.entry((of_before, accepted)).or_default() += 1;
    let few = |program: &[u8]| before::run_before(program, acts, lent);
    if !of_before || before::agree(&few(program), theirs, lent) {
        return false;
    }
    let all = |program: &[u8]| run(&LIBRARY, program, acts, lent);
    let differs = |program: &[u8]| {
        before::is_of_before(program) && !before::agree(&few(program), &all(program), lent)
    };
    let program = shrink(program.to_vec(), RECORD, differs);
    println!("DIFFERENCE in program of case {case}, whose slots are all of before");
    runs::show_records(&program);
    before::show(acts, &few(&program), &all(&program), lent);
    true
}

// Showing.

/// Takes pieces out of an input as long as the two still differ on it.
fn shrink<T: Clone>(mut input: Vec<T>, unit: usize, differs: impl Fn(&[T]) -> bool) -> Vec<T> {
    let mut size = (input.len() / 2 / unit).max(1) * unit;
    let mut tries = 3000;
    loop {
        let mut at = 0;
        while at < input.len() && tries > 0 {
            tries -= 1;
            let mut shorter = input.clone();
            shorter.drain(at..(at + size).min(input.len()));
            if differs(&shorter) {
                input = shorter;
            } else {
                at += size;
            }
        }
        if size == unit || tries == 0 {
            return input;
        }
        size = (size / 2 / unit).max(1) * unit;
    }
}
