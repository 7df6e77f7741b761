//! The names of slots: how much room is lent for them, and how they must fit the
//! program, both as the library gives them.

use std::collections::{BTreeSet, HashSet};

use crate::library;
use crate::random::Random;
use floesedge_peer::limits::{ENTRY, FAULT_LIST, MAX_NAMES, MAX_PROGRAM, RECORD};
use floesedge_peer::program::{self, DERIVATIVE, INITIAL, STORE};
use floesedge_peer::roster::{ASSIGNED, CONSTANT, HIDDEN, STATE};
use floesedge_peer::{name_slots, Verdict};

/// All that a name may be, and how that is called.
pub const WHATS: [(u8, &str); 4] = [
    (CONSTANT, "constants"),
    (STATE, "states"),
    (ASSIGNED, "assigned"),
    (HIDDEN, "hidden in blocks"),
];

/// A random length to lend for the names of a text.
pub fn room(random: &mut Random, text: &[u8]) -> usize {
    let mut names = [0; MAX_NAMES];
    let verdict = name_slots(text, &mut [0; FAULT_LIST], &mut names);
    let needed = entries(verdict, &names).count() * ENTRY;
    match random.below(10) {
        0 | 1 => needed.saturating_sub(1),
        2 => needed.saturating_sub(random.range(2, 40)),
        3 => 0,
        4 | 5 => needed,
        6 => needed + random.range(1, 40),
        7 => needed + MAX_NAMES,
        _ => MAX_NAMES,
    }
}

/// What there is among the names that a verdict 0 wrote; nothing for another.
pub fn whats(verdict: Verdict, names: &[u8]) -> BTreeSet<u8> {
    entries(verdict, names).map(|entry| entry.what).collect()
}

/// An entry, its byte that is 0 left out.
struct Entry {
    name: [u8; 8],
    what: u8,
    slot: u16,
    line: u32,
}

impl Entry {
    /// Reads the bytes of an entry.
    fn read(bytes: &[u8]) -> Self {
        Entry {
            name: bytes[..8].try_into().unwrap(),
            what: bytes[8],
            slot: u16::from_le_bytes([bytes[10], bytes[11]]),
            line: line(&bytes[12..]),
        }
    }
}

/// A line in four bytes.
fn line(bytes: &[u8]) -> u32 {
    u32::from_le_bytes(bytes[..4].try_into().unwrap())
}

/// The entries that a verdict 0 wrote; none for another.
fn entries(verdict: Verdict, names: &[u8]) -> impl Iterator<Item = Entry> + '_ {
    let count = verdict.count as usize * (verdict.number == 0) as usize;
    names.chunks_exact(ENTRY).take(count).map(Entry::read)
}

/// Whether the library's names of a text fit its program of it, or how they do
/// not; all is well unless the verdict is 0.
pub fn check(text: &[u8]) -> Result<(), &'static str> {
    let (mut program, mut names) = (vec![0; MAX_PROGRAM], vec![0; MAX_NAMES]);
    let translated = library::translate(text, &mut [0; FAULT_LIST], &mut program);
    if translated.number != 0 {
        return Ok(());
    }
    let named = library::name_slots(text, &mut [0; FAULT_LIST], &mut names);
    let entries: Vec<Entry> = entries(named, &names).collect();
    if named.number != 0 || named.count as usize != entries.len() {
        return Err("the verdict is 0, and the slots are not named");
    }
    check_entries(&entries)?;
    program.truncate(translated.count as usize * RECORD);
    let kinds = kinds_by_slot(&entries, &program)?;
    check_kinds(&entries, &kinds)
}

/// The slots must be 1, 2, .., and the names all different.
fn check_entries(entries: &[Entry]) -> Result<(), &'static str> {
    if entries
        .iter()
        .zip(1..)
        .any(|(entry, slot)| entry.slot != slot)
    {
        return Err("the slots are not 1, 2, ..");
    }
    let mut seen = HashSet::new();
    if !entries.iter().all(|entry| seen.insert(entry.name)) {
        return Err("a name stands twice");
    }
    Ok(())
}

/// The kinds of the records that set the slot of each name, or are its derivative.
/// Each such record must have a name, and the line of it.
fn kinds_by_slot(entries: &[Entry], program: &[u8]) -> Result<Vec<Vec<u8>>, &'static str> {
    let mut kinds = vec![Vec::new(); entries.len()];
    for record in program.chunks_exact(RECORD) {
        let (kind, slot) = (record[0], u16::from_le_bytes([record[2], record[3]]));
        if !matches!(kind, program::CONSTANT | INITIAL | STORE | DERIVATIVE) {
            continue;
        }
        let index = (slot as usize).wrapping_sub(1);
        match entries.get(index) {
            None => return Err("a record has a slot without a name"),
            Some(entry) if entry.line != line(&record[4..]) => {
                return Err("a record has another line than the name of its slot");
            }
            Some(_) => kinds[index].push(kind),
        }
    }
    Ok(kinds)
}

/// Each name must be what the kinds of its records say, each kind once.
fn check_kinds(entries: &[Entry], kinds: &[Vec<u8>]) -> Result<(), &'static str> {
    for (entry, kinds) in entries.iter().zip(kinds) {
        let expected: &[u8] = match entry.what {
            CONSTANT => &[program::CONSTANT],
            STATE => &[INITIAL, DERIVATIVE],
            ASSIGNED | HIDDEN => &[STORE],
            _ => return Err("a name is nothing that there is"),
        };
        if kinds != expected {
            return Err("a name is not what the records of its slot say");
        }
    }
    Ok(())
}
