//! Programs on which the two evaluators are compared: translated ones, made
//! ones that are accepted, such with exactly one rule broken, damaged ones,
//! and random records.

use crate::before;
use crate::random::Random;
use crate::texts;
use floesedge_peer::limits::{FAULT_LIST, MAX_LINES, MAX_PROGRAM, MAX_RECORDS, SLOTS};
use floesedge_peer::translate;

/// A record before it is packed into bytes.
#[derive(Clone, Copy)]
struct Record {
    kind: u8,
    one: u8,
    operand: u16,
    line: u32,
    bits: u64,
}

/// A record with a random line, which is free.
fn record(random: &mut Random, kind: u8, operand: u16, bits: u64) -> Record {
    let line = if random.once_in(20) {
        random.word() as u32
    } else {
        random.below(MAX_LINES) as u32
    };
    Record {
        kind,
        one: 0,
        operand,
        line,
        bits,
    }
}

/// The bytes of a program.
fn pack(records: &[Record]) -> Vec<u8> {
    let mut bytes = Vec::with_capacity(records.len() * 16);
    for record in records {
        bytes.extend([record.kind, record.one]);
        bytes.extend(record.operand.to_le_bytes());
        bytes.extend(record.line.to_le_bytes());
        bytes.extend(record.bits.to_le_bytes());
    }
    bytes
}

/// A program of a random family.
pub fn program(random: &mut Random) -> Vec<u8> {
    match random.below(20) {
        0..=2 => translated(random),
        3..=4 => {
            let mut bytes = translated(random);
            damage(random, &mut bytes);
            bytes
        }
        5..=7 => pack(&accepted(random).records),
        8..=14 => broken(random),
        15..=16 => {
            let mut bytes = pack(&accepted(random).records);
            damage(random, &mut bytes);
            bytes
        }
        17 => plausible(random),
        18 => odd_length(random),
        _ => {
            let count = random.below(20) * 16 + random.below(2) * random.below(16);
            random.bytes(count)
        }
    }
}

/// The program of a random text, empty if it is refused.
fn translated(random: &mut Random) -> Vec<u8> {
    let mut faults = vec![0; FAULT_LIST];
    let mut program = vec![0; MAX_PROGRAM];
    for _ in 0..10 {
        let text = texts::text(random);
        let verdict = translate(&text, &mut faults, &mut program);
        if verdict.number == 0 && (verdict.count > 0 || random.once_in(10)) {
            program.truncate(verdict.count as usize * 16);
            return program;
        }
    }
    Vec::new()
}

/// Changes one to three bytes or whole records.
fn damage(random: &mut Random, bytes: &mut Vec<u8>) {
    for _ in 0..random.range(1, 3) {
        let count = bytes.len() / 16;
        if count == 0 {
            return;
        }
        let at = random.below(count) * 16;
        let other = random.below(count) * 16;
        match random.below(10) {
            0 => bytes[at] = random.below(17) as u8,
            1 => bytes[at + 1] = random.byte(),
            2 => bytes[at + 2] = random.byte(),
            3 => bytes[at + 3] = random.below(6) as u8,
            4 => bytes[at + 4 + random.below(4)] = random.byte(),
            5 => bytes[at + 8 + random.below(8)] ^= 1 << random.below(8),
            6 => drop(bytes.drain(at..at + 16)),
            7 => {
                let copy = bytes[other..other + 16].to_vec();
                bytes.splice(at..at, copy);
            }
            8 => (0..16).for_each(|i| bytes.swap(at + i, other + i)),
            _ => {
                let pattern = random.float().to_bits().to_le_bytes();
                bytes[at + 8..at + 16].copy_from_slice(&pattern);
            }
        }
    }
}

/// A program that is accepted, and what is known of it.
struct Accepted {
    records: Vec<Record>,
    /// Slots that nothing sets.
    unset: Vec<u16>,
    /// The states.
    states: Vec<u16>,
}

/// Slots for a program in random order, and into how many of each sort they are
/// put at most: any slots, those of before, or those about the last of now and
/// of before.
fn free_slots(random: &mut Random) -> (Vec<u16>, usize) {
    let (last, before) = (SLOTS as u16 - 1, before::SLOTS as u16 - 1);
    let (mut slots, scale): (Vec<u16>, _) = match random.below(8) {
        0 => ((1..=last).collect(), random.pick(&[60, 120, 300])),
        1 | 2 => ((1..=last).collect(), random.pick(&[2, 5, 20])),
        3 => (
            (before - 9..before + 10).chain(last - 9..=last).collect(),
            random.pick(&[2, 5, 8]),
        ),
        _ => ((1..=before).collect(), random.pick(&[2, 5, 20, 60])),
    };
    random.shuffle(&mut slots);
    (slots, scale)
}

/// Makes an accepted program by keeping count of what stands on the stack.
fn accepted(random: &mut Random) -> Accepted {
    let (mut slots, scale) = free_slots(random);
    let mut records = Vec::new();
    let mut set = vec![0];
    let take = |slots: &mut Vec<u16>, set: &mut Vec<u16>| {
        let slot = slots.pop().unwrap();
        set.push(slot);
        slot
    };
    for _ in 0..random.below(scale) {
        let slot = take(&mut slots, &mut set);
        let value = random.float().to_bits();
        records.push(record(random, 1, slot, value));
    }
    let mut states = Vec::new();
    for _ in 0..random.below(scale) {
        let slot = take(&mut slots, &mut set);
        states.push(slot);
        let value = random.float().to_bits();
        records.push(record(random, 2, slot, value));
    }
    let mut open = states.clone();
    random.shuffle(&mut open);
    let mut stores = random.below(scale);
    let mut stored = Vec::new();
    while stores > 0 || !open.is_empty() {
        let pushes = random.pick(&[1, 1, 2, 4, 10]);
        statement(random, &mut records, &set, pushes);
        if open.is_empty() || (stores > 0 && random.once_in(2)) {
            stores -= 1;
            let slot = take(&mut slots, &mut set);
            stored.push(slot);
            records.push(record(random, 13, slot, 0));
        } else {
            let slot = open.pop().unwrap();
            records.push(record(random, 14, slot, 0));
        }
        if !stored.is_empty() && random.once_in(4) {
            let pushes = random.pick(&[1, 2, 4]);
            statement(random, &mut records, &set, pushes);
            let slot = random.pick(&stored);
            records.push(record(random, 15, slot, 0));
        }
    }
    Accepted {
        records,
        unset: slots,
        states,
    }
}

/// Adds pushes and operations that leave one value.
fn statement(random: &mut Random, records: &mut Vec<Record>, set: &[u16], pushes: usize) {
    let deep = if random.once_in(30) { 67 } else { pushes };
    let mut left = random.range(deep.min(67), deep.min(67) + 2);
    let mut height = 0;
    while left > 0 || height != 1 {
        let full = height == 67 || left == 0;
        if height == 0 || (!full && (deep == 67 || random.once_in(2))) {
            left = left.saturating_sub(1);
            height += 1;
            if random.once_in(3) {
                let value = random.float().to_bits();
                records.push(record(random, 3, 0, value));
            } else {
                let slot = random.pick(set);
                records.push(record(random, 4, slot, 0));
            }
        } else {
            let kind = random.range(5, 12);
            let taken = [2, 2, 2, 2, 1, 3, 3, 2][kind - 5];
            if height >= taken {
                height -= taken - 1;
                records.push(record(random, kind as u8, 0, 0));
            }
        }
    }
}

/// The number of rules that `broken` can break.
const RULES: usize = 22;
/// The one of kind 15 for a slot that no kind 13 set: many in one.
const AGAIN_UNSET: usize = 19;

/// An accepted program with exactly one rule broken somewhere.
fn broken(random: &mut Random) -> Vec<u8> {
    let mut program = accepted(random);
    if program.records.is_empty() || program.unset.len() < 3 {
        return pack(&program.records);
    }
    let rule = if random.once_in(10) {
        AGAIN_UNSET
    } else {
        random.below(RULES)
    };
    break_rule(random, &mut program, rule);
    pack(&program.records)
}

/// A place of a record that satisfies a condition, if there is any.
fn place(random: &mut Random, records: &[Record], fits: impl Fn(&Record) -> bool) -> Option<usize> {
    let places: Vec<usize> = (0..records.len()).filter(|&i| fits(&records[i])).collect();
    (!places.is_empty()).then(|| random.pick(&places))
}

/// The same, every other time a record of kind 15 if there is any.
fn often_again(
    random: &mut Random,
    records: &[Record],
    fits: impl Fn(&Record) -> bool,
) -> Option<usize> {
    let again = if random.once_in(2) {
        place(random, records, |r| r.kind == 15)
    } else {
        None
    };
    again.or_else(|| place(random, records, fits))
}

/// Breaks one rule if the program has a place for it.
fn break_rule(random: &mut Random, program: &mut Accepted, rule: usize) {
    let Accepted {
        records,
        unset,
        states,
    } = program;
    let fresh = unset[0];
    let any = random.below(records.len());
    match rule {
        // Unknown kind.
        0 => records[any].kind = random.pick(&[0, 16, 17, 31, 128, 255]),
        // Byte 1 not 0, often of kind 15.
        1 => {
            let at = often_again(random, records, |_| true).unwrap_or(any);
            records[at].one = random.pick(&[1, 2, 128, 255]);
        }
        // An unused operand not 0.
        2 => {
            if let Some(at) = place(random, records, |r| {
                r.kind == 3 || (5..=12).contains(&r.kind)
            }) {
                records[at].operand = 1 << random.below(16);
            }
        }
        // An unused value not 0.
        3 => {
            if let Some(at) = often_again(random, records, |r| r.kind >= 4) {
                records[at].bits = 1 << random.below(64);
            }
        }
        // Slot over the last.
        4 => {
            let has_slot = |r: &Record| matches!(r.kind, 1 | 2 | 4 | 13..=15);
            if let Some(at) = often_again(random, records, has_slot) {
                let first = SLOTS as u16;
                let over = records[at].operand + random.pick(&[first, 2 * first, 0x8000, 0xfc00]);
                records[at].operand = random.pick(&[over, over, first]);
            }
        }
        // Kind 1 after another kind.
        5 => {
            let at = place(random, records, |r| r.kind != 1).unwrap_or(any);
            let late = record(random, 1, fresh, 0);
            records.insert(at + 1, late);
        }
        // Kind 2 after 3 to 15.
        6 => {
            let at = place(random, records, |r| r.kind > 2).unwrap_or(any);
            let late = record(random, 2, fresh, 0);
            records.insert(at + 1, late);
        }
        // Slot 0 set.
        7 => {
            if let Some(at) = place(random, records, |r| matches!(r.kind, 1 | 2 | 13)) {
                records[at].operand = 0;
            }
        }
        // A slot set twice.
        8 => {
            if let Some(at) = place(random, records, |r| matches!(r.kind, 1 | 2 | 13)) {
                if let Some(before) =
                    place(random, &records[..at], |r| matches!(r.kind, 1 | 2 | 13))
                {
                    records[at].operand = records[before].operand;
                }
            }
        }
        // A slot read that nothing sets, or only a later store.
        9 => {
            if let Some(at) = place(random, records, |r| r.kind == 4) {
                let later = place(random, &records[at..], |r| r.kind == 13)
                    .map(|i| records[at + i].operand);
                records[at].operand = if random.once_in(2) {
                    later.unwrap_or(fresh)
                } else {
                    fresh
                };
            }
        }
        // Too few values.
        10 => {
            let at = place(random, records, |r| r.kind > 2).unwrap_or(any);
            let kind = random.range(5, 12) as u8;
            let early = record(random, kind, 0, 0);
            records.insert(at, early);
        }
        // A sixty-eighth value.
        11 => {
            let at = place(random, records, |r| r.kind > 2).unwrap_or(any);
            let push = record(random, 3, 0, 0);
            let count = random.range(60, 68);
            records.splice(at..at, vec![push; count]);
        }
        // Kind 13, 14 or 15 with two values.
        12 => {
            if let Some(at) = place(random, records, |r| r.kind >= 13) {
                let push = record(random, 4, 0, 0);
                records.insert(at, push);
            }
        }
        // Kind 13 or 14 without value.
        13 => {
            if let Some(at) = place(random, records, |r| r.kind >= 13) {
                let again = record(random, 13, fresh, 0);
                let place = if random.once_in(2) { at + 1 } else { at };
                let kind = if random.once_in(2) || states.is_empty() {
                    again
                } else {
                    Record {
                        kind: 14,
                        operand: random.pick(states),
                        ..again
                    }
                };
                records.insert(place, kind);
            }
        }
        // Kind 14 for no state.
        14 => {
            if let Some(at) = place(random, records, |r| r.kind >= 13) {
                let other = place(random, &records[..at], |r| matches!(r.kind, 1 | 13));
                let other = other.map_or(0, |i| records[i].operand);
                records[at].kind = 14;
                records[at].operand = random.pick(&[0, fresh, other]);
            }
        }
        // Kind 14 twice.
        15 => {
            if let Some(at) = place(random, records, |r| r.kind == 14) {
                let push = record(random, 4, 0, 0);
                let again = records[at];
                let at = place(random, &records[at..], |r| r.kind >= 13).map_or(at, |i| at + i);
                records.splice(at + 1..at + 1, [push, again]);
            }
        }
        // A value left at the end.
        16 => {
            let count = random.pick(&[1, 2, 67]);
            for _ in 0..count {
                let push = record(random, 3, 0, 7);
                records.push(push);
            }
        }
        // A state without derivative.
        17 => {
            let at = records
                .iter()
                .position(|r| r.kind > 2)
                .unwrap_or(records.len());
            let more = record(random, 2, fresh, 0);
            records.insert(at, more);
        }
        // A derivative turned into a store.
        18 => {
            if let Some(at) = place(random, records, |r| r.kind == 14) {
                records[at].kind = 13;
                records[at].operand = fresh;
            }
        }
        // Kind 15 for a slot that no kind 13 set, or only a later one.
        AGAIN_UNSET => {
            if let Some(at) = place(random, records, |r| r.kind >= 13) {
                let operand_of = |kind: u8, random: &mut Random, part: &[Record]| {
                    place(random, part, |r| r.kind == kind).map_or(fresh, |i| part[i].operand)
                };
                let slot = match random.below(5) {
                    0 => 0,
                    1 => operand_of(1, random, &records[..at]),
                    2 => operand_of(2, random, &records[..at]),
                    3 => operand_of(13, random, &records[at + 1..]),
                    _ => fresh,
                };
                let push = record(random, 4, 0, 0);
                let again = record(random, 15, slot, 0);
                records.splice(at + 1..at + 1, [push, again]);
            }
        }
        // Kind 15 without value.
        20 => {
            if let Some(at) = place(random, records, |r| r.kind == 13) {
                let again = Record {
                    kind: 15,
                    ..records[at]
                };
                let at = place(random, &records[at..], |r| r.kind >= 13).map_or(at, |i| at + i);
                records.insert(at + 1, again);
            }
        }
        // A store turned into kind 15, or kind 15 into a store.
        _ => {
            if let Some(at) = place(random, records, |r| matches!(r.kind, 13 | 15)) {
                records[at].kind = 28 - records[at].kind;
            }
        }
    }
}

/// Random records with few slots and plausible kinds.
fn plausible(random: &mut Random) -> Vec<u8> {
    let (last, before) = (SLOTS as u16 - 1, before::SLOTS as u16);
    let slots = random.pick(&[[0, 1, 2, 3], [0, before - 1, before, last]]);
    let mut records = Vec::new();
    for i in 0..random.range(1, 12) {
        let kind = match (i, random.below(3)) {
            (0..=2, 0) => random.range(1, 2),
            (_, 1) => random.range(3, 4),
            _ => random.range(3, 15),
        } as u8;
        let slot = random.pick(&slots);
        let value = random.float().to_bits();
        let (operand, bits) = match kind {
            1 | 2 => (slot, value),
            3 => (0, value),
            4 | 13..=15 => (slot, 0),
            _ => (0, 0),
        };
        records.push(record(random, kind, operand, bits));
    }
    pack(&records)
}

/// Programs near the length limit or of a length that is no multiple of 16.
fn odd_length(random: &mut Random) -> Vec<u8> {
    if random.once_in(2) {
        let mut bytes = pack(&accepted(random).records);
        let cut = random.range(1, 15).min(bytes.len());
        bytes.truncate(bytes.len() - cut);
        return bytes;
    }
    // Pushes and sums that end in a store: just about the most records.
    let count = random.range(MAX_RECORDS - 2, MAX_RECORDS + 2);
    let mut records = vec![record(random, 3, 0, 1.5f64.to_bits())];
    while records.len() + 2 < count {
        let kind = random.pick(&[3, 4]);
        let push = record(random, kind, 0, 0);
        let sum = record(random, 5, 0, 0);
        records.extend([push, sum]);
    }
    while records.len() + 1 < count {
        let negate = record(random, 9, 0, 0);
        records.push(negate);
    }
    let store = record(random, 13, 9, 0);
    records.push(store);
    let mut bytes = pack(&records);
    if random.once_in(6) {
        let extra = random.bytes(3);
        bytes.extend(extra);
    }
    bytes
}
