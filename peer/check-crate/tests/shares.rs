//! How often the random texts reach each outcome with blocks, have each shape of
//! comments inside statements, each sort of place and each size, what naming their
//! slots gives, that a comment more changes nothing, and how often random programs
//! have slots of before and others, by the peer alone; and how often other orders of
//! the units and statements of texts come to each end, by the library too.

use std::collections::BTreeMap;

use floesedge_check::before;
use floesedge_check::comments::{self, Shape};
use floesedge_check::limits::{self, Limit, Size};
use floesedge_check::orders::{self, Event};
use floesedge_check::places::{self, Kind, Sort};
use floesedge_check::random::Random;
use floesedge_check::runs::{run, Act, Buffers, PEER};
use floesedge_check::{names, programs, texts};
use floesedge_peer::limits::{FAULT, FAULT_LIST, MAX_PROGRAM, RECORD, SLOTS};
use floesedge_peer::roster::SHORT;
use floesedge_peer::{judge_reason, name_slots, translate};

/// The texts looked at.
const TEXTS: u64 = 4000;

#[test]
fn each_outcome_with_blocks_is_common() {
    let mut sound = 0;
    let mut faulty: BTreeMap<u8, u64> = BTreeMap::new();
    for case in 0..TEXTS {
        let text = texts::text(&mut Random::new(7, case * 2));
        if !texts::has_blocks(&text) {
            continue;
        }
        let mut faults = vec![0; FAULT_LIST];
        let mut program = vec![0; MAX_PROGRAM];
        let verdict = translate(&text, &mut faults, &mut program);
        match verdict.number {
            0 => {
                sound += 1;
                program.truncate(verdict.count as usize * RECORD);
                assert_eq!(judge_reason(&program), Ok(()));
            }
            5 | 7 => {
                let list = faults.chunks_exact(FAULT).take(verdict.count as usize);
                let mut codes: Vec<u8> = list.map(|fault| fault[2]).collect();
                codes.sort();
                codes.dedup();
                for code in codes {
                    *faulty.entry(code).or_default() += 1;
                }
            }
            _ => {}
        }
    }
    println!(
        "of {TEXTS} texts: verdict 0 with blocks {sound}; texts with blocks by fault: {faulty:?}"
    );
    assert!(sound * 10 >= TEXTS);
    for code in 21..=26 {
        let count = faulty.get(&code).copied().unwrap_or(0);
        assert!(count * 100 >= TEXTS, "fault {code}: {count}");
    }
}

#[test]
fn each_shape_of_comments_is_common() {
    let mut shapes: BTreeMap<Shape, u64> = BTreeMap::new();
    let mut verdicts: BTreeMap<u32, u64> = BTreeMap::new();
    for case in 0..TEXTS {
        let text = texts::text(&mut Random::new(7, case * 2));
        let number = translate(&text, &mut [0; FAULT_LIST], &mut vec![0; MAX_PROGRAM]).number;
        if comments::has_comments_inside(&text) {
            *verdicts.entry(number).or_default() += 1;
        }
        if !matches!(number, 1..=4) {
            for shape in comments::shapes(&text) {
                *shapes.entry(shape).or_default() += 1;
            }
        }
    }
    println!(
        "of {TEXTS} texts: by shape: {shapes:?}; with comments inside by verdict: {verdicts:?}"
    );
    for shape in Shape::ALL {
        let count = shapes.get(&shape).copied().unwrap_or(0);
        assert!(count * 100 >= TEXTS, "{shape:?}: {count}");
    }
    for number in [0, 5, 7] {
        let count = verdicts.get(&number).copied().unwrap_or(0);
        assert!(count * 20 >= TEXTS, "verdict {number}: {count}");
    }
}

#[test]
fn each_sort_of_place_is_common() {
    let mut places: BTreeMap<(Sort, Kind), u64> = BTreeMap::new();
    for case in 0..TEXTS {
        let text = texts::text(&mut Random::new(7, case * 2));
        for place in places::sorts(&text) {
            *places.entry(place).or_default() += 1;
        }
    }
    println!("of {TEXTS} texts: faults by place: {places:?}");
    for (sort, kinds) in Sort::ALL {
        for &kind in kinds {
            let count = places.get(&(sort, kind)).copied().unwrap_or(0);
            assert!(count * 250 >= TEXTS, "{sort:?} of {kind}: {count}");
        }
    }
}

#[test]
fn each_size_is_reached() {
    let mut sizes: BTreeMap<(&str, Size), u64> = BTreeMap::new();
    for case in 0..TEXTS {
        let text = texts::text(&mut Random::new(7, case * 2));
        for size in limits::sizes(&text) {
            *sizes.entry(size).or_default() += 1;
        }
    }
    println!("of {TEXTS} texts: those with verdict 0 by size: {sizes:?}");
    for Limit { name, .. } in Limit::ALL {
        let count = |size| sizes.get(&(name, size)).copied().unwrap_or(0);
        let (over, full) = (count(Size::OverBefore), count(Size::Full));
        assert!(over * 100 >= TEXTS, "{name} over those of before: {over}");
        assert!(
            full * 500 >= TEXTS,
            "{name} as many as there may be: {full}"
        );
    }
}

#[test]
fn each_verdict_on_names_is_common() {
    let mut verdicts: BTreeMap<u32, u64> = BTreeMap::new();
    let mut whats: BTreeMap<u8, u64> = BTreeMap::new();
    for case in 0..TEXTS {
        let mut random = Random::new(7, case * 2);
        let text = texts::text(&mut random);
        let mut list = vec![0; names::room(&mut random, &text)];
        let verdict = name_slots(&text, &mut [0; FAULT_LIST], &mut list);
        *verdicts.entry(verdict.number).or_default() += 1;
        for what in names::whats(verdict, &list) {
            *whats.entry(what).or_default() += 1;
        }
    }
    println!("of {TEXTS} texts: names by verdict: {verdicts:?}; texts by what is named: {whats:?}");
    for number in [0, 5, 7, SHORT] {
        let count = verdicts.get(&number).copied().unwrap_or(0);
        assert!(count * 10 >= TEXTS, "verdict {number}: {count}");
    }
    for (what, name) in names::WHATS {
        let count = whats.get(&what).copied().unwrap_or(0);
        assert!(count * 20 >= TEXTS, "{name}: {count}");
    }
}

#[test]
fn programs_of_before_and_others_are_common() {
    let mut slots: BTreeMap<(bool, bool), u64> = BTreeMap::new();
    for case in 0..TEXTS {
        let mut random = Random::new(7, case * 2 + 1);
        let program = programs::program(&mut random);
        let of_before = before::is_of_before(&program);
        let lent = Buffers::random(&mut random, (SLOTS, SLOTS));
        let acts = [Act::Start, Act::Step(0.5)];
        let now = run(&PEER, &program, &acts, &lent);
        let then = before::run_before(&program, &acts, &lent);
        let accepted = now[0].0.number == 0;
        *slots.entry((of_before, accepted)).or_default() += 1;
        // What is accepted for its other slots was refused for them before.
        if of_before || accepted {
            let agrees = before::agree(&then, &now, &lent);
            assert_eq!(agrees, of_before, "case {case}");
        }
    }
    println!("of {TEXTS} programs: by slots of before and acceptance: {slots:?}");
    for sort in [(true, true), (true, false), (false, true), (false, false)] {
        let count = slots.get(&sort).copied().unwrap_or(0);
        assert!(count * 25 >= TEXTS, "{sort:?}: {count}");
    }
}

#[test]
fn each_end_of_other_orders_is_common() {
    let mut events: BTreeMap<Event, u64> = BTreeMap::new();
    for case in 0..TEXTS {
        let mut random = Random::new(7, case * 2);
        let text = texts::text(&mut random);
        match orders::check(&text, random.word()) {
            Ok(found) => {
                for event in found {
                    *events.entry(event).or_default() += 1;
                }
            }
            Err(difference) => {
                difference.show();
                panic!("case {case}");
            }
        }
    }
    println!("of {TEXTS} texts: other orders by what came of them: {events:?}");
    for event in Event::ALL {
        let count = events.get(&event).copied().unwrap_or(0);
        assert!(count * 250 >= TEXTS, "{event:?}: {count}");
    }
}

/// A fault: both its lines, and code and column.
type Fault = ([u32; 2], u8, u16);

/// Verdict, faults, and records with their lines apart.
type Outcome = (u32, u32, Vec<Fault>, Vec<(u32, Vec<u8>)>);

/// What the peer gives on a text.
fn outcome(text: &[u8]) -> Outcome {
    let (mut faults, mut program) = (vec![0; FAULT_LIST], vec![0; MAX_PROGRAM]);
    let verdict = translate(text, &mut faults, &mut program);
    let listed = verdict.count as usize * matches!(verdict.number, 5 | 7) as usize;
    let recorded = verdict.count as usize * (verdict.number == 0) as usize;
    let pair = |bytes: &[u8], at: usize| u16::from_le_bytes([bytes[at], bytes[at + 1]]);
    let fault = |bytes: &[u8]| {
        let lines = [pair(bytes, 0).into(), pair(bytes, 4).into()];
        (lines, bytes[2], pair(bytes, 6))
    };
    let record = |bytes: &[u8]| {
        let line = u32::from_le_bytes(bytes[4..8].try_into().unwrap());
        (line, [&bytes[..4], &bytes[8..]].concat())
    };
    (
        verdict.number,
        verdict.count,
        faults.chunks(FAULT).take(listed).map(fault).collect(),
        program.chunks(RECORD).take(recorded).map(record).collect(),
    )
}

#[test]
fn a_comment_more_changes_nothing() {
    for case in 0..TEXTS {
        let mut random = Random::new(7, case * 2);
        let text = texts::text(&mut random);
        let place = comments::place(&mut random, &text);
        let longer = comments::put_in(&text, place, &comments::comment(&mut random));
        let (mut before, after) = (outcome(&text), outcome(&longer));
        if matches!(before.0, 2..=4) || matches!(after.0, 2..=4) {
            continue;
        }
        let faults = before.2.iter_mut().flat_map(|fault| &mut fault.0);
        let records = before.3.iter_mut().map(|record| &mut record.0);
        for line in faults.chain(records) {
            *line += (*line as usize > place) as u32;
        }
        assert!(before == after, "case {case}, behind line {place}");
    }
}
