//! A name for every slot: rosters worked out by hand, rooms and refusals; and rosters held against programs' records.

use std::fs;
use std::path::Path;

use floesedge::{names, roster_of, translate, Entry, Roster, Verdict, What};
use floesedge::{FAULT_BYTES, FAULT_ROOM, NAMES_ROOM, NAME_BYTES, PROGRAM_ROOM, RECORD_BYTES};

const LENT: u8 = 0xAA;

const TANK: &[u8] = b"* TANK\nPARAM K=2\nQ=K*H\nH=INTGRL(1,F-Q)\nF=LIMIT(0,3,TIME)\n";

/// Names of one letter and of six, two of one statement, and a block which sets T, its own, and FLOW again.
const VALVE: &[u8] = b"* A WORN VALVE
PARAM A=1, ...
* THE SECOND IS OF THE STATEMENT OF LINE 2
  QWERTY=2
PROCED FLOW,L=VALVE(W)
  T=W*A
  FLOW=T ...
    +1
  T=T+FLOW
  L=T
  FLOW=0.5*FLOW
ENDPRO
W=X+TIME
X=INTGRL(QWERTY,FLOW-L)
";

/// An entry by its name, what it is, its slot and its line.
type Row = (&'static str, u8, u16, u32);

/// By the order of the definitions: FLOW, an output, is defined in line 7, behind T.
const VALVE_ROWS: [Row; 7] = [
    ("A", 1, 1, 2),
    ("QWERTY", 1, 2, 2),
    ("T", 4, 3, 6),
    ("FLOW", 3, 4, 7),
    ("L", 3, 5, 10),
    ("W", 3, 6, 13),
    ("X", 2, 7, 14),
];

fn bytes(rows: &[Row]) -> Vec<u8> {
    let mut out = Vec::new();
    for (name, what, slot, line) in rows {
        let mut filled = [0; 8];
        filled[..name.len()].copy_from_slice(name.as_bytes());
        out.extend(filled);
        out.extend([*what, 0]);
        out.extend(slot.to_le_bytes());
        out.extend(line.to_le_bytes());
    }
    out
}

/// The verdict and the roster, so many bytes lent; the fault list must stay, and the roster must for all but 0.
fn named(text: &[u8], room: usize) -> (Verdict, Vec<u8>) {
    let (mut faults, mut roster) = ([LENT; FAULT_ROOM], vec![LENT; room]);
    let verdict = names(text, &mut faults, &mut roster);
    assert!(faults.iter().all(|b| *b == LENT));
    assert!(verdict.number() == 0 || roster.iter().all(|b| *b == LENT));
    (verdict, roster)
}

#[test]
fn rosters() {
    let tank = [("K", 1, 1, 2), ("Q", 3, 2, 3), ("H", 2, 3, 4), ("F", 3, 4, 5)];
    for (text, rows) in [(TANK, &tank[..]), (VALVE, &VALVE_ROWS)] {
        let (verdict, roster) = named(text, NAMES_ROOM);
        assert_eq!(verdict, Verdict::Named { names: rows.len() });
        let (written, rest) = roster.split_at(rows.len() * NAME_BYTES);
        assert_eq!(written, bytes(rows));
        assert!(rest.iter().all(|b| *b == LENT));
    }
}

#[test]
fn entries() {
    let (verdict, roster) = named(VALVE, NAMES_ROOM);
    let entries: Vec<Entry> = roster_of(verdict, &roster).entries().collect();
    let entry = |name, slot, what, line| Entry { name, slot, what, line };
    assert_eq!(
        entries,
        [
            entry("A", 1, What::Constant, 2),
            entry("QWERTY", 2, What::Constant, 2),
            entry("T", 3, What::Hidden, 6),
            entry("FLOW", 4, What::Assigned, 7),
            entry("L", 5, What::Assigned, 10),
            entry("W", 6, What::Assigned, 13),
            entry("X", 7, What::State, 14),
        ]
    );
}

#[test]
fn slots() {
    let (verdict, written) = named(VALVE, NAMES_ROOM);
    let roster = roster_of(verdict, &written);
    for (name, _, slot, _) in VALVE_ROWS {
        assert_eq!(roster.slot_of(name), Some(slot.into()));
    }
    assert_eq!(roster.slot_of("TIME"), Some(0));
    // the name of the block, a part of a name, a name with more behind it, none
    for name in ["VALVE", "FLO", "FLOW2", "FLOW\0", "flow", ""] {
        assert_eq!(roster.slot_of(name), None, "{name:?}");
    }
    // what another verdict left is no roster, and TIME is slot 0 all the same
    for verdict in [Verdict::Translated { records: 7 }, Verdict::NamesShort] {
        let roster = roster_of(verdict, &written);
        assert_eq!(roster.entries().count(), 0);
        assert_eq!((roster.slot_of("A"), roster.slot_of("TIME")), (None, Some(0)));
    }
}

#[test]
fn rooms() {
    let exact = 7 * NAME_BYTES;
    let (verdict, roster) = named(VALVE, exact);
    assert_eq!((verdict, roster), (Verdict::Named { names: 7 }, bytes(&VALVE_ROWS)));
    // in a room that is no multiple of 16 bytes the last ones stay
    let (verdict, roster) = named(VALVE, exact + 15);
    assert_eq!(verdict, Verdict::Named { names: 7 });
    assert!(roster[exact..].iter().all(|b| *b == LENT));
    for room in [0, 1, NAME_BYTES, exact - NAME_BYTES, exact - 1] {
        assert_eq!(named(VALVE, room).0, Verdict::NamesShort, "{room}");
    }
    for text in [&b""[..], b"* NOTHING YET\n"] {
        assert_eq!(named(text, 0).0, Verdict::Named { names: 0 });
    }
}

#[test]
fn most_names() {
    assert_eq!((NAME_BYTES, NAMES_ROOM), (16, 16_368));
    // two constants in each of 511 statements, and in line 512 the name with slot 1,023
    let text: String = (0..511).map(|i| format!("CONST A{i}=1,B{i}=2\n")).collect();
    let text = text + "C=A0+B510\n";
    let (verdict, roster) = named(text.as_bytes(), NAMES_ROOM);
    assert_eq!(verdict, Verdict::Named { names: 1023 });
    assert_eq!(roster[..2 * NAME_BYTES], bytes(&[("A0", 1, 1, 1), ("B0", 1, 2, 1)]));
    assert_eq!(
        roster[1021 * NAME_BYTES..],
        bytes(&[("B510", 1, 1022, 511), ("C", 3, 1023, 512)])
    );
    assert_eq!(roster_of(verdict, &roster).slot_of("C"), Some(1023));
    assert_eq!(named(text.as_bytes(), NAMES_ROOM - 1).0, Verdict::NamesShort);
}

#[test]
fn refusals_for_size() {
    let repeated = |line: &str, times: usize| line.repeat(times).into_bytes();
    // 132 records each: 66 ones, 65 sums and the store
    let long = |n: usize| -> Vec<u8> {
        (0..n)
            .flat_map(|i| format!("A{i}=1{}...\n{}\n", "+1".repeat(32), "+1".repeat(33)).into_bytes())
            .collect()
    };
    let cases = [
        (repeated("*", 32_769), Verdict::TextTooLong),
        (repeated("\n", 1025), Verdict::TooManyLines),
        (repeated("=\n", 513), Verdict::TooManyStatements),
        (repeated("CONST A=1,A=1\n", 512), Verdict::TooManyDefinitions),
        (long(32), Verdict::ProgramTooLarge),
    ];
    // 10 comes last: too little room for names changes none of these
    for (text, wanted) in cases {
        assert_eq!(named(&text, NAMES_ROOM).0, wanted);
        assert_eq!(named(&text, 0).0, wanted);
    }
    // 31 of them are 4,092 records, with two pushes, a sum and a store 4,096, and with a constant one too many
    let full = [long(31), b"B=TIME+TIME\n".to_vec()].concat();
    assert_eq!(named(&full, NAMES_ROOM).0, Verdict::Named { names: 32 });
    let over = [full, b"CONST C=1\n".to_vec()].concat();
    assert_eq!(named(&over, NAMES_ROOM).0, Verdict::ProgramTooLarge);
    // 1 comes first
    let (mut faults, mut roster) = ([LENT; FAULT_ROOM - 1], [LENT; 64]);
    for text in [TANK, b"A=", b"A=A"] {
        assert_eq!(names(text, &mut faults, &mut roster), Verdict::FaultListShort);
    }
    assert!(faults.iter().chain(&roster).all(|b| *b == LENT));
}

#[test]
fn refusals_with_faults() {
    // line 1, the code, and the place: line and column
    let cases = [
        (
            &b"Q=K*\n"[..],
            Verdict::StatementFaults { faults: 1 },
            [1, 0, 18, 0, 1, 0, 4, 0],
        ),
        (
            b"A=A+1\n",
            Verdict::ModelFaults { faults: 1 },
            [1, 0, 24, 0, 1, 0, 1, 0],
        ),
    ];
    for (text, wanted, fault) in cases {
        for room in [0, 64] {
            let (mut faults, mut roster) = ([LENT; FAULT_ROOM], vec![LENT; room]);
            assert_eq!(names(text, &mut faults, &mut roster), wanted);
            assert_eq!(faults[..FAULT_BYTES], fault);
            assert!(faults[FAULT_BYTES..].iter().chain(&roster).all(|b| *b == LENT));
        }
    }
}

/// Holds a roster against the records of the program: a record that sets a slot is of what the slot's name is, and all
/// but a second setting have the line of its definition. Each name has one record of kind 1, 2 or 13.
fn fits(roster: Roster, program: &[u8]) {
    let entries: Vec<Entry> = roster.entries().collect();
    let mut first = vec![0; entries.len()];
    for record in program.chunks_exact(RECORD_BYTES) {
        let slot = usize::from(u16::from_le_bytes([record[2], record[3]]));
        let line = u32::from_le_bytes(record[4..8].try_into().unwrap());
        let whats: &[What] = match record[0] {
            1 => &[What::Constant],
            2 | 14 => &[What::State],
            13 | 15 => &[What::Assigned, What::Hidden],
            _ => continue,
        };
        let entry = entries[slot - 1];
        assert_eq!(entry.slot, slot);
        assert!(whats.contains(&entry.what), "{entry:?}");
        assert!(entry.line == line || record[0] == 15 && entry.line < line, "{entry:?}");
        first[slot - 1] += usize::from(matches!(record[0], 1 | 2 | 13));
    }
    assert!(first.iter().all(|count| *count == 1));
}

#[test]
fn examples() {
    let folder = Path::new(env!("CARGO_MANIFEST_DIR")).join("../../examples");
    let (mut faults, mut program) = ([0; FAULT_ROOM], vec![0; PROGRAM_ROOM]);
    for (deck, count) in [("tank", 4), ("furnace", 114), ("full_tank", 666)] {
        let text = fs::read(folder.join(deck).with_extension("deck")).unwrap();
        let (verdict, written) = named(&text, NAMES_ROOM);
        assert_eq!(verdict, Verdict::Named { names: count }, "{deck}");
        let records = translate(&text, &mut faults, &mut program).count();
        fits(roster_of(verdict, &written), &program[..records * RECORD_BYTES]);
    }
}

#[test]
fn words() {
    assert_eq!(
        Verdict::Named { names: 4 }.to_string(),
        "verdict 0: translated, 4 names"
    );
    assert_eq!(
        Verdict::NamesShort.to_string(),
        "verdict 10: the roster lent has fewer than 16 bytes for each name"
    );
    assert_eq!((Verdict::NamesShort.number(), Verdict::NamesShort.count()), (10, 0));
    assert_eq!(What::ALL.map(|what| what as u8), [1, 2, 3, 4]);
    let words: Vec<String> = What::ALL.iter().map(What::to_string).collect();
    assert_eq!(words, ["constant", "state", "assigned", "hidden"]);
    assert_eq!(What::from_number(0), None);
    assert_eq!(What::from_number(5), None);
}
