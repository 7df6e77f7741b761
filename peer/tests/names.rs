//! The names of the slots, worked out by hand.

mod common;
use common::*;
use floesedge_peer::{name_slots, Verdict};

/// What a name is: the byte behind the name.
const CONSTANT: u8 = 1;
const STATE: u8 = 2;
const ASSIGNED: u8 = 3;
const HIDDEN: u8 = 4;

/// The least bytes to lend for the fault list.
const FAULT_ROOM: usize = 4096;

/// What stands in lent bytes.
const LENT_FAULTS: u8 = 0xa5;
const LENT_NAMES: u8 = 0x5a;

/// Number and count on a text, and both buffers whole, by the lengths lent.
fn outcome_in(text: &[u8], fault_room: usize, room: usize) -> (u32, u32, Vec<u8>, Vec<u8>) {
    let mut faults = vec![LENT_FAULTS; fault_room];
    let mut names = vec![LENT_NAMES; room];
    let Verdict { number, count } = name_slots(text, &mut faults, &mut names);
    (number, count, faults, names)
}

/// An entry: name, what it is, 0, slot and line.
fn entry(name: &str, what: u8, slot: u16, line: u32) -> Vec<u8> {
    let mut bytes = name.as_bytes().to_vec();
    bytes.resize(8, 0);
    bytes.extend([what, 0]);
    bytes.extend(slot.to_le_bytes());
    bytes.extend(line.to_le_bytes());
    bytes
}

/// A text has just these names, the first with slot 1; each with what it is and
/// its line. Bytes behind the names, and the fault list, stay as lent.
#[track_caller]
fn assert_named(text: &str, expected: &[(&str, u8, u32)]) {
    let entries = expected.iter().zip(1..);
    let entries = entries.flat_map(|(&(name, what, line), slot)| entry(name, what, slot, line));
    let mut names: Vec<u8> = entries.collect();
    names.extend([LENT_NAMES; 40]);
    let (number, count, faults, found) = outcome_in(text.as_bytes(), FAULT_ROOM, names.len());
    assert_eq!((number, count as usize), (0, expected.len()), "{text}");
    assert_eq!(found, names, "{text}");
    assert_eq!(faults, [LENT_FAULTS; FAULT_ROOM]);
}

/// A text gives a number alone, and nothing is written.
#[track_caller]
fn assert_bare(text: &[u8], fault_room: usize, room: usize, number: u32) {
    let (found, count, faults, names) = outcome_in(text, fault_room, room);
    assert_eq!((found, count), (number, 0));
    assert_eq!(faults, vec![LENT_FAULTS; fault_room]);
    assert_eq!(names, vec![LENT_NAMES; room]);
}

/// A text is refused with just this fault list, and names stay as lent.
#[track_caller]
fn assert_listed(text: &str, room: usize, number: u32, list: &[[u8; 8]]) {
    let (found, count, faults, names) = outcome_in(text.as_bytes(), FAULT_ROOM + 3, room);
    assert_eq!((found, count as usize), (number, list.len()), "{text}");
    let (listed, behind) = faults.split_at(list.len() * 8);
    assert_eq!(listed, list.as_flattened(), "{text}");
    assert!(behind.iter().all(|&byte| byte == LENT_FAULTS));
    assert_eq!(names, vec![LENT_NAMES; room]);
}

#[test]
fn sixteen_bytes() {
    let (number, count, _, names) = outcome_in(b"*\nCONST ABCDE6=1\nX=2", FAULT_ROOM, 34);
    assert_eq!((number, count), (0, 2));
    assert_eq!(names[..16], *b"ABCDE6\0\0\x01\0\x01\0\x02\0\0\0");
    assert_eq!(names[16..32], *b"X\0\0\0\0\0\0\0\x03\0\x02\0\x03\0\0\0");
    assert_eq!(names[32..], [LENT_NAMES; 2]);
}

#[test]
fn slots_and_lines_over_255() {
    // 600 constants, three to each line: the last is N599 in line 200. Then 500
    // lines more, and a state in line 701.
    let constants = (0..200).map(|i| 3 * i).map(|i| {
        let (j, k) = (i + 1, i + 2);
        format!("CONST N{i}=1,N{j}=1,N{k}=1\n")
    });
    let text = format!(
        "{}{}X=INTGRL(0,1)\n",
        constants.collect::<String>(),
        "*\n".repeat(500)
    );
    let (number, count, _, names) = outcome_in(text.as_bytes(), FAULT_ROOM, 601 * 16);
    assert_eq!((number, count), (0, 601));
    // Slot 256 is N255 in line 86; slot 600 is 2 * 256 + 88, and line 701 is
    // 2 * 256 + 189.
    let at = |slot: usize| &names[slot * 16 - 16..slot * 16];
    assert_eq!(at(256), b"N255\0\0\0\0\x01\0\0\x01\x56\0\0\0");
    assert_eq!(at(600), b"N599\0\0\0\0\x01\0\x58\x02\xc8\0\0\0");
    assert_eq!(at(601), b"X\0\0\0\0\0\0\0\x02\0\x59\x02\xbd\x02\0\0");
}

#[test]
fn the_tank() {
    // In the order of the text, though F runs before H.
    assert_named(
        TANK,
        &[
            ("K", CONSTANT, 2),
            ("Q", ASSIGNED, 3),
            ("H", STATE, 4),
            ("F", ASSIGNED, 5),
        ],
    );
}

#[test]
fn constants_of_one_statement_share_its_line() {
    assert_named(
        "\n\nPARAM A=1,...\n* C\nB=-2...\n,C=3\nINCON D=0\n",
        &[
            ("A", CONSTANT, 3),
            ("B", CONSTANT, 3),
            ("C", CONSTANT, 3),
            ("D", CONSTANT, 7),
        ],
    );
}

#[test]
fn a_statement_over_lines_has_its_first() {
    // The name itself may stand on a later card.
    assert_named(
        "  ...\n*\n  Y...\n =Z...\n*\n+1\nZ=...\nINTGRL(1,...\nY)",
        &[("Y", ASSIGNED, 1), ("Z", STATE, 7)],
    );
}

#[test]
fn names_of_all_lengths() {
    assert_named(
        "A=1\nAB=1\nABC=1\nABCD=1\nABCDE=1\nABCDEF=1\nZ99999=1\nE5=1\nTIMES=1\n",
        &[
            ("A", ASSIGNED, 1),
            ("AB", ASSIGNED, 2),
            ("ABC", ASSIGNED, 3),
            ("ABCD", ASSIGNED, 4),
            ("ABCDE", ASSIGNED, 5),
            ("ABCDEF", ASSIGNED, 6),
            ("Z99999", ASSIGNED, 7),
            ("E5", ASSIGNED, 8),
            ("TIMES", ASSIGNED, 9),
        ],
    );
}

#[test]
fn a_block_with_outputs_and_a_name_of_its_own() {
    // T is the block's own. A is set again in line 6, and that is no definition.
    // The name VALVE is none, and the inputs are defined outside.
    let lines = [
        "CONST K=2",
        "PROCED A,B=VALVE(C,D)",
        "T=C-K",
        "A=T*D",
        "B=A/K",
        "A=-A+B",
        "ENDPRO",
        "C=TIME",
        "D=3",
        "X=INTGRL(1,A-B)",
    ];
    assert_named(
        &lines.join("\n"),
        &[
            ("K", CONSTANT, 1),
            ("T", HIDDEN, 3),
            ("A", ASSIGNED, 4),
            ("B", ASSIGNED, 5),
            ("C", ASSIGNED, 8),
            ("D", ASSIGNED, 9),
            ("X", STATE, 10),
        ],
    );
}

#[test]
fn the_first_setting_defines() {
    // Not the header but the settings give the order: B before A. T and A are set
    // three times, the first time over two cards with a comment between.
    let lines = [
        "PROCED A,...",
        "B=F(C)",
        "  T=C...",
        "* T",
        " +1",
        "B=T",
        "T=T*2",
        "A=...",
        "T",
        "T=A",
        "A=A+B",
        "A=A+T",
        "ENDPRO",
        "CONST C=1",
    ];
    assert_named(
        &lines.join("\n"),
        &[
            ("T", HIDDEN, 3),
            ("B", ASSIGNED, 6),
            ("A", ASSIGNED, 8),
            ("C", CONSTANT, 14),
        ],
    );
}

#[test]
fn blocks_one_behind_the_other() {
    // Each block has names of its own; the output P of the first is an input of
    // the second, and its output Q one of the first statement.
    let lines = [
        "Z=Q",
        "PROCED P=F(K)",
        "U=K",
        "P=U",
        "ENDPRO",
        "PROCED Q=G(P)",
        "V=P",
        "W=V",
        "W=W+V",
        "Q=W",
        "ENDPRO",
        "K=1",
    ];
    assert_named(
        &lines.join("\n"),
        &[
            ("Z", ASSIGNED, 1),
            ("U", HIDDEN, 3),
            ("P", ASSIGNED, 4),
            ("V", HIDDEN, 7),
            ("W", HIDDEN, 8),
            ("Q", ASSIGNED, 10),
            ("K", ASSIGNED, 12),
        ],
    );
}

#[test]
fn no_definition() {
    for text in ["", "\n", "* A=1\n", "*\n\n   \n* TANK", "*...\n*A=1"] {
        assert_named(text, &[]);
        assert_bare(text.as_bytes(), FAULT_ROOM, 0, 0);
    }
}

#[test]
fn room() {
    // Four names take 64 bytes, though the program has 15 records.
    for room in [0, 15, 16, 48, 63] {
        assert_bare(TANK.as_bytes(), FAULT_ROOM, room, 10);
    }
    for room in [64, 65, 79, 80, 240, 20_000] {
        let (number, count, _, names) = outcome_in(TANK.as_bytes(), FAULT_ROOM, room);
        assert_eq!((number, count), (0, 4));
        assert_eq!(names[48..64], entry("F", ASSIGNED, 4, 5));
        assert_eq!(names[64..], vec![LENT_NAMES; room - 64]);
    }
    assert_bare(b"A=1", FAULT_ROOM, 15, 10);
    assert_eq!(
        outcome_in(b"A=1", FAULT_ROOM, 16).3,
        entry("A", ASSIGNED, 1, 1)
    );
    // Set again is no definition: 32 bytes hold C and A.
    let block = b"CONST C=1\nPROCED A=F(C)\nA=1\nA=2\nA=3\nENDPRO";
    assert_bare(block, FAULT_ROOM, 31, 10);
    let both = [entry("C", CONSTANT, 1, 1), entry("A", ASSIGNED, 2, 3)].concat();
    assert_eq!(outcome_in(block, FAULT_ROOM, 32).3, both);
}

#[test]
fn most_names() {
    // 1,023 constants, eight to a line: the last seven stand in line 128.
    let names: Vec<_> = (0..1023).map(|i| format!("N{i}=1")).collect();
    let lines = names
        .chunks(8)
        .map(|list| format!("CONST {}\n", list.join(",")));
    let text: String = lines.collect();
    assert_bare(text.as_bytes(), FAULT_ROOM, 1023 * 16 - 1, 10);
    let (number, count, _, names) = outcome_in(text.as_bytes(), FAULT_ROOM, 1023 * 16);
    assert_eq!((number, count), (0, 1023));
    assert_eq!(names[1022 * 16..], entry("N1022", CONSTANT, 1023, 128));
    // One more is refused whatever the room.
    let more = format!("{text}CONST Z=1\n");
    assert_bare(more.as_bytes(), FAULT_ROOM, 1024 * 16, 6);
}

#[test]
fn fault_room() {
    // It comes before all else, and the room for names plays no part.
    for fault_room in [0, 8, 2048, FAULT_ROOM - 1] {
        for text in [TANK, "", "A=", "A=A"] {
            assert_bare(text.as_bytes(), fault_room, 64, 1);
        }
        assert_bare(TANK.as_bytes(), fault_room, 0, 1);
        assert_bare(&[0; 40_000], fault_room, 64, 1);
    }
    // More than enough is lent: nothing of it is written.
    let (number, count, faults, _) = outcome_in(TANK.as_bytes(), 5000, 64);
    assert_eq!((number, count), (0, 4));
    assert_eq!(faults, [LENT_FAULTS; 5000]);
}

#[test]
fn statement_faults() {
    // Lines 1 and 3 are good. 18 at the end of line 2; 14 at the byte of line 5.
    let text = "A=1\nQ=K*\nB=2\nC=1...\n  +#\n";
    let list = [[2, 0, 18, 0, 2, 0, 4, 0], [4, 0, 14, 0, 5, 0, 4, 0]];
    // The room for names is looked at last.
    for room in [0, 1, 64, 16_384] {
        assert_listed(text, room, 5, &list);
    }
}

#[test]
fn model_faults() {
    let twice = [[3, 0, 21, 0, 3, 0, 1, 0]];
    let loops = [[1, 0, 24, 0, 1, 0, 1, 0], [2, 0, 24, 0, 2, 0, 1, 0]];
    let unpaired = [[2, 0, 25, 0, 2, 0, 1, 0]];
    let outside = [[5, 0, 22, 0, 5, 0, 1, 0]];
    for room in [0, 64, 16_384] {
        assert_listed("A=1\n*\nA=2\n", room, 7, &twice);
        assert_listed("A=B\nB=A\nC=1\n", room, 7, &loops);
        assert_listed("A=1\nENDPRO\n", room, 7, &unpaired);
        // What is set inside a block and no output is not known outside.
        let block = "PROCED A=F(C)\nT=C\nA=T\nENDPRO\nB=T\nCONST C=1";
        assert_listed(block, room, 7, &outside);
    }
}

/// A statement of 256 records: 128 ones with plus between, over four lines.
fn long_sum(name: usize) -> String {
    let part = "+1".repeat(32);
    let first = &part[1..];
    format!("N{name:02}={first}...\n{part}...\n{part}...\n{part}\n")
}

#[test]
fn sizes() {
    assert_bare(&vec![b'\n'; 32_769], FAULT_ROOM, 64, 2);
    assert_bare(&[b'\n'; 1025], FAULT_ROOM, 64, 3);
    assert_bare("A=1\n".repeat(513).as_bytes(), FAULT_ROOM, 64, 4);
    // 16 names with 4,096 records: just as many as 65,536 bytes hold.
    let text: String = (0..16).map(long_sum).collect();
    let names: Vec<_> = (0..16).map(|i| format!("N{i:02}")).collect();
    let named = names.iter().zip((1..).step_by(4));
    let named = named.map(|(name, line)| (&name[..], ASSIGNED, line));
    assert_named(&text, &named.collect::<Vec<_>>());
    assert_bare(text.as_bytes(), FAULT_ROOM, 255, 10);
    // One record more is refused, and that comes before the room for names.
    let more = format!("{text}CONST Z=1\n");
    assert_bare(more.as_bytes(), FAULT_ROOM, 17 * 16, 8);
    assert_bare(more.as_bytes(), FAULT_ROOM, 0, 8);
}
