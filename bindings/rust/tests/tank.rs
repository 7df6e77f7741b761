//! The tank of the paper: its records and a run, worked out by hand.

use floesedge::{evaluate, start, step, translate, Answer, Verdict};
use floesedge::{FAULT_ROOM, PROGRAM_ROOM, RECORD_BYTES, SLOTS};

const TANK: &[u8] = b"* TANK\nPARAM K=2\nQ=K*H\nH=INTGRL(1,F-Q)\nF=LIMIT(0,3,TIME)\n";

/// Slots: TIME 0, K 1, Q 2, H 3, F 4. Kind, slot, line, value.
const RECORDS: [(u8, u16, u32, f64); 15] = [
    (1, 1, 2, 2.0), // K is 2
    (2, 3, 4, 1.0), // H starts at 1
    (4, 1, 3, 0.0), // Q=K*H
    (4, 3, 3, 0.0),
    (7, 0, 3, 0.0),
    (13, 2, 3, 0.0),
    (3, 0, 5, 0.0), // F=LIMIT(0,3,TIME)
    (3, 0, 5, 3.0),
    (4, 0, 5, 0.0),
    (11, 0, 5, 0.0),
    (13, 4, 5, 0.0),
    (4, 4, 4, 0.0), // the derivative of H is F-Q
    (4, 2, 4, 0.0),
    (6, 0, 4, 0.0),
    (14, 3, 4, 0.0),
];

fn bytes(records: &[(u8, u16, u32, f64)]) -> Vec<u8> {
    let mut out = Vec::new();
    for (kind, slot, line, value) in records {
        out.extend([*kind, 0]);
        out.extend(slot.to_le_bytes());
        out.extend(line.to_le_bytes());
        out.extend(value.to_bits().to_le_bytes());
    }
    out
}

#[test]
fn is_translated() {
    let mut faults = [0xAA; FAULT_ROOM];
    let mut program = vec![0xAA; PROGRAM_ROOM];
    assert_eq!(
        translate(TANK, &mut faults, &mut program),
        Verdict::Translated { records: 15 }
    );
    let (written, rest) = program.split_at(15 * RECORD_BYTES);
    assert_eq!(written, bytes(&RECORDS));
    assert!(rest.iter().chain(&faults).all(|b| *b == 0xAA));
}

#[test]
fn needs_room_for_fifteen_records() {
    let mut faults = [0; FAULT_ROOM];
    let mut program = [0xAA; 15 * RECORD_BYTES];
    assert_eq!(
        translate(TANK, &mut faults, &mut program[1..]),
        Verdict::ProgramTooLarge
    );
    assert!(program.iter().all(|b| *b == 0xAA));
    assert_eq!(
        translate(TANK, &mut faults, &mut program),
        Verdict::Translated { records: 15 }
    );
}

#[test]
fn runs() {
    let program = bytes(&RECORDS);
    // 7 stands where nothing is written
    let (mut values, mut derivs) = ([7.0; SLOTS + 1], [7.0; SLOTS + 1]);
    assert_eq!(start(&program, &mut values, &mut derivs), Answer::Done);
    assert_eq!(values[..6], [0.0, 7.0, 7.0, 1.0, 7.0, 7.0]);
    assert!(derivs.iter().all(|d| *d == 7.0));

    assert_eq!(evaluate(&program, &mut values, &mut derivs), Answer::Done);
    assert_eq!(values[..6], [0.0, 2.0, 2.0, 1.0, 0.0, 7.0]);
    assert_eq!(derivs[..5], [7.0, 7.0, 7.0, -2.0, 7.0]);

    // with h = 0.5 and K = 2 the next H is half of F. TIME, Q, H and F after each step; Q and F are those before it
    let wanted = [
        [0.5, 2.0, 0.0, 0.0],
        [1.0, 0.0, 0.25, 0.5],
        [1.5, 0.5, 0.5, 1.0],
        [2.0, 1.0, 0.75, 1.5],
        [2.5, 1.5, 1.0, 2.0],
        [3.0, 2.0, 1.25, 2.5],
        [3.5, 2.5, 1.5, 3.0],
        [4.0, 3.0, 1.5, 3.0],
    ];
    for [time, q, h, f] in wanted {
        assert_eq!(step(&program, 0.5, &mut values, &mut derivs), Answer::Done);
        assert_eq!(values[..6], [time, 2.0, q, h, f, 7.0]);
    }
    assert!(values[5..].iter().chain(&derivs[4..]).all(|x| *x == 7.0));
}
