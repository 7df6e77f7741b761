//! What the tests share.
#![allow(dead_code)]

use floesedge_peer::{translate, Verdict};

/// The tank of the paper.
pub const TANK: &str = "* TANK\nPARAM K=2\nQ=K*H\nH=INTGRL(1,F-Q)\nF=LIMIT(0,3,TIME)\n";

/// The places of values and of derivatives.
pub const SLOTS: usize = 1024;

/// A fault: line, code, line of its place, column.
pub type Fault = (u16, u8, u16, u16);

/// The verdict on a text, with what is written; all other bytes must stay.
pub fn outcome(text: &[u8]) -> (u32, u32, Vec<Fault>, Vec<u8>) {
    let mut faults = vec![0xa5; 4103];
    let mut program = vec![0x5a; 65_600];
    let Verdict { number, count } = translate(text, &mut faults, &mut program);
    let listed = if matches!(number, 5 | 7) {
        count as usize * 8
    } else {
        0
    };
    let written = if number == 0 { count as usize * 16 } else { 0 };
    assert!(faults[listed..].iter().all(|&byte| byte == 0xa5));
    assert!(program[written..].iter().all(|&byte| byte == 0x5a));
    let list = faults[..listed].chunks_exact(8).map(fault).collect();
    program.truncate(written);
    (number, count, list, program)
}

/// A fault as the papers lay it out. The place of 12, 13 and the model faults
/// is always the first byte of the statement.
fn fault(bytes: &[u8]) -> Fault {
    let pair = |at: usize| u16::from_le_bytes([bytes[at], bytes[at + 1]]);
    let (line, code, place, column) = (pair(0), bytes[2], pair(4), pair(6));
    assert_eq!(bytes[3], 0);
    assert!(place >= line && column >= 1);
    if matches!(code, 12 | 13 | 21..) {
        assert_eq!((place, column), (line, 1));
    }
    (line, code, place, column)
}

/// The program of a text with verdict 0.
pub fn good(text: &str) -> Vec<u8> {
    let (number, count, _, program) = outcome(text.as_bytes());
    assert_eq!(number, 0, "{text}");
    assert_eq!(program.len(), count as usize * 16);
    program
}

/// The faults of a text refused with 5 or 7, with their places.
pub fn placed(text: &str, number: u32) -> Vec<Fault> {
    let (found, count, list, _) = outcome(text.as_bytes());
    assert_eq!(found, number, "{text}");
    assert_eq!(count as usize, list.len());
    list
}

/// The same, lines and codes alone.
pub fn refused(text: &str, number: u32) -> Vec<(u16, u8)> {
    let list = placed(text, number).into_iter();
    list.map(|(line, code, ..)| (line, code)).collect()
}

/// The number of a verdict that counts nothing.
pub fn bare(text: &[u8]) -> u32 {
    let (number, count, _, _) = outcome(text);
    assert_eq!(count, 0);
    number
}

/// A record as the paper lays it out.
pub fn record(kind: u8, operand: u16, line: u32, value: f64) -> Vec<u8> {
    let mut bytes = vec![kind, 0];
    bytes.extend(operand.to_le_bytes());
    bytes.extend(line.to_le_bytes());
    bytes.extend(value.to_bits().to_le_bytes());
    bytes
}

/// A program of records given as kind, operand, line and value.
pub fn records(list: &[(u8, u16, u32, f64)]) -> Vec<u8> {
    list.iter()
        .flat_map(|&(kind, operand, line, value)| record(kind, operand, line, value))
        .collect()
}
