//! The listing.

use std::io::Write;

use crate::limits::{FAULT, FAULT_LIST, MAX_PROGRAM};
use crate::translate::translate_ordered;

/// What the listing program prints for a text.
pub fn listing(text: &[u8]) -> Vec<u8> {
    let mut faults = vec![0; FAULT_LIST];
    let mut program = vec![0; MAX_PROGRAM];
    let (verdict, order) = translate_ordered(text, &mut faults, &mut program);
    let count = verdict.count as usize;
    let mut out = Vec::new();
    if verdict.number == 0 {
        print(&mut out, format_args!("OK {count}"));
        for unit in order {
            print(&mut out, format_args!("{}", unit.line));
        }
    } else {
        print(&mut out, format_args!("NO {}", verdict.number));
        for fault in faults.chunks_exact(FAULT).take(count) {
            let pair = |at: usize| u16::from_le_bytes([fault[at], fault[at + 1]]);
            let (line, code, place, column) = (pair(0), fault[2], pair(4), pair(6));
            print(&mut out, format_args!("{line} {code} {place} {column}"));
        }
    }
    out
}

/// Adds one line closed by byte 10; writing to memory never fails.
fn print(out: &mut Vec<u8>, line: std::fmt::Arguments) {
    let _ = writeln!(out, "{line}");
}
