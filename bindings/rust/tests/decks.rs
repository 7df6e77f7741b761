//! Every deck under examples/ of the repository has the listing that stands beside it.

use std::fs;
use std::path::Path;

use floesedge::{faults_of, translate, Verdict, FAULT_ROOM, PROGRAM_ROOM, RECORD_BYTES};

const STORE: u8 = 13;
const DERIVATIVE: u8 = 14;

/// The line of the unit that a statement's first line stands in: inside a block the line of its header. So of the
/// decks here, in which both words begin a line and no block is damaged.
fn unit_line(text: &[u8], line: usize) -> usize {
    let lines: Vec<&[u8]> = text.split(|&byte| byte == b'\n').collect();
    let begins = |at: &usize, word: &[u8]| lines[at - 1].trim_ascii_start().starts_with(word);
    let nearest = (1..=line)
        .rev()
        .find(|at| begins(at, b"PROCED") || begins(at, b"ENDPRO"));
    nearest.filter(|at| begins(at, b"PROCED")).unwrap_or(line)
}

/// OK, the record count and the first lines of the units in order; or NO, the number, and four numbers for each fault.
fn listing(text: &[u8]) -> String {
    let mut faults = [0; FAULT_ROOM];
    let mut program = vec![0; PROGRAM_ROOM];
    let verdict = translate(text, &mut faults, &mut program);
    let mut out = match verdict {
        Verdict::Translated { records } => format!("OK {records}\n"),
        _ => format!("NO {}\n", verdict.number()),
    };
    if let Verdict::Translated { records } = verdict {
        let mut order = Vec::new();
        for record in program.chunks_exact(RECORD_BYTES).take(records) {
            if matches!(record[0], STORE | DERIVATIVE) {
                let line = u32::from_le_bytes(record[4..8].try_into().unwrap());
                order.push(unit_line(text, line as usize));
            }
        }
        order.dedup();
        order.iter().for_each(|line| out += &format!("{line}\n"));
    }
    for fault in faults_of(verdict, &faults) {
        let (line, code, place_line, column) = (fault.line, fault.code as u8, fault.place_line, fault.column);
        out += &format!("{line} {code} {place_line} {column}\n");
    }
    out
}

fn decks_in(folder: &Path) -> usize {
    let mut seen = 0;
    for entry in fs::read_dir(folder).unwrap() {
        let deck = entry.unwrap().path();
        if deck.extension().is_some_and(|e| e == "deck") {
            let wanted = fs::read_to_string(deck.with_extension("listing")).unwrap();
            assert_eq!(listing(&fs::read(&deck).unwrap()), wanted, "{}", deck.display());
            seen += 1;
        }
    }
    seen
}

#[test]
fn examples() {
    let examples = Path::new(env!("CARGO_MANIFEST_DIR")).join("../../examples");
    assert!(decks_in(&examples) >= 3);
    assert!(decks_in(&examples.join("refused")) >= 5);
}
