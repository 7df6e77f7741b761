//! Runs a deck: translates it, names its slots, starts it, and steps it with Euler's method.
//!
//!     cargo run --example run -- DECK H STEPS [EVERY [NAME...]]
//!
//! Prints TIME and the names that are given, or all names of the deck in the order of their slots, and below a line of
//! their values for every EVERY-th time (1 if not given). Exit status: 0; 1 if the deck is refused, with each fault as
//! DECK:LINE:COLUMN: and its words on standard error; 2 for a bad call.

use std::process::ExitCode;

use floesedge::{evaluate, faults_of, names, roster_of, start, step, translate, Answer, Roster, Verdict};
use floesedge::{FAULT_ROOM, NAMES_ROOM, PROGRAM_ROOM, RECORD_BYTES, SLOTS};

struct Call {
    deck: String,
    text: Vec<u8>,
    h: f64,
    steps: u64,
    every: u64,
    wanted: Vec<String>,
}

fn call() -> Result<Call, String> {
    let words: Vec<String> = std::env::args().skip(1).collect();
    if words.len() < 3 {
        return Err("usage: run DECK H STEPS [EVERY [NAME...]]".to_string());
    }
    Ok(Call {
        deck: words[0].clone(),
        text: std::fs::read(&words[0]).map_err(|e| format!("{}: {e}", words[0]))?,
        h: words[1].parse().map_err(|_| "H is a number".to_string())?,
        steps: words[2].parse().map_err(|_| "STEPS is a whole number".to_string())?,
        every: words
            .get(3)
            .map_or(Ok(1), |w| w.parse())
            .ok()
            .filter(|n| *n > 0)
            .ok_or("EVERY is 1 or more")?,
        wanted: words.into_iter().skip(4).collect(),
    })
}

/// The columns, each by its name and its slot: TIME, then the names that are wanted, or all.
fn columns(wanted: &[String], roster: Roster) -> Result<Vec<(String, usize)>, String> {
    let mut columns = vec![("TIME".to_string(), 0)];
    for name in wanted {
        let slot = roster.slot_of(name).ok_or(format!("the deck defines no {name}"))?;
        columns.push((name.clone(), slot));
    }
    if wanted.is_empty() {
        columns.extend(roster.entries().map(|entry| (entry.name.to_string(), entry.slot)));
    }
    Ok(columns)
}

fn main() -> ExitCode {
    let call = match call() {
        Ok(call) => call,
        Err(words) => {
            eprintln!("{words}");
            return ExitCode::from(2);
        }
    };
    let mut faults = [0; FAULT_ROOM];
    let mut program = vec![0; PROGRAM_ROOM];
    let verdict = translate(&call.text, &mut faults, &mut program);
    let Verdict::Translated { records } = verdict else {
        eprintln!("{}: {verdict}", call.deck);
        for fault in faults_of(verdict, &faults) {
            eprintln!("{}:{fault}", call.deck);
        }
        return ExitCode::FAILURE;
    };

    let program = &program[..records * RECORD_BYTES];

    let mut roster = vec![0; NAMES_ROOM];
    let named = names(&call.text, &mut faults, &mut roster);
    let columns = match columns(&call.wanted, roster_of(named, &roster)) {
        Ok(columns) => columns,
        Err(words) => {
            eprintln!("{words}");
            return ExitCode::from(2);
        }
    };
    let header: Vec<&str> = columns.iter().map(|(name, _)| name.as_str()).collect();
    println!("{}", header.join(" "));

    let (mut values, mut derivs) = ([0.0; SLOTS], [0.0; SLOTS]);
    assert_eq!(start(program, &mut values, &mut derivs), Answer::Done);
    for n in 0..=call.steps {
        if n % call.every == 0 {
            assert_eq!(evaluate(program, &mut values, &mut derivs), Answer::Done);
            let line: Vec<String> = columns.iter().map(|(_, slot)| values[*slot].to_string()).collect();
            println!("{}", line.join(" "));
        }
        if n < call.steps {
            assert_eq!(step(program, call.h, &mut values, &mut derivs), Answer::Done);
        }
    }
    ExitCode::SUCCESS
}
