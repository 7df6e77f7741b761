//! Measures the library and the peer side by side on the same inputs.
//!
//! `bench [ROUNDS]`: in each round every case is timed for both, one right
//! after the other, in turn the library or the peer first. The ratio of a case
//! is the median over the rounds of library time divided by peer time.

use std::hint::black_box;
use std::time::Instant;

use floesedge_check::library;
use floesedge_peer as peer;
use floesedge_peer::limits::{FAULT_LIST, MAX_PROGRAM, RECORD, SLOTS};

/// How long one timing should take, in nanoseconds.
const TARGET: f64 = 400_000.0;

/// One case: what it is called, and one call of each side.
struct Case {
    name: String,
    library: Box<dyn FnMut()>,
    peer: Box<dyn FnMut()>,
    calls: usize,
    times: Vec<(f64, f64)>,
}

fn main() {
    let rounds = std::env::args()
        .nth(1)
        .and_then(|count| count.parse().ok())
        .unwrap_or(201);
    let mut cases = cases();
    for case in &mut cases {
        case.calibrate();
    }
    for round in 0..rounds {
        for case in &mut cases {
            case.time(round % 2 == 0);
        }
    }
    println!(
        "{:<74}{:>8}{:>14}{:>14}",
        "case", "ratio", "library ns", "peer ns"
    );
    for case in &cases {
        let ratio = median(case.times.iter().map(|(library, peer)| library / peer));
        let library = median(case.times.iter().map(|times| times.0));
        let peer = median(case.times.iter().map(|times| times.1));
        println!("{:<74}{ratio:>8.3}{library:>14.1}{peer:>14.1}", case.name);
    }
    println!("{rounds} rounds; ratio is library time / peer time, the median over the rounds");
}

impl Case {
    /// Warms both sides up and fixes how many calls one timing takes.
    fn calibrate(&mut self) {
        self.calls = 1;
        loop {
            let time = time(&mut self.library, self.calls).max(time(&mut self.peer, self.calls));
            let whole = time * self.calls as f64;
            if whole >= TARGET / 2.0 {
                self.calls = ((TARGET / time) as usize).max(1);
                return;
            }
            self.calls *= 2;
        }
    }

    /// Times both sides once.
    fn time(&mut self, library_first: bool) {
        let times = if library_first {
            let library = time(&mut self.library, self.calls);
            (library, time(&mut self.peer, self.calls))
        } else {
            let peer = time(&mut self.peer, self.calls);
            (time(&mut self.library, self.calls), peer)
        };
        self.times.push(times);
    }
}

/// The nanoseconds that one of some calls takes.
fn time(act: &mut dyn FnMut(), calls: usize) -> f64 {
    let start = Instant::now();
    for _ in 0..calls {
        act();
    }
    start.elapsed().as_nanos() as f64 / calls as f64
}

/// The median of some numbers.
fn median(numbers: impl Iterator<Item = f64>) -> f64 {
    let mut numbers: Vec<f64> = numbers.collect();
    numbers.sort_by(f64::total_cmp);
    numbers[numbers.len() / 2]
}

// The cases.

/// All cases.
fn cases() -> Vec<Case> {
    let tank = b"* TANK\nPARAM K=2\nQ=K*H\nH=INTGRL(1,F-Q)\nF=LIMIT(0,3,TIME)\n".to_vec();
    let wide = program_of(&wide_deck());
    let tank_program = program_of(&tank);
    let records = wide.len() / RECORD;
    let full_tank = full_tank();
    let full_tank_program = program_of(&full_tank);
    vec![
        translate_case("translate: tank", tank),
        translate_case("translate: 255 long expressions", long_deck()),
        translate_case("translate: reversed chain of 255", reversed_chain(255)),
        translate_case("translate: fault in each of 256 statements", faulty_deck()),
        translate_case("translate: blocks", blocks_deck()),
        translate_case("translate: numbers, k -22 to 22", exponents_deck(-22, 22)),
        translate_case("translate: numbers, k -9 to 3", exponents_deck(-9, 3)),
        translate_case("translate: reversed chain of 511", reversed_chain(511)),
        translate_case("translate: full tank", full_tank),
        evaluate_case("evaluate: tank", tank_program.clone()),
        evaluate_case(&format!("evaluate: {records} records"), wide.clone()),
        step_case("step: tank", tank_program),
        step_case(&format!("step: {records} records"), wide),
        evaluate_case("evaluate: full tank", full_tank_program.clone()),
        step_case("step: full tank", full_tank_program),
    ]
}

/// A translation; both must agree on it first.
fn translate_case(name: &str, text: Vec<u8>) -> Case {
    let (mut faults, mut program) = (vec![0; FAULT_LIST], vec![0; MAX_PROGRAM]);
    let (mut faults2, mut program2) = (faults.clone(), program.clone());
    let verdict = peer::translate(&text, &mut faults, &mut program);
    assert_eq!(
        verdict,
        library::translate(&text, &mut faults2, &mut program2),
        "{name}"
    );
    assert!(faults == faults2 && program == program2, "{name}");
    let text2 = text.clone();
    let size = format!(
        "{name} ({} bytes, verdict {} {})",
        text.len(),
        verdict.number,
        verdict.count
    );
    Case {
        name: size,
        library: Box::new(move || {
            black_box(library::translate(
                black_box(&text),
                &mut faults,
                black_box(&mut program),
            ));
        }),
        peer: Box::new(move || {
            black_box(peer::translate(
                black_box(&text2),
                &mut faults2,
                black_box(&mut program2),
            ));
        }),
        calls: 1,
        times: Vec::new(),
    }
}

/// An evaluation at the start; both must agree on it first.
fn evaluate_case(name: &str, program: Vec<u8>) -> Case {
    let (mut values, mut derivs) = (vec![0.0; SLOTS], vec![0.0; SLOTS]);
    peer::start(&program, &mut values, &mut derivs);
    let (mut values2, mut derivs2) = (values.clone(), derivs.clone());
    let answer = peer::evaluate(&program, &mut values, &mut derivs);
    assert_eq!(
        answer,
        library::evaluate(&program, &mut values2, &mut derivs2),
        "{name}"
    );
    assert!(
        answer.number == 0 && values == values2 && derivs == derivs2,
        "{name}"
    );
    let program2 = program.clone();
    Case {
        name: name.into(),
        library: Box::new(move || {
            black_box(library::evaluate(
                black_box(&program),
                black_box(&mut values),
                &mut derivs,
            ));
        }),
        peer: Box::new(move || {
            black_box(peer::evaluate(
                black_box(&program2),
                black_box(&mut values2),
                &mut derivs2,
            ));
        }),
        calls: 1,
        times: Vec::new(),
    }
}

/// Steps from the start on.
fn step_case(name: &str, program: Vec<u8>) -> Case {
    let (mut values, mut derivs) = (vec![0.0; SLOTS], vec![0.0; SLOTS]);
    peer::start(&program, &mut values, &mut derivs);
    let (mut values2, mut derivs2) = (values.clone(), derivs.clone());
    let program2 = program.clone();
    Case {
        name: name.into(),
        library: Box::new(move || {
            black_box(library::step(
                black_box(&program),
                1e-6,
                black_box(&mut values),
                &mut derivs,
            ));
        }),
        peer: Box::new(move || {
            black_box(peer::step(
                black_box(&program2),
                1e-6,
                black_box(&mut values2),
                &mut derivs2,
            ));
        }),
        calls: 1,
        times: Vec::new(),
    }
}

/// The program of a text that is sound.
fn program_of(text: &[u8]) -> Vec<u8> {
    let mut program = vec![0; MAX_PROGRAM];
    let verdict = peer::translate(text, &mut [0; FAULT_LIST], &mut program);
    assert_eq!(verdict.number, 0, "a deck is refused: {verdict:?}");
    program.truncate(verdict.count as usize * RECORD);
    program
}

/// 255 statements with long expressions, just under 16,384 bytes.
fn long_deck() -> Vec<u8> {
    let mut text = String::new();
    for i in 0..255usize {
        // The uses lie before and behind in the text.
        let rank = |place: usize| place * 101 % 255;
        let used = |back: usize| match i.checked_sub(back) {
            Some(place) => format!("NA{:03}", rank(place)),
            None => "TIME".into(),
        };
        let name = format!("NA{:03}", rank(i));
        let (a, b, c) = (used(1), used(2), used(7));
        let line = match i % 3 {
            0 => format!("{name}={a}*1.5-INSW({b}-2.25,-{c}/3.125,({a}+TIME)*4)"),
            1 => format!("{name}=LIMIT(-10.5,{a}+100.25,{b}*{c}-TIME)/2.718281828"),
            _ => format!("{name}=INTGRL(-1.25,COMPAR({a},{b})*({c}-0.0625)-{a}/1000)"),
        };
        text.push_str(&format!("{line}\n"));
    }
    let room = 16_384 - text.len();
    text.push_str(&format!("*{}\n", "-".repeat(room - 2)));
    assert_eq!(text.len(), 16_384);
    in_order_of_names(&text)
}

/// Sorts the lines of a text by their names, so that uses point both ways.
fn in_order_of_names(text: &str) -> Vec<u8> {
    let mut lines: Vec<&str> = text.lines().collect();
    lines.sort();
    let mut text = lines.join("\n");
    text.push('\n');
    text.into_bytes()
}

/// So many assignments, each using the next one in the text.
fn reversed_chain(count: usize) -> Vec<u8> {
    let mut text = String::new();
    for i in (1..count).rev() {
        text.push_str(&format!("A{i}=A{}+1\n", i - 1));
    }
    text.push_str("A0=TIME\n");
    text.into_bytes()
}

/// 256 statements, each with a fault near its end.
fn faulty_deck() -> Vec<u8> {
    let mut text = String::new();
    for i in 0..256 {
        let fault = ["2X", "1E23", "ABCDEFG", "#", ")", "*2", "", "1E", "INTGRL"][i % 9];
        text.push_str(&format!(
            "N{i}=1.5*TIME-INSW(A-2.25,B/3.125,C+(D*4.0))+{fault}\n"
        ));
    }
    text.into_bytes()
}

/// The zones of the furnace, a block for each.
const ZONES: usize = 22;

/// A furnace of many zones, just 16,384 bytes: each zone is a block of five to
/// ten assignments that takes the heat of the one before it. The zones do not
/// stand in the order of their uses.
fn blocks_deck() -> Vec<u8> {
    let mut text = String::from(
        "CONST CALORI=38.5,DRAFTK=0.35,AIRRAT=14.2,LEAKCO=0.018,RADIAT=5.67E-3\n\
         CONST CONVEC=12.5,AMBIEN=293.15,HEATMX=4500.0,MASSCP=820.0\n\
         PARAM SETPNT=1450.0,GAINFB=0.02,FUELLO=0.05,FUELHI=3.5,RAMPUP=600.0\n\
         INCON START0=300.0\n\
         SUPPLY=INSW(TIME-60.0,AMBIEN,AMBIEN+150.0)*DRAFTK\n",
    );
    for place in 0..ZONES {
        zone(&mut text, place * 9 % ZONES);
    }
    let room = 16_384 - text.len();
    text.push_str(&format!("*{}\n", "-".repeat(room - 2)));
    assert_eq!(text.len(), 16_384);
    program_of(text.as_bytes());
    text.into_bytes()
}

/// Adds one zone: its fuel, its block and its temperature.
fn zone(text: &mut String, zone: usize) {
    let z = format!("{zone:02}");
    let before = match zone.checked_sub(1) {
        Some(last) => format!("HEAT{last:02}"),
        None => "SUPPLY".into(),
    };
    let mut lines = vec![
        format!("* ZONE {z}: BURNER, GAS, WALL, AND WHAT IT HANDS ON TO THE NEXT ZONE"),
        format!("FUEL{z}=LIMIT(FUELLO,FUELHI,GAINFB*(SETPNT-TEMP{z})+FUELLO*2.0)"),
        format!("PROCED HEAT{z},LOSS{z}=ZONE{z}(FUEL{z},{before})"),
        format!("   FLAM{z}=FUEL{z}*CALORI*LIMIT(0.0,1.0,TIME/RAMPUP)-TEMP{z}/1000.0"),
        format!("   GASS{z}=(FLAM{z}+{before}*DRAFTK)/(1.0+FUEL{z}*AIRRAT*0.01)"),
        format!("   HEAT{z}=CONVEC*(GASS{z}-TEMP{z})+RADIAT*(FLAM{z}-GASS{z}/4.0)"),
        format!("   LOSS{z}=COMPAR(TEMP{z},AMBIEN)*LEAKCO*(TEMP{z}-AMBIEN)*1.25E-2"),
        format!("   HEAT{z}=HEAT{z}-LIMIT(0.0,HEATMX,LOSS{z}+(GASS{z}-AMBIEN)*0.5)"),
    ];
    let more = [
        format!("   WALL{z}=INSW(GASS{z}-TEMP{z},-LEAKCO*(TEMP{z}-AMBIEN),RADIAT)"),
        format!("   LOSS{z}=LOSS{z}+WALL{z}*(1.0-DRAFTK)/2.0"),
        format!("   WALL{z}=LIMIT(-HEATMX,HEATMX,WALL{z}*RADIAT+LOSS{z}-FLAM{z}/8.0)"),
        format!("   FLAM{z}=FLAM{z}-WALL{z}*0.0625+COMPAR(FLAM{z},GASS{z})*TIME*1E-3"),
        format!("   HEAT{z}=(HEAT{z}*3.0+FLAM{z}+..."),
    ];
    lines.extend_from_slice(&more[..zone % 6]);
    if zone % 6 == 5 {
        lines.push(format!("      WALL{z}*(GASS{z}-{before}))/(4.0+RADIAT)"));
    }
    lines.push("ENDPRO".into());
    lines.push(format!(
        "TEMP{z}=INTGRL(START0,(HEAT{z}-LOSS{z}+{before}*0.5)/MASSCP)"
    ));
    text.push_str(&lines.join("\n"));
    text.push('\n');
}

/// 255 expressions of four numbers with exponents each. Their k (the exponent
/// less the digits behind the point) are spread from the least to the most, in
/// no order that repeats within the deck.
fn exponents_deck(least: i32, most: i32) -> Vec<u8> {
    let mut text = String::new();
    let mut state = 1u32;
    for i in 0..255 {
        let mut number = |digits: &str, behind: i32| {
            state = state.wrapping_mul(1_664_525).wrapping_add(1_013_904_223);
            let k = least + (state >> 16) as i32 % (most - least + 1);
            format!("{digits}E{:+}", k + behind)
        };
        let (a, b) = (number("1.5", 1), number("6.0221", 4));
        let (c, d) = (number("7", 0), number("299.792458", 6));
        text.push_str(&format!("N{i}=({a}*TIME-{b})/({c}+TIME*{d})\n"));
    }
    program_of(text.as_bytes());
    text.into_bytes()
}

/// The deck of the full tank; without it there is nothing to measure.
fn full_tank() -> Vec<u8> {
    let path = concat!(env!("CARGO_MANIFEST_DIR"), "/../../examples/full_tank.deck");
    std::fs::read(path).unwrap_or_else(|error| {
        eprintln!("bench: examples/full_tank.deck of this repository is needed: {error}");
        std::process::exit(1);
    })
}

/// A deck whose program has about 300 records.
fn wide_deck() -> Vec<u8> {
    let mut text = String::from("CONST K=.5,M=2\n");
    for i in 0..10 {
        let last = (i + 9) % 10;
        text.push_str(&format!("X{i}=INTGRL({i},K*(X{last}-X{i})+F{i}/M-G{i})\n"));
        text.push_str(&format!("F{i}=LIMIT(-1,1,X{i}*K-TIME)\n"));
        text.push_str(&format!("G{i}=INSW(X{i}-F{i},-M,COMPAR(F{i},TIME))*K\n"));
    }
    text.into_bytes()
}
