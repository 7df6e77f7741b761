//! Each verdict, each fault code with its places, and each answer, worked out by hand. What a refusal may not write to
//! is looked at.

use floesedge::{evaluate, faults_of, start, step, translate, Answer, Code, Fault, Verdict};
use floesedge::{FAULT_BYTES, FAULT_ROOM, MOST_RECORDS, PROGRAM_ROOM, RECORD_BYTES, SLOTS};

const LENT: u8 = 0xAA;

/// A fault as the listing has it: line, code, line of the place, column.
type Listed = (u16, u8, u16, u16);

/// The verdict and the faults as numbers, with both buffers held to what the verdict may write.
fn translated(text: &[u8]) -> (Verdict, Vec<Listed>) {
    let mut faults = [LENT; FAULT_ROOM];
    let mut program = vec![LENT; PROGRAM_ROOM];
    let verdict = translate(text, &mut faults, &mut program);
    let written = match verdict {
        Verdict::Translated { .. } => 0,
        _ => FAULT_BYTES * verdict.count(),
    };
    assert!(faults[written..].iter().all(|b| *b == LENT));
    if verdict.number() != 0 {
        assert!(program.iter().all(|b| *b == LENT));
    }
    let listed = |fault: Fault| {
        assert_eq!(fault.zero, 0);
        (fault.line, fault.code as u8, fault.place_line, fault.column)
    };
    (verdict, faults_of(verdict, &faults).map(listed).collect())
}

fn repeated(line: &str, times: usize) -> Vec<u8> {
    line.repeat(times).into_bytes()
}

#[test]
fn sizes() {
    let ok = |text: &[u8]| translated(text).0.number() == 0;
    // 2: a comment of 32,768 bytes, and one byte more
    assert!(ok(&repeated("*", 32_768)));
    assert_eq!(translated(&repeated("*", 32_769)).0, Verdict::TextTooLong);
    // 3
    assert!(ok(&repeated("\n", 1024)));
    assert_eq!(translated(&repeated("\n", 1025)).0, Verdict::TooManyLines);
    // 4 comes before 5: the statements are faulty, each, and 512 faults fill the list
    let (verdict, faults) = translated(&repeated("=\n", 512));
    assert_eq!(verdict, Verdict::StatementFaults { faults: 512 });
    assert_eq!(512 * FAULT_BYTES, FAULT_ROOM);
    assert!(faults
        .iter()
        .zip(1..)
        .all(|(fault, line)| *fault == (line, 18, line, 1)));
    assert_eq!(translated(&repeated("=\n", 513)).0, Verdict::TooManyStatements);
    // 6 comes before 7: the definitions are doubles, in 512 statements one and 511 times two, or 512 times two
    let twice = |times: usize| repeated("CONST A=1,A=1\n", times);
    let (verdict, faults) = translated(&[repeated("A=1\n", 1), twice(511)].concat());
    assert_eq!(verdict, Verdict::ModelFaults { faults: 511 });
    assert!(faults
        .iter()
        .zip(2..)
        .all(|(fault, line)| *fault == (line, 21, line, 1)));
    assert_eq!(translated(&twice(512)).0, Verdict::TooManyDefinitions);
    // 8: A=1+1+..+1 with 66 ones writes 66 + 65 + 1 = 132 records; 32 such statements are 4,224
    let long = |n: usize| {
        (0..n)
            .flat_map(|i| format!("A{i}=1{}...\n{}\n", "+1".repeat(32), "+1".repeat(33)).into_bytes())
            .collect::<Vec<u8>>()
    };
    assert_eq!(translated(&long(31)).0, Verdict::Translated { records: 4092 });
    assert_eq!(translated(&long(32)).0, Verdict::ProgramTooLarge);
}

/// So many statements, each with two constants, and all names different.
fn two_each(count: usize) -> String {
    (0..count).map(|i| format!("CONST A{i}=1,B{i}=2\n")).collect()
}

#[test]
fn last_slot() {
    assert_eq!(translated(two_each(512).as_bytes()).0, Verdict::TooManyDefinitions);
    // 1,022 constants; two pushes, a sum and the store of C, which has slot 1,023
    let most = two_each(511) + "C=A0+B510\n";
    let mut program = vec![LENT; PROGRAM_ROOM];
    let verdict = translate(most.as_bytes(), &mut [0; FAULT_ROOM], &mut program);
    assert_eq!(verdict, Verdict::Translated { records: 1022 + 4 });
    let program = &program[..verdict.count() * RECORD_BYTES];
    assert_eq!(program[1025 * RECORD_BYTES..][..4], [13, 0, 255, 3]);

    let (mut values, mut derivs) = ([7.0; SLOTS + 1], [7.0; SLOTS + 1]);
    assert_eq!(evaluate(program, &mut values, &mut derivs), Answer::Done);
    assert_eq!(values[1021..], [1.0, 2.0, 3.0, 7.0]);
    assert!(derivs.iter().all(|d| *d == 7.0));
}

#[test]
fn fault_list_comes_first() {
    assert_eq!(FAULT_ROOM, 4096);
    let (mut faults, mut program) = ([LENT; FAULT_ROOM], [LENT; 64]);
    for text in [&b"A=1\n"[..], b"A=", &repeated("*", 32_769)] {
        assert_eq!(translate(text, &mut faults[1..], &mut program), Verdict::FaultListShort);
    }
    assert!(faults.iter().chain(&program).all(|b| *b == LENT));
}

#[test]
fn faults() {
    let level = |n: usize| format!("A={}1{}", "(".repeat(n), ")".repeat(n));
    statement_faults(&[
        ("A=1...", &[(1, 11, 1, 6)]),
        ("A=1...\n+1...\n+1...\n+1...\n+1\nB=1", &[(1, 12, 1, 1)]),
        (&format!("A=1{}", " ".repeat(70)), &[(1, 13, 1, 1)]),
        ("A=1;B=2\na=1", &[(1, 14, 1, 4), (2, 14, 2, 1)]),
        ("ABCDEFG=1", &[(1, 15, 1, 1)]),
        ("A=2X\nB=1E\nC=1E100", &[(1, 16, 1, 3), (2, 16, 2, 3), (3, 16, 3, 3)]),
        (
            "A=1E23\nB=0.1E-22\nC=1.000000000000000",
            &[(1, 17, 1, 3), (2, 17, 2, 3), (3, 17, 3, 3)],
        ),
        (
            "Q=K*\nA=TIME*-2\nTIME=1",
            &[(1, 18, 1, 4), (2, 18, 2, 8), (3, 18, 3, 1)],
        ),
        (&level(17), &[(1, 19, 1, 19)]),
    ]);
    assert_eq!(translated(level(16).as_bytes()).0, Verdict::Translated { records: 2 });

    // the place of each is the statement's first byte
    let cases: Vec<(&str, Vec<(u16, u8)>)> = vec![
        ("CONST A=1,A=2", vec![(1, 21)]),
        ("A=1\nB=C\nA=2", vec![(3, 21)]),
        ("A=B+1", vec![(1, 22)]),
        ("X=INTGRL(Y,1)\nY=2", vec![(1, 23)]),
        ("X=INTGRL(Y,1)\nY=Z", vec![(1, 23), (2, 22)]),
        ("A=A+1", vec![(1, 24)]),
        ("A=B\nB=A\nC=1", vec![(1, 24), (2, 24)]),
        ("A=B\nB=A\nD=A", vec![(1, 24), (2, 24), (3, 24)]),
        ("PROCED Q=V(U)\nQ=U\nENDPRO\nU=Q", vec![(1, 24), (4, 24)]),
        ("PROCED Q=V(U)\nQ=U\nU=1", vec![(1, 25)]),
        ("U=1\nPROCED Q=V(U)\nT=U\nENDPRO", vec![(2, 26)]),
        ("U=1\nPROCED Q=V(U)\n Q=...\n Q+U\nENDPRO", vec![(3, 26)]),
    ];
    for (text, wanted) in cases {
        let (verdict, faults) = translated(text.as_bytes());
        let wanted: Vec<Listed> = wanted.into_iter().map(|(line, code)| (line, code, line, 1)).collect();
        assert_eq!(verdict, Verdict::ModelFaults { faults: wanted.len() }, "{text}");
        assert_eq!(faults, wanted, "{text}");
    }
}

fn statement_faults(cases: &[(&str, &[Listed])]) {
    for (text, wanted) in cases {
        let (verdict, faults) = translated(text.as_bytes());
        assert_eq!(verdict, Verdict::StatementFaults { faults: wanted.len() }, "{text}");
        assert_eq!(faults, *wanted, "{text}");
    }
}

#[test]
fn places() {
    let deep = "(".repeat(16);
    statement_faults(&[
        // 11: the last byte of the last card, spaces behind the dots included, and not of a comment
        ("A=3...\n*2", &[(1, 11, 1, 6)]),
        ("A=3...  \n* C\n*\n", &[(1, 11, 1, 8)]),
        ("A=1...\n* C\n +2 ...\n", &[(1, 11, 3, 7)]),
        // columns count bytes, of which this letter has two
        ("A=\u{b5}...", &[(1, 11, 1, 7)]),
        // 12 and 13: the first byte, also if it is a space; the long line is the second
        ("  A=1...\n+1...\n+1...\n+1...\n+1", &[(1, 12, 1, 1)]),
        (&format!("\n  A=1...\n+1{}", " ".repeat(71)), &[(2, 13, 2, 1)]),
        // 14 to 17: the token, on the card where it stands
        ("A=1...\n* C\n  +B_1", &[(1, 14, 3, 5)]),
        ("A=1...\n* C\n  +ABCDEFG", &[(1, 15, 3, 4)]),
        ("A=1...\n +.5.5", &[(1, 16, 2, 3)]),
        ("A=1+...\n1E23", &[(1, 17, 2, 1)]),
        // 18: the token, or at an early end the last byte of the last card
        ("A=(1...\n * *2)", &[(1, 18, 2, 4)]),
        ("A=(1,2)", &[(1, 18, 1, 5)]),
        ("B=(1  ", &[(1, 18, 1, 6)]),
        ("A=1+...\n* C\n\nB=1", &[(1, 18, 3, 1)]),
        ("A=INSW(1,...\n  2 ", &[(1, 18, 2, 4)]),
        // 18: no tokens
        ("...\n   ", &[(1, 18, 2, 3)]),
        ("  ...\n\n", &[(1, 18, 2, 1)]),
        // 19: the parenthesis, of a call too
        (&format!("A={deep}INSW(1"), &[(1, 19, 1, 23)]),
        (&format!("A={deep}...\n* C\n  INSW ("), &[(1, 19, 3, 8)]),
    ]);
}

#[test]
fn fault_bytes() {
    let list = [44, 1, 18, 0, 46, 1, 72, 0, 0, 4, 13, 0, 0, 4, 1, 0];
    let faults: Vec<Fault> = faults_of(Verdict::StatementFaults { faults: 2 }, &list).collect();
    let fault = |line, code, place_line, column| Fault {
        line,
        code,
        zero: 0,
        place_line,
        column,
    };
    assert_eq!(
        faults,
        [
            fault(300, Code::Grammar, 302, 72),
            fault(1024, Code::LineTooLong, 1024, 1)
        ]
    );
    assert_eq!(
        faults[0].to_string(),
        "302:72: 18, the grammar: no statement goes on like this (statement of line 300)"
    );
    assert_eq!(
        faults[1].to_string(),
        "1024:1: 13, a line of the statement, comments aside, has more than 72 bytes"
    );
}

/// A record of a kind and a slot; line and value are 0.
fn record(kind: u8, slot: u16) -> [u8; RECORD_BYTES] {
    let mut record = [0; RECORD_BYTES];
    record[0] = kind;
    record[2..4].copy_from_slice(&slot.to_le_bytes());
    record
}

/// What all three say of a program; a refusal writes nothing.
fn answered(program: &[u8]) -> Answer {
    let (mut values, mut derivs) = ([7.0; SLOTS], [7.0; SLOTS]);
    let answer = evaluate(program, &mut values, &mut derivs);
    if answer != Answer::Done {
        assert_eq!(start(program, &mut values, &mut derivs), answer);
        assert_eq!(step(program, 1.0, &mut values, &mut derivs), answer);
        assert!(values.iter().chain(&derivs).all(|x| *x == 7.0));
    }
    answer
}

#[test]
fn answers() {
    let program = record(1, 5);
    assert_eq!(answered(&program), Answer::Done);
    assert_eq!(SLOTS, 1024);
    let (mut values, mut derivs) = ([7.0; SLOTS], [7.0; SLOTS]);
    assert_eq!(evaluate(&program, &mut values[1..], &mut derivs), Answer::RoomShort);
    assert_eq!(evaluate(&program, &mut values, &mut derivs[1..]), Answer::RoomShort);
    assert_eq!(start(&program, &mut values[1..], &mut derivs), Answer::RoomShort);
    assert_eq!(step(&program, 1.0, &mut values, &mut derivs[1..]), Answer::RoomShort);
    assert!(values.iter().chain(&derivs).all(|x| *x == 7.0));

    assert_eq!(answered(&program[1..]), Answer::BadLength);
    let pairs = [record(3, 0), record(4, 0)].concat();
    assert_eq!(answered(&pairs.repeat(MOST_RECORDS / 2 + 1)), Answer::BadLength);
    // the first push after the sixty-seventh is bad
    assert_eq!(
        answered(&pairs.repeat(MOST_RECORDS / 2)),
        Answer::BadRecord { record: 67 }
    );

    assert_eq!(answered(&record(1, 1023)), Answer::Done);
    assert_eq!(answered(&record(1, 1024)), Answer::BadRecord { record: 0 });
    assert_eq!(answered(&record(16, 0)), Answer::BadRecord { record: 0 });
    // kind 15 stores again to a slot that kind 13 set
    let stored = [record(3, 0), record(13, 1)].concat();
    let again = [record(3, 0), record(15, 1)].concat();
    assert_eq!(answered(&[stored.clone(), again.clone()].concat()), Answer::Done);
    assert_eq!(answered(&again), Answer::BadRecord { record: 1 });
    assert_eq!(
        answered(&[record(1, 1).to_vec(), again].concat()),
        Answer::BadRecord { record: 2 }
    );
    assert_eq!(
        answered(&[stored, record(15, 1).to_vec()].concat()),
        Answer::BadRecord { record: 2 }
    );
    assert_eq!(
        answered(&[record(1, 1), record(1, 1)].concat()),
        Answer::BadRecord { record: 1 }
    );
    assert_eq!(
        answered(&[record(1, 1), record(3, 0), record(1, 2)].concat()),
        Answer::BadRecord { record: 2 }
    );
    assert_eq!(answered(&record(4, 1)), Answer::BadRecord { record: 0 });
    assert_eq!(answered(&record(3, 0)), Answer::BadEnd);
    assert_eq!(answered(&record(2, 1)), Answer::BadEnd);
}

#[test]
fn empty_slices() {
    assert_eq!(translate(&[], &mut [], &mut []), Verdict::FaultListShort);
    assert_eq!(
        translate(&[], &mut [0; FAULT_ROOM], &mut []),
        Verdict::Translated { records: 0 }
    );
    assert_eq!(
        translate(b"A=1", &mut [0; FAULT_ROOM], &mut []),
        Verdict::ProgramTooLarge
    );
    assert_eq!(answered(&[]), Answer::Done);
    assert_eq!(evaluate(&[], &mut [], &mut []), Answer::RoomShort);
    assert_eq!(start(&[], &mut [], &mut []), Answer::RoomShort);
    assert_eq!(step(&[], 1.0, &mut [], &mut []), Answer::RoomShort);
}

#[test]
fn words() {
    assert_eq!(
        Verdict::Translated { records: 15 }.to_string(),
        "verdict 0: translated, 15 records"
    );
    let sizes = [
        (
            Verdict::FaultListShort,
            "1: the fault list lent has fewer than 4096 bytes",
        ),
        (Verdict::TextTooLong, "2: the text has more than 32768 bytes"),
        (Verdict::TooManyLines, "3: the text has more than 1024 lines"),
        (Verdict::TooManyStatements, "4: the text has more than 512 statements"),
        (
            Verdict::TooManyDefinitions,
            "6: the text has more than 1023 definitions",
        ),
    ];
    for (verdict, words) in sizes {
        assert_eq!(verdict.to_string(), format!("verdict {words}"));
    }
    assert_eq!(
        Answer::RoomShort.to_string(),
        "answer 1: values or derivatives have fewer than 1024 places"
    );
    assert_eq!(Answer::BadRecord { record: 3 }.to_string(), "answer 3: record 3 is bad");
    assert_eq!(Code::Undefined.to_string(), "22, a name that nothing defines");
    let numbers: Vec<u8> = Code::ALL.iter().map(|c| *c as u8).collect();
    assert_eq!(numbers, [11, 12, 13, 14, 15, 16, 17, 18, 19, 21, 22, 23, 24, 25, 26]);
    assert_eq!(Code::from_number(20), None);
}
