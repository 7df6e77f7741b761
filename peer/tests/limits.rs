//! Each limit of the paper, at it and one past it.

mod common;
use common::*;
use floesedge_peer::{evaluate, judge_reason, listing, start, step, translate, Verdict};

#[test]
fn lines() {
    assert_eq!(bare(&[b'\n'; 513]), 0);
    assert_eq!(bare(&[b'\n'; 1024]), 0);
    assert_eq!(bare(&[b'\n'; 1025]), 3);
    let mut text = vec![b'\n'; 1024];
    text.push(b' ');
    assert_eq!(bare(&text), 3);
    let mut text = vec![b'\n'; 1023];
    text.push(b' ');
    assert_eq!(bare(&text), 0);
}

#[test]
fn bytes() {
    let comment = |n: usize| [b"*".as_slice(), &vec![b'x'; n - 1]].concat();
    assert_eq!(bare(&comment(16_385)), 0);
    assert_eq!(bare(&comment(32_768)), 0);
    assert_eq!(bare(&comment(32_769)), 2);
    // The size comes before the lines.
    assert_eq!(bare(&vec![b'\n'; 32_768]), 3);
    assert_eq!(bare(&vec![b'\n'; 32_769]), 2);
}

/// Statements that assign N0, N1, ..
fn assignments(count: usize) -> String {
    (0..count).map(|i| format!("N{i}=1\n")).collect()
}

#[test]
fn statements() {
    assert_eq!(good(&assignments(257)).len(), 257 * 32);
    let program = good(&assignments(512));
    assert_eq!(program.len(), 512 * 32);
    assert_eq!(program[1023 * 16..], record(13, 512, 512, 0.0));
    assert_eq!(bare(assignments(513).as_bytes()), 4);
    let faulty: String = "(\n".repeat(512);
    let all: Vec<_> = (1..=512).map(|line| (line, 18)).collect();
    assert_eq!(refused(&faulty, 5), all);
    assert_eq!(bare("(\n".repeat(513).as_bytes()), 4);
}

#[test]
fn units() {
    // Each uses the next one, and the last one the first: all are unsortable.
    let chain = |last: &str| -> String {
        let uses = (0..511).map(|i| format!("N{i}=N{}\n", i + 1));
        format!("{}N511={last}\n", uses.collect::<String>())
    };
    let all: Vec<_> = (1..=512).map(|line| (line, 24)).collect();
    assert_eq!(refused(&chain("N0"), 7), all);
    // With a number there, they stand in reverse.
    let lines = (1..=512).rev().map(|line| format!("{line}\n"));
    let expected = format!("OK 1024\n{}", lines.collect::<String>());
    assert_eq!(listing(chain("1").as_bytes()), expected.as_bytes());
}

/// Constants over as many statements as they need, names from a list.
fn constants(names: &[String]) -> String {
    let lists = names.chunks(8).map(|chunk| {
        let list: Vec<_> = chunk.iter().map(|name| format!("{name}=1")).collect();
        format!("CONST {}\n", list.join(","))
    });
    lists.collect()
}

#[test]
fn definitions() {
    let mut names: Vec<_> = (0..1023).map(|i| format!("N{i}")).collect();
    assert_eq!(good(&constants(&names[..256])).len(), 256 * 16);
    // Eight to a line: the last seven stand in line 128.
    let program = good(&constants(&names));
    assert_eq!(program.len(), 1023 * 16);
    assert_eq!(program[255 * 16..256 * 16], record(1, 256, 32, 1.0));
    assert_eq!(program[1022 * 16..], record(1, 1023, 128, 1.0));
    names.push("N1023".into());
    assert_eq!(bare(constants(&names).as_bytes()), 6);
    // Doubles are counted, and come after.
    names[1023] = "N0".into();
    assert_eq!(bare(constants(&names).as_bytes()), 6);
    names.remove(1022);
    assert_eq!(refused(&constants(&names), 7), [(128, 21)]);
}

#[test]
fn the_last_slot() {
    // 1,021 constants in 128 lines, then a state and what it is made of.
    let names: Vec<_> = (0..1021).map(|i| format!("N{i}")).collect();
    let text = format!("{}X=INTGRL(N1020,Y)\nY=X+N0\n", constants(&names));
    let program = good(&text);
    let behind = records(&[
        (2, 1022, 129, 1.0),
        (4, 1022, 130, 0.0),
        (4, 1, 130, 0.0),
        (5, 0, 130, 0.0),
        (13, 1023, 130, 0.0),
        (4, 1023, 129, 0.0),
        (14, 1022, 129, 0.0),
    ]);
    assert_eq!(program[1021 * 16..], behind);
    let (mut values, mut derivs) = (vec![-7.0; SLOTS], vec![-8.0; SLOTS]);
    assert_eq!(start(&program, &mut values, &mut derivs).number, 0);
    assert_eq!(step(&program, 0.5, &mut values, &mut derivs).number, 0);
    // X is 1 and Y is 2, so X becomes 1 + 0.5 * 2.
    assert_eq!(values[1021..], [1.0, 2.0, 2.0]);
    assert_eq!(derivs[1021..], [-8.0, 2.0, -8.0]);
}

#[test]
fn line_bytes() {
    let spaces = |n: usize| " ".repeat(n);
    good(&format!("A=1{}\n", spaces(69)));
    assert_eq!(refused(&format!("A=1{}\n", spaces(70)), 5), [(1, 13)]);
    good(&format!("A=1...{}\n\n", spaces(66)));
    assert_eq!(refused(&format!("A=1...{}\n\n", spaces(67)), 5), [(1, 13)]);
    good(&format!("A=1...\n{}\n", spaces(72)));
    assert_eq!(refused(&format!("A=1...\n{}\n", spaces(73)), 5), [(1, 13)]);
    // Comments and blanks are passed over at any length, comments also inside.
    good(&format!("{}\n*{}\nA=1", spaces(100), spaces(100)));
    good(&format!("A=1...\n*{}\n+1", spaces(99)));
    // Lines before bytes, bytes before tokens.
    let long = format!("A=#{}...\n", spaces(70));
    assert_eq!(refused(&long, 5), [(1, 11)]);
    assert_eq!(refused(&format!("{long}\n"), 5), [(1, 13)]);
    assert_eq!(refused(&format!("{}\n", long.repeat(4)), 5), [(1, 12)]);
    assert_eq!(refused(&format!("{}\n", long.repeat(3)), 5), [(1, 13)]);
}

#[test]
fn statement_lines() {
    good("A=1...\n...\n...\n\n");
    assert_eq!(refused("A=1...\n...\n...\n...\n\n", 5), [(1, 12)]);
    // Comments are not counted.
    good("A=1...\n*\n...\n*\n*...\n...\n*\n\n");
    assert_eq!(refused("A=1...\n*\n...\n...\n...\n*\n\n", 5), [(1, 12)]);
}

#[test]
fn name_letters() {
    good("ABCDE6=1");
    assert_eq!(refused("ABCDE67=1", 5), [(1, 15)]);
    assert_eq!(refused("A=INTGRLX(1,1)", 5), [(1, 15)]);
}

#[test]
fn levels() {
    let nested = |n: usize| format!("A={}1{}", "(".repeat(n), ")".repeat(n));
    good(&nested(16));
    assert_eq!(refused(&nested(17), 5), [(1, 19)]);
    assert_eq!(refused(&format!("A={}#", "(".repeat(17)), 5), [(1, 14)]);
    assert_eq!(refused(&format!("A=){}", "(".repeat(17)), 5), [(1, 18)]);
}

/// A statement of 256 records: 128 ones with plus between, over four lines.
fn long_sum(name: usize) -> String {
    let part = "+1".repeat(32);
    format!(
        "N{name:02}={}...\n{part}...\n{part}...\n{part}\n",
        &part[1..]
    )
}

#[test]
fn records_of_a_program() {
    let text: String = (0..16).map(long_sum).collect();
    assert_eq!(good(&text).len(), 65_536);
    assert_eq!(bare(format!("{text}CONST Z=1\n").as_bytes()), 8);
    // A model fault comes before.
    assert_eq!(refused(&format!("{text}Z=Z\n"), 7), [(65, 24)]);
}

#[test]
fn room() {
    let mut faults = vec![7; 4096];
    for (room, number, count) in [(239, 8, 0), (240, 0, 15), (255, 0, 15), (0, 8, 0)] {
        let mut program = vec![9; room];
        let verdict = translate(TANK.as_bytes(), &mut faults, &mut program);
        assert_eq!(verdict, Verdict { number, count });
        assert!(program[count as usize * 16..].iter().all(|&byte| byte == 9));
    }
    assert_eq!(
        translate(b"", &mut faults, &mut []),
        Verdict {
            number: 0,
            count: 0
        }
    );
    assert_eq!(faults, vec![7; 4096]);
}

#[test]
fn fault_list() {
    for room in [0, 8, 2047, 2048, 4088, 4095] {
        let mut faults = vec![7; room];
        let mut program = vec![9; 64];
        let verdict = translate(&[0; 40_000], &mut faults, &mut program);
        assert_eq!(
            verdict,
            Verdict {
                number: 1,
                count: 0
            }
        );
        assert_eq!(faults, vec![7; room]);
        assert_eq!(program, vec![9; 64]);
    }
    assert_eq!(translate(&[0; 40_000], &mut [7; 4096], &mut []).number, 2);
}

#[test]
fn stack_of_67() {
    // Four values wait at each of 16 levels, and three stand at the deepest.
    let open = "1+1*LIMIT(0,0,";
    let text: String = format!("A={}1+1*1{}", open.repeat(16), ")".repeat(16));
    // 247 bytes, cut into four lines between tokens.
    let cut = [&text[..62], &text[62..124], &text[124..180], &text[180..]];
    let program = good(&cut.join("...\n"));
    let mut highest = 0;
    let mut height = 0usize;
    for record in program.chunks_exact(16) {
        match record[0] {
            3 | 4 => height += 1,
            5..=8 | 12 | 13 => height -= 1,
            10 | 11 => height -= 2,
            _ => {}
        }
        highest = highest.max(height);
    }
    assert_eq!(highest, 67);
    assert_eq!(judge_reason(&program), Ok(()));
    let (mut values, mut derivs) = (vec![0.0; SLOTS], vec![0.0; SLOTS]);
    assert_eq!(evaluate(&program, &mut values, &mut derivs).number, 0);
    // The innermost 2 is limited to 0, so each level gives 1 + 1 * 0.
    assert_eq!(values[1], 1.0);
}
