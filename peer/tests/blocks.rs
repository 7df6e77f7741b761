//! Procedural blocks, worked out by hand.

mod common;
use common::*;
use floesedge_peer::{evaluate, listing};

/// A text of these lines.
fn deck(lines: &[&str]) -> String {
    lines.join("\n")
}

/// The faults of the model of these lines.
fn faults(lines: &[&str]) -> Vec<(u16, u8)> {
    refused(&deck(lines), 7)
}

/// What the listing program prints for these lines.
fn listed(lines: &[&str]) -> String {
    String::from_utf8(listing(deck(lines).as_bytes())).unwrap()
}

/// Two outputs, one set twice, and an inner name.
const VALVE: [&str; 10] = [
    "CONST K=2",
    "PROCED A,B=VALVE(C,D)",
    "T=C-K",
    "A=T*D",
    "B=A/K",
    "A=-A+B",
    "ENDPRO",
    "C=TIME",
    "D=3",
    "X=INTGRL(1,A-B)",
];

#[test]
fn two_outputs_one_set_twice() {
    // Slots: K 1, T 2, A 3, B 4, C 5, D 6, X 7. The block waits for 8 and 9.
    let expected = records(&[
        (1, 1, 1, 2.0),
        (2, 7, 10, 1.0),
        (4, 0, 8, 0.0),
        (13, 5, 8, 0.0),
        (3, 0, 9, 3.0),
        (13, 6, 9, 0.0),
        (4, 5, 3, 0.0),
        (4, 1, 3, 0.0),
        (6, 0, 3, 0.0),
        (13, 2, 3, 0.0),
        (4, 2, 4, 0.0),
        (4, 6, 4, 0.0),
        (7, 0, 4, 0.0),
        (13, 3, 4, 0.0),
        (4, 3, 5, 0.0),
        (4, 1, 5, 0.0),
        (8, 0, 5, 0.0),
        (13, 4, 5, 0.0),
        (4, 3, 6, 0.0),
        (9, 0, 6, 0.0),
        (4, 4, 6, 0.0),
        (5, 0, 6, 0.0),
        (15, 3, 6, 0.0),
        (4, 3, 10, 0.0),
        (4, 4, 10, 0.0),
        (6, 0, 10, 0.0),
        (14, 7, 10, 0.0),
    ]);
    let program = good(&deck(&VALVE));
    assert_eq!(program, expected);
    assert_eq!(listed(&VALVE), "OK 27\n8\n9\n2\n10\n");
    // At time 5: C = 5, T = 3, A = 9, B = 4.5, then A = -9 + 4.5, X' = -9.
    let (mut values, mut derivs) = (vec![-7.0; SLOTS], vec![-8.0; SLOTS]);
    values[0] = 5.0;
    assert_eq!(evaluate(&program, &mut values, &mut derivs).number, 0);
    assert_eq!(
        values[..9],
        [5.0, 2.0, 3.0, -4.5, 4.5, 5.0, 3.0, -7.0, -7.0]
    );
    assert_eq!(derivs[6..9], [-8.0, -9.0, -8.0]);
}

#[test]
fn middle_of_a_chain() {
    let lines = ["E=B+1", "PROCED B=F(A)", "B=A*2", "ENDPRO", "A=TIME"];
    let expected = records(&[
        (4, 0, 5, 0.0),
        (13, 3, 5, 0.0),
        (4, 3, 3, 0.0),
        (3, 0, 3, 2.0),
        (7, 0, 3, 0.0),
        (13, 2, 3, 0.0),
        (4, 2, 1, 0.0),
        (3, 0, 1, 1.0),
        (5, 0, 1, 0.0),
        (13, 1, 1, 0.0),
    ]);
    assert_eq!(good(&deck(&lines)), expected);
    assert_eq!(listed(&lines), "OK 10\n5\n2\n1\n");
}

#[test]
fn order_of_units() {
    // A block stands at its header's line: 5 waits for 2, and 1 for 5.
    let lines = [
        "Z=B",
        "PROCED A=F(C)",
        "A=C",
        "ENDPRO",
        "PROCED B=G(A)",
        "B=A",
        "ENDPRO",
        "CONST C=1",
        "Y=2",
    ];
    assert_eq!(listed(&lines), "OK 9\n2\n5\n1\n9\n");
    // An input that nothing inside uses is waited for all the same.
    let lines = ["PROCED P=F(Z)", "P=1", "ENDPRO", "Y=1", "Z=2"];
    assert_eq!(listed(&lines), "OK 6\n4\n5\n1\n");
    // A state and the time are known without order, and are no inputs here.
    let lines = [
        "X=INTGRL(0,A)",
        "PROCED A=F(K)",
        "A=-X*TIME*K",
        "ENDPRO",
        "CONST K=1",
    ];
    assert_eq!(listed(&lines), "OK 11\n2\n1\n");
    let lines = ["X=INTGRL(0,A)", "PROCED A=F(X)", "A=-X", "ENDPRO"];
    assert_eq!(listed(&lines), "OK 6\n2\n1\n");
}

#[test]
fn inside_nothing_is_sorted() {
    // Each of A and B uses the other one in turn: no loop, and no order.
    let lines = [
        "CONST C=1",
        "PROCED A,B=F(C)",
        "A=C",
        "B=A",
        "A=B+A",
        "B=A",
        "ENDPRO",
    ];
    let expected = records(&[
        (1, 1, 1, 1.0),
        (4, 1, 3, 0.0),
        (13, 2, 3, 0.0),
        (4, 2, 4, 0.0),
        (13, 3, 4, 0.0),
        (4, 3, 5, 0.0),
        (4, 2, 5, 0.0),
        (5, 0, 5, 0.0),
        (15, 2, 5, 0.0),
        (4, 2, 6, 0.0),
        (15, 3, 6, 0.0),
    ]);
    assert_eq!(good(&deck(&lines)), expected);
}

#[test]
fn headers_over_lines() {
    // The header is line 2, the assignments 6 and 9, the last one over two lines.
    let lines = [
        "CONST C=1,D=2",
        "  PROCED A ...",
        ",B=F(C...",
        "*",
        "* A COMMENT",
        "A=C",
    ];
    assert_eq!(refused(&deck(&lines), 5), [(2, 18)]);
    let lines = [
        "CONST C=1,D=2",
        "  PROCED A ...",
        ",B=F(C...",
        ",D)",
        "* A COMMENT",
        "  A=C",
        "",
        "*",
        "B=D...",
        " *C",
        "   ENDPRO",
    ];
    let expected = records(&[
        (1, 1, 1, 1.0),
        (1, 2, 1, 2.0),
        (4, 1, 6, 0.0),
        (13, 3, 6, 0.0),
        (4, 2, 9, 0.0),
        (4, 1, 9, 0.0),
        (7, 0, 9, 0.0),
        (13, 4, 9, 0.0),
    ]);
    assert_eq!(good(&deck(&lines)), expected);
    assert_eq!(listed(&lines), "OK 8\n2\n");
}

#[test]
fn statement_faults_come_first() {
    assert_eq!(refused("PROCED A=F(TIME)\nENDPRO", 5), [(1, 18)]);
    assert_eq!(
        refused("PROCED A=VALVES7(C)\nENDPRO X", 5),
        [(1, 15), (2, 18)]
    );
    assert_eq!(refused("ENDPROC", 5), [(1, 15)]);
    assert_eq!(refused("ENDPRO...", 5), [(1, 11)]);
    assert_eq!(refused("PROCED=1\nA=ENDPRO", 5), [(1, 18), (2, 18)]);
    assert_eq!(refused("PROCED A=F(C,)#", 5), [(1, 14)]);
    assert_eq!(refused("ENDPRO\nA=", 5), [(2, 18)]);
    let long = format!("ENDPRO{}", " ".repeat(67));
    assert_eq!(refused(&long, 5), [(1, 13)]);
}

const H: &str = "PROCED A=F(C)";
const E: &str = "ENDPRO";

#[test]
fn pairing() {
    assert_eq!(faults(&[H]), [(1, 25)]);
    assert_eq!(faults(&[E]), [(1, 25)]);
    assert_eq!(faults(&[H, H, E]), [(1, 25)]);
    assert_eq!(faults(&[H, H, E, E]), [(2, 25)]);
    assert_eq!(faults(&[H, E, E]), [(3, 25)]);
    assert_eq!(faults(&[E, H]), [(1, 25), (2, 25)]);
    assert_eq!(faults(&[H, H]), [(1, 25), (2, 25)]);
    assert_eq!(faults(&[E, E]), [(1, 25), (2, 25)]);
    assert_eq!(faults(&[H, H, E, H, E]), [(1, 25)]);
    assert_eq!(faults(&[H, H, E, H, E, E]), [(2, 25), (4, 25)]);
    assert_eq!(faults(&[H, H, H, E, E, E]), [(2, 25), (3, 25)]);
    assert_eq!(faults(&[H, H, H, E, E]), [(1, 25), (3, 25)]);
    assert_eq!(faults(&[H, E, E, H, E]), [(3, 25)]);
}

#[test]
fn pairing_comes_before_all_other_model_faults() {
    // Line 2 would be 26, 4 would be 21, 5 would be 22.
    let lines = [H, "A=Q", E, "A=1", "B=Y", E];
    assert_eq!(faults(&lines), [(6, 25)]);
    // A header inside a pair is 25 and no 26.
    let lines = ["CONST C=1", H, "A=C", "PROCED B=G(C)", "B=C", E, "A=A", E];
    assert_eq!(faults(&lines), [(4, 25)]);
}

#[test]
fn nothing_inside() {
    assert_eq!(faults(&["CONST C=1", H, E]), [(2, 26)]);
    assert_eq!(faults(&[H, E]), [(1, 26)]);
}

#[test]
fn no_assignment_inside() {
    let lines = ["CONST C=1", H, "X=INTGRL(0,C)", "A=X", E];
    assert_eq!(faults(&lines), [(3, 26)]);
    let lines = ["CONST C=1", H, "CONST K=1,L=2", "A=K+L", E];
    assert_eq!(faults(&lines), [(3, 26)]);
    // What they define is known above them too, and in another block.
    let lines = [H, "A=X+K", "X=INTGRL(0,Q)", "PARAM K=1", E];
    assert_eq!(faults(&lines), [(3, 26), (4, 26)]);
    let lines = ["PROCED B=G(C)", "B=X", E, H, "A=C", "X=INTGRL(0,1)", E];
    assert_eq!(faults(&lines), [(6, 26)]);
    // An output that only a state or a constant defines is not assigned.
    assert_eq!(faults(&[H, "A=INTGRL(0,1)", E]), [(1, 26), (2, 26)]);
    assert_eq!(faults(&[H, "INCON A=1", E]), [(1, 26), (2, 26)]);
}

#[test]
fn assigning_an_input() {
    assert_eq!(faults(&["CONST C=1", H, "C=2", "A=C", E]), [(3, 26)]);
    let lines = ["PROCED A=F(D,C)", "A=1", "C=2", "D=C", "C=3", E];
    assert_eq!(faults(&lines), [(3, 26), (4, 26), (5, 26)]);
}

#[test]
fn names_that_may_not_be_used_inside() {
    // An assignment outside, above or below, that is no input.
    assert_eq!(faults(&["CONST C=1", "Q=1", H, "A=Q+C", E]), [(4, 26)]);
    assert_eq!(faults(&["CONST C=1", H, "A=Q+C", E, "Q=1"]), [(3, 26)]);
    // The output and the inner name of another block, and its input.
    let other = ["CONST D=1", "P=1", "PROCED B=G(P)", "T=P", "B=T", E];
    for used in ["B", "T", "P"] {
        let last = format!("A=D*{used}");
        let lines = [&other[..], &["PROCED A=F(D)", &last, E]].concat();
        assert_eq!(faults(&lines), [(8, 26)], "{used}");
    }
    // What nothing defines, and the block's own name.
    assert_eq!(faults(&["CONST C=1", H, "A=Q", E]), [(3, 26)]);
    assert_eq!(faults(&["CONST C=1", H, "A=F", E]), [(3, 26)]);
    // A name that is set only below, or by the statement itself.
    let lines = ["CONST C=1", H, "T=U", "U=C", "A=T", E];
    assert_eq!(faults(&lines), [(3, 26)]);
    assert_eq!(faults(&["CONST C=1", H, "A=A+1", E]), [(3, 26)]);
    good(&deck(&["CONST C=1", H, "A=1", "A=A+1", E]));
    // A name set by a statement with a 26 may be used below it.
    let lines = ["CONST C=1", "Q=1", H, "T=Q", "A=T", E];
    assert_eq!(faults(&lines), [(4, 26)]);
    // A name that is a constant or a state somewhere may be used, doubled or not.
    let lines = ["CONST C=1,K=2", "K=3", H, "A=K", E];
    assert_eq!(faults(&lines), [(2, 21)]);
    let lines = ["K=3", H, "A=K", E, "K=INTGRL(0,1)", "CONST C=1"];
    assert_eq!(faults(&lines), [(5, 21)]);
}

#[test]
fn outputs() {
    // Unassigned inside, though assigned outside.
    let lines = ["CONST C=1", "PROCED A,B=F(C)", "A=C", E, "B=1"];
    assert_eq!(faults(&lines), [(2, 26)]);
    // Named twice.
    let lines = ["CONST C=1", "PROCED A,B,A=F(C)", "A=C", "B=C", E];
    assert_eq!(faults(&lines), [(2, 26)]);
    // An input too: assigned inside or not.
    assert_eq!(faults(&["PROCED C=F(C)", "C=1", E]), [(2, 26)]);
    assert_eq!(faults(&["PROCED A,C=F(C)", "A=C", E]), [(1, 26)]);
    // One fault for a header, and that before those inside.
    let lines = ["PROCED A,A,B=F(C)", "A=Q", "CONST K=1,L=1", E];
    assert_eq!(faults(&lines), [(1, 26), (2, 26), (3, 26)]);
    // Two blocks, each with its own faults, in line order.
    let lines = [H, "B=Q", E, "PROCED D=G(C)", "E=Q", "C=1", E];
    assert_eq!(
        faults(&lines),
        [(1, 26), (2, 26), (4, 26), (5, 26), (6, 26)]
    );
    // Two blocks with the same output: no 26, but 21.
    let lines = ["CONST C=1", H, "A=C", E, H, "A=C", E];
    assert_eq!(faults(&lines), [(6, 21)]);
}

#[test]
fn an_input_named_twice_is_allowed() {
    let lines = ["CONST C=1", "PROCED A=F(C,C)", "A=C", E];
    let expected = records(&[(1, 1, 1, 1.0), (4, 1, 3, 0.0), (13, 2, 3, 0.0)]);
    assert_eq!(good(&deck(&lines)), expected);
}

#[test]
fn faults_inside_come_before_doubles() {
    let lines = ["CONST C=1,C=2", H, "A=Q", E, "A=Y"];
    assert_eq!(faults(&lines), [(3, 26)]);
}

#[test]
fn doubles() {
    // Outside before and after, of an output and of an inner name.
    let block = [H, "T=C", "A=T", E];
    let before = |line| [&["CONST C=1", line], &block[..]].concat();
    assert_eq!(faults(&before("A=1")), [(5, 21)]);
    assert_eq!(faults(&before("T=1")), [(4, 21)]);
    assert_eq!(faults(&before("T=INTGRL(0,1)")), [(4, 21)]);
    assert_eq!(faults(&before("CONST A=1,T=1")), [(4, 21), (5, 21)]);
    let after = |line| [&["CONST C=1"], &block[..], &[line]].concat();
    assert_eq!(faults(&after("A=1")), [(6, 21)]);
    assert_eq!(faults(&after("T=Y")), [(6, 21)]);
    assert_eq!(faults(&after("CONST A=1,T=1")), [(6, 21)]);
    // Two blocks that set one name: the second's first setting alone.
    let lines = [
        &["CONST C=1"],
        &block[..],
        &["PROCED B=G(C)", "T=C", "T=T+1", "B=T", "T=B", E],
    ]
    .concat();
    assert_eq!(faults(&lines), [(7, 21)]);
    // A constant set twice inside: the first setting alone.
    let lines = ["CONST C=1,K=2", H, "K=C", "K=K+1", "A=K", E];
    assert_eq!(faults(&lines), [(3, 21)]);
    let lines = [H, "K=C", "K=K+1", "A=K", E, "CONST C=1,K=2"];
    assert_eq!(faults(&lines), [(6, 21)]);
    // Setting again is none.
    let lines = ["CONST C=1", H, "A=C", "A=A", "A=A", E];
    let expected = records(&[
        (1, 1, 1, 1.0),
        (4, 1, 3, 0.0),
        (13, 2, 3, 0.0),
        (4, 2, 4, 0.0),
        (15, 2, 4, 0.0),
        (4, 2, 5, 0.0),
        (15, 2, 5, 0.0),
    ]);
    assert_eq!(good(&deck(&lines)), expected);
    // The block's name defines nothing.
    good(&deck(&["CONST C=1", "PROCED A=C(C)", "A=C", E]));
    good(&deck(&["CONST C=1", "PROCED A=A(C)", "A=C", E]));
    good(&deck(&["CONST C=1", H, "A=C", E, "F=A"]));
}

#[test]
fn undefined_outside() {
    let block = ["CONST C=1", H, "T=C", "A=T", E];
    let with = |lines: &[&'static str]| [&block[..], lines].concat();
    // An inner name, used outside or as an initial value.
    assert_eq!(faults(&with(&["Q=T"])), [(6, 22)]);
    assert_eq!(faults(&with(&["X=INTGRL(0,T)"])), [(6, 22)]);
    assert_eq!(faults(&with(&["X=INTGRL(T,1)"])), [(6, 22)]);
    // The block's name.
    assert_eq!(faults(&with(&["Q=F"])), [(6, 22)]);
    // An input that nothing defines, alone at the header.
    assert_eq!(faults(&[H, "A=C", "A=A+C", E]), [(1, 22)]);
    assert_eq!(faults(&["Q=C", H, "A=C", E]), [(1, 22), (2, 22)]);
    // An input that is an inner name of another block, above or below.
    assert_eq!(faults(&with(&["PROCED B=G(C,T)", "B=T", E])), [(6, 22)]);
    let lines = [&["PROCED B=G(T)", "B=T", E], &block[..]].concat();
    assert_eq!(faults(&lines), [(1, 22)]);
    // An input that is an output of another block, an assignment, a constant or a state.
    good(&deck(&with(&["PROCED B=G(A)", "B=A", E])));
    good(&deck(&with(&["Q=1", "PROCED B=G(Q)", "B=Q", E])));
    good(&deck(&with(&["X=INTGRL(C,1)", "PROCED B=G(X)", "B=X", E])));
}

#[test]
fn initials() {
    let block = ["CONST C=1", H, "T=C", "A=T", E];
    let with = |line: &'static str| [&block[..], &[line]].concat();
    assert_eq!(faults(&with("X=INTGRL(A,1)")), [(6, 23)]);
    assert_eq!(faults(&with("X=INTGRL(A,T)")), [(6, 22)]);
    assert_eq!(faults(&["X=INTGRL(A,1)", H, "A=C", E]), [(1, 23), (2, 22)]);
    // The constant is resolved, though slots and settings part: A is set twice.
    let lines = [H, "A=1", "A=A", E, "CONST C=4", "X=INTGRL(C,A)"];
    let expected = records(&[
        (1, 2, 5, 4.0),
        (2, 3, 6, 4.0),
        (3, 0, 2, 1.0),
        (13, 1, 2, 0.0),
        (4, 1, 3, 0.0),
        (15, 1, 3, 0.0),
        (4, 1, 6, 0.0),
        (14, 3, 6, 0.0),
    ]);
    assert_eq!(good(&deck(&lines)), expected);
}

#[test]
fn loops() {
    // Through a block, at its header alone, and what hangs behind.
    let block = ["PROCED A=F(B)", "T=B", "A=T", E];
    let with = |lines: &[&'static str]| [&block[..], lines].concat();
    assert_eq!(faults(&with(&["B=A"])), [(1, 24), (5, 24)]);
    assert_eq!(
        faults(&with(&["B=A", "D=A", "X=INTGRL(0,D)", "Q=X"])),
        [(1, 24), (5, 24), (6, 24), (7, 24)]
    );
    // Two blocks, and a third behind them; they use 11, which is sound.
    let lines = with(&[
        "PROCED B=G(A,Q)",
        "B=A+Q",
        E,
        "PROCED D=H(A)",
        "D=1",
        E,
        "Q=1",
    ]);
    assert_eq!(faults(&lines), [(1, 24), (5, 24), (8, 24)]);
    // An input that nothing inside uses makes a loop all the same.
    let lines = ["PROCED A=F(B)", "A=1", E, "B=A"];
    assert_eq!(faults(&lines), [(1, 24), (4, 24)]);
    // One output leads back to the block, the other does not.
    let lines = ["PROCED A,D=F(B)", "A=B", "D=1", E, "B=D"];
    assert_eq!(faults(&lines), [(1, 24), (5, 24)]);
    // 22 and 23 come before.
    assert_eq!(faults(&with(&["B=A", "X=INTGRL(A,1)"])), [(6, 23)]);
    assert_eq!(faults(&with(&["B=A+T"])), [(5, 22)]);
}

/// Blocks of one assignment each, behind a constant.
fn small_blocks(count: usize) -> String {
    let blocks = (0..count).map(|i| format!("PROCED A{i}=F(C)\nA{i}=C\nENDPRO\n"));
    format!("CONST C=1\n{}", blocks.collect::<String>())
}

#[test]
fn headers_and_ends_are_statements() {
    // 1 + 170 * 3 statements, and one more; each block has two records.
    let full = format!("{}D=1\n", small_blocks(170));
    assert_eq!(good(&full).len(), (1 + 170 * 2 + 2) * 16);
    let more = |line: &str| format!("{full}{line}\n");
    assert_eq!(bare(more("ENDPRO").as_bytes()), 4);
    assert_eq!(bare(more("PROCED B=F(C)").as_bytes()), 4);
    let ends = "ENDPRO\n".repeat(512);
    let all: Vec<_> = (1..=512).map(|line| (line, 25)).collect();
    assert_eq!(refused(&ends, 7), all);
    assert_eq!(bare("ENDPRO\n".repeat(513).as_bytes()), 4);
}

#[test]
fn every_setting_counts() {
    // In lines 1 to 89 are 623 constants, seven to a line; with 400 settings of A
    // they are 1,023, but need 624 slots.
    let lists = (0..89).map(|i| {
        let list: Vec<_> = (0..7).map(|k| format!("K{}=2", i * 7 + k)).collect();
        format!("CONST {}\n", list.join(","))
    });
    let constants = lists.collect::<String>().replace("K0=2", "C=1");
    let block = format!("{H}\nA=C\n{}{E}\n", "A=A+C\n".repeat(399));
    let program = good(&format!("{constants}{block}"));
    assert_eq!(program.len(), (623 + 2 + 399 * 4) * 16);
    assert_eq!(program[624 * 16..625 * 16], record(13, 624, 91, 0.0));
    assert_eq!(program[2220 * 16..], record(15, 624, 490, 0.0));
    let more = format!("{constants}CONST L=3\n");
    assert_eq!(bare(format!("{more}{block}").as_bytes()), 6);
    // That comes before the pairing.
    let unpaired = block.replace(E, H);
    assert_eq!(bare(format!("{more}{unpaired}").as_bytes()), 6);
    let found = refused(&format!("{constants}{unpaired}"), 7);
    assert_eq!(found, [(90, 25), (491, 25)]);
}

#[test]
fn room() {
    let text = deck(&VALVE);
    let (mut list, mut program) = (vec![7; 4096], vec![9; 27 * 16 - 1]);
    let verdict = floesedge_peer::translate(text.as_bytes(), &mut list, &mut program);
    assert_eq!((verdict.number, verdict.count), (8, 0));
    assert_eq!((list, program), (vec![7; 4096], vec![9; 27 * 16 - 1]));
}
