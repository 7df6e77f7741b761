//! Other orders of a text's units, worked out by hand.

mod common;
use common::*;
use floesedge_peer::model::{Model, Unit};
use floesedge_peer::order::{order_by, uses, Set};
use floesedge_peer::program::{records_needed, write};
use floesedge_peer::translate::ordered;
use floesedge_peer::{evaluate, start, step};

/// The model of a text with verdict 0 and its units, in text order.
fn units(text: &str) -> (Model, Vec<Unit>) {
    let (model, mut units) = ordered(text.as_bytes()).unwrap();
    units.sort_by_key(|unit| unit.line);
    (model, units)
}

/// The first lines of some units.
fn lines(units: &[Unit]) -> Vec<u32> {
    units.iter().map(|unit| unit.line).collect()
}

/// The program of a text with its units, named by their first lines, in an order.
fn program(text: &str, order: &[u32]) -> Vec<u8> {
    let (model, units) = units(text);
    let at = |line: &u32| units[lines(&units).iter().position(|own| own == line).unwrap()];
    let order: Vec<Unit> = order.iter().map(at).collect();
    let mut program = vec![0xa5; records_needed(&model) * 16];
    write(&model, &order, &mut program);
    program
}

/// The greatest member of a set, taken out.
fn take_greatest(set: &mut Set) -> Option<usize> {
    let member = (0..512).rfind(|member| set[member / 64] >> (member % 64) & 1 == 1)?;
    set[member / 64] &= !(1 << (member % 64));
    Some(member)
}

/// The order of a text's units in which the greatest ready one is next.
fn greatest_first(text: &str) -> Vec<u32> {
    let (model, units) = units(text);
    lines(&order_by(&model, &units, take_greatest).unwrap())
}

/// The order that the paper asks for.
fn own_order(text: &str) -> Vec<u32> {
    lines(&ordered(text.as_bytes()).unwrap().1)
}

/// The pairs of a user and what it uses, by first lines.
fn pairs(text: &str) -> Vec<(u32, u32)> {
    let (model, units) = units(text);
    let pairs = uses(&model, &units).into_iter();
    pairs
        .map(|(user, used)| (units[user].line, units[used].line))
        .collect()
}

/// What evaluating, two steps, and a start with a step leave, by bits, from
/// values and derivatives that are all different.
fn left(program: &[u8]) -> Vec<u64> {
    let mut values: Vec<f64> = (0..SLOTS).map(|slot| 5.0 + slot as f64 / 4.0).collect();
    let mut derivs: Vec<f64> = (0..SLOTS).map(|slot| -8.0 - slot as f64).collect();
    let mut bits = Vec::new();
    for act in 0..5 {
        let (values, derivs) = (&mut values[..], &mut derivs[..]);
        let answer = match act {
            0 => evaluate(program, values, derivs),
            3 => start(program, values, derivs),
            _ => step(program, 0.1 * act as f64, values, derivs),
        };
        assert_eq!((answer.number, answer.record), (0, 0));
        bits.extend(values.iter().chain(&*derivs).map(|float| float.to_bits()));
    }
    bits
}

/// The record for which a program is refused with 3, nothing being written.
fn bad_record(program: &[u8]) -> u32 {
    let (mut values, mut derivs) = (vec![-7.0; SLOTS], vec![-8.0; SLOTS]);
    let answer = step(program, 0.1, &mut values, &mut derivs);
    assert_eq!(answer.number, 3);
    assert_eq!((values, derivs), (vec![-7.0; SLOTS], vec![-8.0; SLOTS]));
    answer.record
}

#[test]
fn two_statements() {
    let text = "A=TIME\nB=2";
    assert_eq!(pairs(text), []);
    assert_eq!(own_order(text), [1, 2]);
    assert_eq!(greatest_first(text), [2, 1]);
    let other = program(text, &[2, 1]);
    let expected = records(&[
        (3, 0, 2, 2.0),
        (13, 2, 2, 0.0),
        (4, 0, 1, 0.0),
        (13, 1, 1, 0.0),
    ]);
    assert_eq!(other, expected);
    assert_eq!(program(text, &[1, 2]), good(text));
    assert_eq!(left(&other), left(&good(text)));
}

/// A block that sets its output again, what it uses, what uses it, and a
/// statement that stands alone.
const VALVE: &str = "PROCED A=VALVE(C)\nA=C*2\nA=A+C\nENDPRO\nB=A-1\nC=TIME\nE=3";

#[test]
fn a_block_moves_whole() {
    // Slots: A 1, B 2, C 3, E 4. The block waits for 6, and 5 for the block.
    assert_eq!(pairs(VALVE), [(5, 1), (1, 6)]);
    assert_eq!(own_order(VALVE), [6, 1, 5, 7]);
    assert_eq!(greatest_first(VALVE), [7, 6, 1, 5]);
    let other = program(VALVE, &[7, 6, 1, 5]);
    let expected = records(&[
        (3, 0, 7, 3.0),
        (13, 4, 7, 0.0),
        (4, 0, 6, 0.0),
        (13, 3, 6, 0.0),
        (4, 3, 2, 0.0),
        (3, 0, 2, 2.0),
        (7, 0, 2, 0.0),
        (13, 1, 2, 0.0),
        (4, 1, 3, 0.0),
        (4, 3, 3, 0.0),
        (5, 0, 3, 0.0),
        (15, 1, 3, 0.0),
        (4, 1, 5, 0.0),
        (3, 0, 5, 1.0),
        (6, 0, 5, 0.0),
        (13, 2, 5, 0.0),
    ]);
    assert_eq!(other, expected);
    assert_eq!(left(&other), left(&good(VALVE)));
    // At time 5: C = 5, A = 10 and then 15, B = 14, E = 3.
    let (mut values, mut derivs) = (vec![5.0; SLOTS], vec![0.0; SLOTS]);
    assert_eq!(evaluate(&other, &mut values, &mut derivs).number, 0);
    assert_eq!(values[..6], [5.0, 15.0, 14.0, 5.0, 3.0, 5.0]);
}

#[test]
fn a_block_taken_apart_is_accepted_and_not_the_same() {
    // Line 5 between 2 and 3: A is 10 there and not yet 15, so B = 9.
    let own = good(VALVE);
    let at = |from: usize, to: usize| &own[from * 16..to * 16];
    let apart = [at(0, 6), at(10, 14), at(6, 10), at(14, 16)].concat();
    assert_eq!(apart[5 * 16], 13);
    let (mut values, mut derivs) = (vec![5.0; SLOTS], vec![0.0; SLOTS]);
    assert_eq!(evaluate(&apart, &mut values, &mut derivs).number, 0);
    assert_eq!(values[..6], [5.0, 15.0, 9.0, 5.0, 3.0, 5.0]);
}

#[test]
fn a_unit_behind_its_user_is_refused() {
    // Behind the two records of line 6, line 5 reads A.
    assert_eq!(bad_record(&program(VALVE, &[6, 5, 1, 7])), 2);
    // Line 2 reads C in the first record of all.
    assert_eq!(bad_record(&program(VALVE, &[1, 6, 5, 7])), 0);
    assert_eq!(bad_record(&program(VALVE, &[7, 1, 6, 5])), 2);
}

#[test]
fn an_input_that_is_not_read_may_come_later() {
    // C is an input, so the block uses it; but no record of the block reads it.
    let text = "PROCED A=VALVE(C)\nA=1\nENDPRO\nC=TIME";
    assert_eq!(pairs(text), [(1, 4)]);
    assert_eq!(own_order(text), [4, 1]);
    assert_eq!(greatest_first(text), [4, 1]);
    assert_eq!(left(&program(text, &[1, 4])), left(&good(text)));
}

#[test]
fn states() {
    // Slots: X 1, V 2, F 3. States are known without order: only 2 waits, for 3.
    let text = "X=INTGRL(1,-V)\nV=INTGRL(0,F)\nF=X-2";
    assert_eq!(pairs(text), [(2, 3)]);
    assert_eq!(own_order(text), [1, 3, 2]);
    assert_eq!(greatest_first(text), [3, 2, 1]);
    // The initials stay in text order.
    let other = program(text, &[3, 2, 1]);
    let expected = records(&[
        (2, 1, 1, 1.0),
        (2, 2, 2, 0.0),
        (4, 1, 3, 0.0),
        (3, 0, 3, 2.0),
        (6, 0, 3, 0.0),
        (13, 3, 3, 0.0),
        (4, 3, 2, 0.0),
        (14, 2, 2, 0.0),
        (4, 2, 1, 0.0),
        (9, 0, 1, 0.0),
        (14, 1, 1, 0.0),
    ]);
    assert_eq!(other, expected);
    assert_eq!(left(&other), left(&good(text)));
    assert_eq!(left(&program(text, &[3, 1, 2])), left(&good(text)));
    // Two initials and three records of line 1, then line 2 reads F.
    assert_eq!(bad_record(&program(text, &[1, 2, 3])), 5);
    assert_eq!(bad_record(&program(text, &[2, 3, 1])), 2);
}

/// An initial by name, its constant further down.
const NAMED: &str = "X=INTGRL(K,A)\nA=X*K\nCONST K=0.5,L=2\nB=L-X";

#[test]
fn an_initial_by_name() {
    // Slots: X 1, A 2, K 3, L 4, B 5. An initial waits for nothing.
    assert_eq!(pairs(NAMED), [(1, 2)]);
    assert_eq!(own_order(NAMED), [2, 1, 4]);
    let other = program(NAMED, &[4, 2, 1]);
    let expected = records(&[
        (1, 3, 3, 0.5),
        (1, 4, 3, 2.0),
        (2, 1, 1, 0.5),
        (4, 4, 4, 0.0),
        (4, 1, 4, 0.0),
        (6, 0, 4, 0.0),
        (13, 5, 4, 0.0),
        (4, 1, 2, 0.0),
        (4, 3, 2, 0.0),
        (7, 0, 2, 0.0),
        (13, 2, 2, 0.0),
        (4, 2, 1, 0.0),
        (14, 1, 1, 0.0),
    ]);
    assert_eq!(other, expected);
    assert_eq!(left(&other), left(&good(NAMED)));
    assert_eq!(bad_record(&program(NAMED, &[4, 1, 2])), 7);
}

#[test]
fn choosing_reaches_each_good_order_and_no_other() {
    let (model, units) = units(NAMED);
    let mut reached = Vec::new();
    for choice in 0..8 {
        let mut choices = (0..3).map(|bit| choice >> bit & 1 == 1);
        let take = |ready: &mut Set| {
            let mut others = *ready;
            let first = take_greatest(&mut others);
            let member = match choices.next() {
                Some(true) => take_greatest(&mut others).or(first),
                _ => first,
            };
            ready[0] &= !(1 << member?);
            member
        };
        reached.push(lines(&order_by(&model, &units, take).unwrap()));
    }
    reached.sort();
    reached.dedup();
    assert_eq!(reached, [[2, 1, 4], [2, 4, 1], [4, 2, 1]]);
}

#[test]
fn only_texts_of_verdict_0_have_units_in_order() {
    assert_eq!(own_order(""), []);
    for text in ["A=", "A=B", "A=A", "CONST A=1,A=2"] {
        assert!(ordered(text.as_bytes()).is_none(), "{text}");
    }
    // Each card has 31 numbers, 30 sums and a store: 62 records.
    let card = |i: usize| format!("A{i}=1{}\n", "+1".repeat(30));
    let deck = |count: usize| -> String { (0..count).map(card).collect() };
    assert_eq!(good(&deck(66)).len() / 16, 66 * 62);
    assert!(ordered(deck(66).as_bytes()).is_some());
    assert_eq!(bare(deck(67).as_bytes()), 8);
    assert!(ordered(deck(67).as_bytes()).is_none());
}
