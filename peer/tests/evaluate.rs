//! Evaluating, worked out by hand.

mod common;
use common::*;
use floesedge_peer::evaluate::{evaluate_within, start_within, step_within};
use floesedge_peer::{evaluate, judge_reason, start, step, Answer, Reason};

/// Slots all filled with a mark.
fn slots(mark: f64) -> Vec<f64> {
    vec![mark; SLOTS]
}

const OK: Answer = Answer {
    number: 0,
    record: 0,
};

#[test]
fn tank_runs() {
    let program = good(TANK);
    let (mut values, mut derivs) = (slots(-7.0), slots(-8.0));
    assert_eq!(start(&program, &mut values, &mut derivs), OK);
    let mut expected = slots(-7.0);
    (expected[0], expected[3]) = (0.0, 1.0);
    assert_eq!(values, expected);
    assert_eq!(derivs, slots(-8.0));
    // K = 2, Q = 2, F = limit of 0 = 0, so H' = -2.
    assert_eq!(evaluate(&program, &mut values, &mut derivs), OK);
    (expected[1], expected[2], expected[4]) = (2.0, 2.0, 0.0);
    assert_eq!(values, expected);
    let mut rates = slots(-8.0);
    rates[3] = -2.0;
    assert_eq!(derivs, rates);
    // One step of 0.25: H = 1 - 0.5, TIME = 0.25.
    assert_eq!(step(&program, 0.25, &mut values, &mut derivs), OK);
    (expected[0], expected[3]) = (0.25, 0.5);
    assert_eq!(values, expected);
    // And one more: Q = 1, F = 0.25, H' = -0.75.
    assert_eq!(step(&program, 0.25, &mut values, &mut derivs), OK);
    (expected[0], expected[2], expected[3], expected[4]) = (0.5, 1.0, 0.5 - 0.1875, 0.25);
    rates[3] = -0.75;
    assert_eq!(values, expected);
    assert_eq!(derivs, rates);
}

/// The value that a text's only assignment of A stores.
fn value_of(expression: &str) -> f64 {
    let program = good(&format!("A={expression}"));
    let (mut values, mut derivs) = (slots(0.0), slots(0.0));
    values[0] = f64::NAN;
    assert_eq!(evaluate(&program, &mut values, &mut derivs), OK);
    values[1]
}

#[test]
fn operations() {
    for (expression, value) in [
        ("7-2-1", 4.0),
        ("8/4/2", 1.0),
        ("2+3*4", 14.0),
        ("-2*3+1", -5.0),
        ("INSW(-1,2,3)", 2.0),
        ("INSW(0,2,3)", 3.0),
        ("INSW(-0,2,3)", 3.0),
        ("INSW(TIME,2,3)", 3.0),
        ("LIMIT(1,2,0)", 1.0),
        ("LIMIT(1,2,3)", 2.0),
        ("LIMIT(1,2,1.5)", 1.5),
        ("LIMIT(2,1,1.5)", 2.0),
        ("LIMIT(2,1,2.5)", 1.0),
        ("LIMIT(TIME,1,5)", 1.0),
        ("COMPAR(1,1)", 1.0),
        ("COMPAR(0,1)", 0.0),
        ("COMPAR(TIME,1)", 0.0),
        ("COMPAR(TIME,TIME)", 0.0),
        ("0.1+0.2", 0.1 + 0.2),
        ("1/0", f64::INFINITY),
    ] {
        assert_eq!(value_of(expression), value, "{expression}");
    }
    assert!(value_of("LIMIT(1,2,TIME)").is_nan());
    assert!(value_of("-(0)").is_sign_negative());
}

#[test]
fn lent_places() {
    let program = good(TANK);
    for (values, derivs) in [(1023, 1024), (1024, 1023), (256, 256), (0, 0)] {
        let (mut values, mut derivs) = (vec![1.0; values], vec![1.0; derivs]);
        let answer = Answer {
            number: 1,
            record: 0,
        };
        assert_eq!(evaluate(&program[1..], &mut values, &mut derivs), answer);
        assert_eq!(start(&program, &mut values, &mut derivs), answer);
        assert_eq!(step(&program, 1.0, &mut values, &mut derivs), answer);
        assert!(values.iter().chain(&derivs).all(|&x| x == 1.0));
    }
    let (mut values, mut derivs) = (vec![1.0; 1025], vec![1.0; 1300]);
    assert_eq!(evaluate(&program, &mut values, &mut derivs), OK);
    assert!(values[1024..]
        .iter()
        .chain(&derivs[1024..])
        .all(|&x| x == 1.0));
}

#[test]
fn program_length() {
    let (mut values, mut derivs) = (slots(1.0), slots(1.0));
    let answer = Answer {
        number: 2,
        record: 0,
    };
    assert_eq!(evaluate(&[0; 15], &mut values, &mut derivs), answer);
    assert_eq!(evaluate(&[0; 65_552], &mut values, &mut derivs), answer);
    assert_eq!(evaluate(&[], &mut values, &mut derivs), OK);
    // 4,096 records: each of 2,048 pushes but the first, and 2,047 sums, and a store.
    let mut list = vec![(3, 0, 0, 1.0)];
    for _ in 0..2047 {
        list.extend([(3, 0, 0, 1.0), (5, 0, 0, 0.0)]);
    }
    list.push((13, 1, 0, 0.0));
    assert_eq!(list.len(), 4096);
    assert_eq!(evaluate(&records(&list), &mut values, &mut derivs), OK);
    assert_eq!(values[1], 2048.0);
}

/// The first bad record and why, of a program of records.
fn bad(list: &[(u8, u16, u32, f64)]) -> (Option<u32>, Reason) {
    reason(&records(list))
}

/// The same, of the bytes of a program.
fn reason(program: &[u8]) -> (Option<u32>, Reason) {
    let refusal = judge_reason(program).unwrap_err();
    let (mut values, mut derivs) = (slots(1.0), slots(2.0));
    let answer = match refusal.record {
        Some(record) => Answer { number: 3, record },
        None => Answer {
            number: 4,
            record: 0,
        },
    };
    assert_eq!(evaluate(program, &mut values, &mut derivs), answer);
    assert_eq!(start(program, &mut values, &mut derivs), answer);
    assert_eq!(step(program, 1.0, &mut values, &mut derivs), answer);
    assert_eq!((values, derivs), (slots(1.0), slots(2.0)));
    (refusal.record, refusal.reason)
}

#[test]
fn each_bad_record() {
    use Reason::*;
    let p = (3, 0, 0, 1.0);
    for kind in [0, 16, 255] {
        assert_eq!(bad(&[p, (kind, 0, 0, 0.0)]), (Some(1), UnknownKind));
    }
    for kind in 1..=15 {
        let mut bytes = record(kind, 1, 0, 0.0);
        bytes[1] = 1;
        assert_eq!(reason(&bytes), (Some(0), ByteOne));
    }
    assert_eq!(bad(&[(3, 1, 0, 1.0)]), (Some(0), UnusedField));
    assert_eq!(bad(&[(4, 0, 0, 1.0)]), (Some(0), UnusedField));
    assert_eq!(bad(&[(4, 0, 0, -0.0)]), (Some(0), UnusedField));
    for kind in 5..=12 {
        assert_eq!(bad(&[p, p, p, (kind, 1, 0, 0.0)]), (Some(3), UnusedField));
        assert_eq!(bad(&[p, p, p, (kind, 0, 0, 1.0)]), (Some(3), UnusedField));
    }
    assert_eq!(bad(&[p, (13, 1, 0, -0.0)]), (Some(1), UnusedField));
    assert_eq!(
        bad(&[(2, 1, 0, 0.0), p, (14, 1, 0, -0.0)]),
        (Some(2), UnusedField)
    );
    for slot in [1024, 1025, 2048, 0x8001, 0xffff] {
        for kind in [1, 2, 4] {
            assert_eq!(bad(&[(kind, slot, 0, 0.0)]), (Some(0), SlotOver1023));
        }
        assert_eq!(bad(&[p, (13, slot, 0, 0.0)]), (Some(1), SlotOver1023));
        assert_eq!(
            bad(&[(2, 1, 0, 0.0), p, (14, slot, 0, 0.0)]),
            (Some(2), SlotOver1023)
        );
    }
    // Slots up to 1,023 are not over, and are told from those below them.
    for slot in [257, 513, 1023] {
        let list = [(1, slot - 256, 0, 0.0), (4, slot, 0, 0.0)];
        assert_eq!(bad(&list), (Some(1), ReadBeforeSet));
    }
    assert_eq!(
        bad(&[(2, 1, 0, 0.0), (1, 2, 0, 0.0)]),
        (Some(1), ConstantLate)
    );
    assert_eq!(
        bad(&[p, (13, 1, 0, 0.0), (1, 2, 0, 0.0)]),
        (Some(2), ConstantLate)
    );
    assert_eq!(bad(&[p, (2, 1, 0, 0.0)]), (Some(1), InitialLate));
    assert_eq!(bad(&[(1, 0, 0, 0.0)]), (Some(0), SlotZeroSet));
    assert_eq!(bad(&[(2, 0, 0, 0.0)]), (Some(0), SlotZeroSet));
    assert_eq!(bad(&[p, (13, 0, 0, 0.0)]), (Some(1), SlotZeroSet));
    assert_eq!(bad(&[(1, 1, 0, 0.0), (1, 1, 0, 0.0)]), (Some(1), SetTwice));
    assert_eq!(bad(&[(1, 1, 0, 0.0), (2, 1, 0, 0.0)]), (Some(1), SetTwice));
    assert_eq!(
        bad(&[(2, 1, 0, 0.0), p, (13, 1, 0, 0.0)]),
        (Some(2), SetTwice)
    );
    assert_eq!(bad(&[(4, 1, 0, 0.0)]), (Some(0), ReadBeforeSet));
    assert_eq!(bad(&[p, p, (13, 1, 0, 0.0)]), (Some(2), StoreCount));
    assert_eq!(bad(&[(13, 1, 0, 0.0)]), (Some(0), StoreCount));
    for (kind, taken) in [
        (5, 2),
        (6, 2),
        (7, 2),
        (8, 2),
        (9, 1),
        (10, 3),
        (11, 3),
        (12, 2),
    ] {
        let mut list = vec![p; taken - 1];
        list.push((kind, 0, 0, 0.0));
        assert_eq!(bad(&list), (Some(taken as u32 - 1), TooFewValues));
    }
    assert_eq!(bad(&[p; 68]), (Some(67), SixtyEighthValue));
    assert_eq!(bad(&[p; 67]), (None, ValueLeft));
    assert_eq!(
        bad(&[(2, 1, 0, 0.0), (14, 1, 0, 0.0)]),
        (Some(1), DerivativeCount)
    );
    assert_eq!(
        bad(&[(2, 1, 0, 0.0), p, p, (14, 1, 0, 0.0)]),
        (Some(3), DerivativeCount)
    );
    assert_eq!(
        bad(&[(1, 1, 0, 0.0), p, (14, 1, 0, 0.0)]),
        (Some(2), DerivativeOfNoState)
    );
    assert_eq!(bad(&[p, (14, 0, 0, 0.0)]), (Some(1), DerivativeOfNoState));
    let twice = [(2, 1, 0, 0.0), p, (14, 1, 0, 0.0), p, (14, 1, 0, 0.0)];
    assert_eq!(bad(&twice), (Some(4), DerivativeTwice));
    assert_eq!(bad(&[(2, 1, 0, 0.0)]), (None, StateWithoutDerivative));
}

#[test]
fn each_bad_store_again() {
    use Reason::*;
    let p = (3, 0, 0, 1.0);
    let stored = (13, 1, 0, 0.0);
    let again = (15, 1, 0, 0.0);
    // Its fields, after a store that would let it pass.
    let mut bytes = records(&[p, stored, p, again]);
    bytes[3 * 16 + 1] = 128;
    assert_eq!(reason(&bytes), (Some(3), ByteOne));
    for value in [1.0, -0.0] {
        let list = [p, stored, p, (15, 1, 0, value)];
        assert_eq!(bad(&list), (Some(3), UnusedField));
    }
    for slot in [1024, 1025, 0x8001] {
        let list = [p, stored, p, (15, slot, 0, 0.0)];
        assert_eq!(bad(&list), (Some(3), SlotOver1023));
    }
    // Other than one value.
    assert_eq!(bad(&[p, stored, again]), (Some(2), AgainCount));
    assert_eq!(bad(&[p, stored, p, again, again]), (Some(4), AgainCount));
    assert_eq!(bad(&[p, stored, p, p, again]), (Some(4), AgainCount));
    // A slot that no kind 13 set, or only a later one, or one of another slot.
    assert_eq!(bad(&[p, again]), (Some(1), AgainUnset));
    assert_eq!(bad(&[p, again, p, stored]), (Some(1), AgainUnset));
    let list = [p, stored, p, (15, 2, 0, 0.0)];
    assert_eq!(bad(&list), (Some(3), AgainUnset));
    assert_eq!(bad(&[p, (15, 0, 0, 0.0)]), (Some(1), AgainTime));
    assert_eq!(bad(&[(1, 1, 0, 0.0), p, again]), (Some(2), AgainConstant));
    let state = [(2, 1, 0, 0.0), p, again];
    assert_eq!(bad(&state), (Some(2), AgainState));
    let derived = [(2, 1, 0, 0.0), p, (14, 1, 0, 0.0), p, again];
    assert_eq!(bad(&derived), (Some(4), AgainState));
    // It does not let kind 13 set again, and no kind 1 or 2 stands after it.
    let list = [p, stored, p, again, p, stored];
    assert_eq!(bad(&list), (Some(5), SetTwice));
    let list = [p, stored, p, again, (1, 2, 0, 0.0)];
    assert_eq!(bad(&list), (Some(4), ConstantLate));
    let list = [p, stored, p, again, (2, 2, 0, 0.0)];
    assert_eq!(bad(&list), (Some(4), InitialLate));
    let list = [p, stored, p, again, p, (14, 1, 0, 0.0)];
    assert_eq!(bad(&list), (Some(5), DerivativeOfNoState));
    // It takes its value; one that is pushed after it is left.
    assert_eq!(bad(&[p, stored, p, again, p]), (None, ValueLeft));
}

#[test]
fn stores_again() {
    // Slot 1 is 5, slot 2 is slot 1 doubled, slot 1 is slot 2 + slot 1 = 15,
    // slot 3 is 15 less 10, slot 1 is 15 times the time, 2: 30.
    let program = records(&[
        (3, 0, 1, 5.0),
        (13, 1, 1, 0.0),
        (4, 1, 2, 0.0),
        (4, 1, 2, 0.0),
        (5, 0, 2, 0.0),
        (13, 2, 2, 0.0),
        (4, 2, 3, 0.0),
        (4, 1, 3, 0.0),
        (5, 0, 3, 0.0),
        (15, 1, 3, 0.0),
        (4, 1, 4, 0.0),
        (4, 2, 4, 0.0),
        (6, 0, 4, 0.0),
        (13, 3, 4, 0.0),
        (4, 1, 5, 0.0),
        (4, 0, 5, 0.0),
        (7, 0, 5, 0.0),
        (15, 1, 5, 0.0),
    ]);
    let (mut values, mut derivs) = (slots(-7.0), slots(-8.0));
    values[0] = 2.0;
    assert_eq!(evaluate(&program, &mut values, &mut derivs), OK);
    let mut expected = slots(-7.0);
    (expected[0], expected[1], expected[2], expected[3]) = (2.0, 30.0, 10.0, 5.0);
    assert_eq!(values, expected);
    assert_eq!(derivs, slots(-8.0));
    // Start writes the time alone: there are no states.
    expected[0] = 0.0;
    assert_eq!(start(&program, &mut values, &mut derivs), OK);
    assert_eq!(values, expected);
    // A step evaluates at time 0, then the time is 0.5.
    assert_eq!(step(&program, 0.5, &mut values, &mut derivs), OK);
    (expected[0], expected[1]) = (0.5, 0.0);
    assert_eq!(values, expected);
    assert_eq!(derivs, slots(-8.0));
}

#[test]
fn slots_up_to_1023() {
    // Slot 1023 is a state that begins with 4, slot 256 the constant 3, slot 255
    // their product, and then that less 1, which is the derivative.
    let program = records(&[
        (1, 256, 1, 3.0),
        (2, 1023, 2, 4.0),
        (4, 1023, 3, 0.0),
        (4, 256, 3, 0.0),
        (7, 0, 3, 0.0),
        (13, 255, 3, 0.0),
        (4, 255, 4, 0.0),
        (3, 0, 4, 1.0),
        (6, 0, 4, 0.0),
        (15, 255, 4, 0.0),
        (4, 255, 2, 0.0),
        (14, 1023, 2, 0.0),
    ]);
    let (mut values, mut derivs) = (slots(-7.0), slots(-8.0));
    assert_eq!(start(&program, &mut values, &mut derivs), OK);
    assert_eq!(step(&program, 0.5, &mut values, &mut derivs), OK);
    let (mut expected, mut rates) = (slots(-7.0), slots(-8.0));
    (expected[0], expected[255], expected[256]) = (0.5, 11.0, 3.0);
    (expected[1023], rates[1023]) = (9.5, 11.0);
    assert_eq!((values, derivs), (expected, rates));
    // Where there are 256 slots, the first record is bad.
    let (mut values, mut derivs) = (slots(-7.0), slots(-8.0));
    let answer = step_within::<256>(&program, 0.5, &mut values, &mut derivs);
    assert_eq!((answer.number, answer.record), (3, 0));
    assert_eq!((values, derivs), (slots(-7.0), slots(-8.0)));
}

/// Lent values or derivatives that are all different.
fn lent(first: f64) -> Vec<f64> {
    (0..SLOTS).map(|slot| first + slot as f64 / 8.0).collect()
}

/// Runs a program of slots below 256 where there are 256, and where there are
/// 1,024: the first 256 places must be the same, and all others stay.
fn assert_as_before(program: &[u8]) {
    let (mut values, mut derivs) = (lent(1.0), lent(-500.0));
    let (mut few_values, mut few_derivs) = (values.clone(), derivs.clone());
    few_values.truncate(256);
    few_derivs.truncate(256);
    for act in 0..4 {
        let (ours, before) = match act {
            0 => (
                evaluate(program, &mut values, &mut derivs),
                evaluate_within::<256>(program, &mut few_values, &mut few_derivs),
            ),
            1 => (
                start(program, &mut values, &mut derivs),
                start_within::<256>(program, &mut few_values, &mut few_derivs),
            ),
            _ => (
                step(program, 0.25, &mut values, &mut derivs),
                step_within::<256>(program, 0.25, &mut few_values, &mut few_derivs),
            ),
        };
        assert_eq!((ours, before), (OK, OK));
        assert_eq!(
            (&values[..256], &derivs[..256]),
            (&few_values[..], &few_derivs[..])
        );
        assert_eq!(values[256..], lent(1.0)[256..]);
        assert_eq!(derivs[256..], lent(-500.0)[256..]);
    }
}

#[test]
fn programs_of_before_run_as_before() {
    assert_as_before(&[]);
    assert_as_before(&good(TANK));
    // 253 constants, a state of slot 254, and slot 255 that it is made of.
    let constants: String = (1..254).map(|i| format!("CONST K{i}={i}\n")).collect();
    let program = good(&format!("{constants}X=INTGRL(K253,-X+Y)\nY=TIME*X+K1\n"));
    let last = records(&[(4, 255, 254, 0.0), (5, 0, 254, 0.0), (14, 254, 254, 0.0)]);
    assert_eq!(program.len(), (253 + 1 + 6 + 5) * 16);
    assert!(program.ends_with(&last));
    assert_as_before(&program);
}

#[test]
fn each_operation_rounds_once() {
    // x + h * d with d = 0.1 and h = 0.1: a fused sum would differ.
    let program = good("X=INTGRL(-.01,.1)");
    let (mut values, mut derivs) = (slots(0.0), slots(0.0));
    start(&program, &mut values, &mut derivs);
    step(&program, 0.1, &mut values, &mut derivs);
    let product: f64 = 0.1 * 0.1;
    assert_eq!(values[1], -0.01 + product);
    assert_ne!(values[1], 0.1f64.mul_add(0.1, -0.01));
    assert_eq!(values[0], 0.1);
}
