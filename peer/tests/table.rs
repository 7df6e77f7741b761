//! The paper's table of tried texts, its listing and its slips, with the
//! records worked out by hand.

mod common;
use common::*;
use floesedge_peer::listing;

#[test]
fn empty() {
    assert_eq!(good(""), []);
}

#[test]
fn tank() {
    let expected = records(&[
        (1, 1, 2, 2.0),
        (2, 3, 4, 1.0),
        (4, 1, 3, 0.0),
        (4, 3, 3, 0.0),
        (7, 0, 3, 0.0),
        (13, 2, 3, 0.0),
        (3, 0, 5, 0.0),
        (3, 0, 5, 3.0),
        (4, 0, 5, 0.0),
        (11, 0, 5, 0.0),
        (13, 4, 5, 0.0),
        (4, 4, 4, 0.0),
        (4, 2, 4, 0.0),
        (6, 0, 4, 0.0),
        (14, 3, 4, 0.0),
    ]);
    assert_eq!(good(TANK), expected);
}

#[test]
fn state_of_itself() {
    let expected = records(&[
        (2, 1, 1, 1.0),
        (4, 1, 1, 0.0),
        (9, 0, 1, 0.0),
        (14, 1, 1, 0.0),
    ]);
    assert_eq!(good("X=INTGRL(1,-X)"), expected);
}

#[test]
fn loops() {
    assert_eq!(refused("A=A+1", 7), [(1, 24)]);
    assert_eq!(refused("A=B\nB=A\nC=1", 7), [(1, 24), (2, 24)]);
    assert_eq!(refused("A=B\nB=A\nD=A", 7), [(1, 24), (2, 24), (3, 24)]);
    assert_eq!(
        refused("X=INTGRL(0,A)\nA=A\nB=X\nC=INTGRL(0,X)", 7),
        [(1, 24), (2, 24)]
    );
    assert_eq!(refused("A=B+C\nB=A\nC=1\nD=C", 7), [(1, 24), (2, 24)]);
}

#[test]
fn doubles() {
    assert_eq!(refused("CONST A=1,A=2", 7), [(1, 21)]);
    assert_eq!(refused("CONST A=1,A=2,B=3,B=4", 7), [(1, 21)]);
    assert_eq!(
        refused("A=1\nCONST B=1,A=2\nA=INTGRL(0,1)", 7),
        [(2, 21), (3, 21)]
    );
    assert_eq!(refused("A=Z\nA=A\nX=INTGRL(A,1)", 7), [(2, 21)]);
}

#[test]
fn names_in_initials() {
    assert_eq!(refused("X=INTGRL(Y,1)\nY=2", 7), [(1, 23)]);
    assert_eq!(refused("X=INTGRL(X,1)", 7), [(1, 23)]);
    assert_eq!(refused("X=INTGRL(Y,1)", 7), [(1, 22)]);
    assert_eq!(refused("X=INTGRL(Y,Z)\nY=2", 7), [(1, 22)]);
    assert_eq!(refused("X=INTGRL(Y,1)\nY=Z", 7), [(1, 23), (2, 22)]);
    assert_eq!(refused("X=INTGRL(Y,1)\nY=2\nB=B", 7), [(1, 23)]);
    let expected = records(&[
        (1, 2, 2, -0.5),
        (2, 1, 1, -0.5),
        (3, 0, 1, 1.0),
        (14, 1, 1, 0.0),
    ]);
    assert_eq!(good("X=INTGRL(Y,1)\nCONST Y=-.5"), expected);
}

#[test]
fn continuing() {
    assert_eq!(refused("A=1...", 5), [(1, 11)]);
    assert_eq!(refused("A=1...\n", 5), [(1, 11)]);
    assert_eq!(
        good("A=1...\n\n"),
        records(&[(3, 0, 1, 1.0), (13, 1, 1, 0.0)])
    );
    let expected = records(&[
        (3, 0, 1, 3.0),
        (3, 0, 1, 2.0),
        (7, 0, 1, 0.0),
        (13, 1, 1, 0.0),
    ]);
    assert_eq!(good("A=3...\n *2"), expected);
    assert_eq!(good("A=3.... \n *2"), expected);
    // Without the space the star makes a comment.
    assert_eq!(refused("A=3...\n*2", 5), [(1, 11)]);
    assert_eq!(refused("A=3.... \n*2", 5), [(1, 11)]);
    assert_eq!(refused("A=1...\n2", 5), [(1, 18)]);
    assert_eq!(refused("...\n", 5), [(1, 11)]);
    assert_eq!(refused("...\n\n", 5), [(1, 18)]);
    assert_eq!(
        good("...\nA=1\n"),
        records(&[(3, 0, 1, 1.0), (13, 1, 1, 0.0)])
    );
}

#[test]
fn five_lines() {
    assert_eq!(
        refused("A=1...\n+1...\n+1...\n+1...\n+1\nB=1", 5),
        [(1, 12)]
    );
    assert_eq!(
        refused("A=1...\n+1...\n+1...\n+1...\nC=1\nB=1", 5),
        [(1, 12)]
    );
    assert_eq!(refused("A=1...\n+1...\n+1...\n+1...\n+1...", 5), [(1, 11)]);
    good("A=1...\n+1...\n+1...\n+1\nB=1");
}

#[test]
fn names_of_six() {
    assert_eq!(refused("ABCDEFG=1", 5), [(1, 15)]);
    good("ABCDEF=1");
}

#[test]
fn numbers() {
    for text in ["A=999999999999999", "A=1E22", "A=1E-22"] {
        assert_eq!(good(text).len(), 32);
    }
    for text in ["A=1.000000000000000", "A=1E23", "A=0.1E-22"] {
        assert_eq!(refused(text, 5), [(1, 17)], "{text}");
    }
    for text in ["A=2X", "A=1E", "A=1E100"] {
        assert_eq!(refused(text, 5), [(1, 16)], "{text}");
    }
}

#[test]
fn grammar() {
    assert_eq!(refused("A=TIME*-2", 5), [(1, 18)]);
    assert_eq!(refused("TIME=1", 5), [(1, 18)]);
}

#[test]
fn bad_tokens_come_before_the_grammar() {
    assert_eq!(refused("A=)#", 5), [(1, 14)]);
    assert_eq!(refused("A=)...\n2X", 5), [(1, 16)]);
    assert_eq!(refused("A=1E23+2X", 5), [(1, 17)]);
    assert_eq!(refused(&format!("A={}#", "(".repeat(17)), 5), [(1, 14)]);
    assert_eq!(refused("\tA=1", 5), [(1, 14)]);
    assert_eq!(refused("A=1\r\nB=1", 5), [(1, 14)]);
}

#[test]
fn negated_product() {
    let expected = records(&[
        (1, 1, 1, 2.0),
        (1, 2, 1, -0.0),
        (4, 1, 2, 0.0),
        (4, 2, 2, 0.0),
        (7, 0, 2, 0.0),
        (9, 0, 2, 0.0),
        (13, 3, 2, 0.0),
    ]);
    assert_eq!(good("CONST A=2,B=-0\nY=-A*B"), expected);
}

#[test]
fn undefined_names_wait_for_all_statements() {
    assert_eq!(refused("A=B\nB=", 5), [(2, 18)]);
    good("A=B\nB=1");
    assert_eq!(refused("A=B\nC=A", 7), [(1, 22)]);
}

#[test]
fn dictionary_order() {
    // 1 waits for 5, 2 for 4; so 3, 4, 2, 5, 1 is first in dictionary order.
    let text = "A=E\nB=D\nC=0\nD=1\nE=2\n";
    assert_eq!(listing(text.as_bytes()), b"OK 10\n3\n4\n2\n5\n1\n");
}

#[test]
fn listings() {
    assert_eq!(listing(TANK.as_bytes()), b"OK 15\n3\n5\n4\n");
    let bad = TANK.replace("Q=K*H", "Q=K*");
    assert_eq!(listing(bad.as_bytes()), b"NO 5\n3 18 3 4\n");
    assert_eq!(listing(b""), b"OK 0\n");
    assert_eq!(listing(&[b'\n'; 1025]), b"NO 3\n");
    assert_eq!(
        listing(b"A=B\nB=A\nD=A"),
        b"NO 7\n1 24 1 1\n2 24 2 1\n3 24 3 1\n"
    );
    assert_eq!(listing(b"A=3...\n*2"), b"NO 5\n1 11 1 6\n");
}
