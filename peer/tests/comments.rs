//! Comment cards inside a statement, each outcome worked out by hand.

mod common;
use common::*;
use floesedge_peer::listing;

/// A comment of so many bytes.
fn comment(bytes: usize) -> String {
    format!("*{}", "x".repeat(bytes - 1))
}

#[test]
fn a_star_always_makes_a_comment() {
    assert_eq!(refused("A=3...\n*2", 5), [(1, 11)]);
    assert_eq!(refused("A=3...\n*2\n", 5), [(1, 11)]);
    // What stands behind it belongs to the statement.
    assert_eq!(refused("A=3...\n*2\nB=1", 5), [(1, 18)]);
    // Behind a space the star multiplies.
    let product = records(&[
        (3, 0, 1, 3.0),
        (3, 0, 1, 2.0),
        (7, 0, 1, 0.0),
        (13, 1, 1, 0.0),
    ]);
    assert_eq!(good("A=3...\n *2"), product);
    assert_eq!(good("A=3*...\n*4*...\n2"), product);
}

#[test]
fn comments_between_cards() {
    // The slots: C is 1, B is 2, A is 3. B waits for A.
    let text = "CONST C=2\n* B\nB=A...\n* PLUS\n*\n+C...\n*9 ...\n *4\n* A\nA=1\n";
    let expected = records(&[
        (1, 1, 1, 2.0),
        (3, 0, 10, 1.0),
        (13, 3, 10, 0.0),
        (4, 3, 3, 0.0),
        (4, 1, 3, 0.0),
        (3, 0, 3, 4.0),
        (7, 0, 3, 0.0),
        (5, 0, 3, 0.0),
        (13, 2, 3, 0.0),
    ]);
    assert_eq!(good(text), expected);
    assert_eq!(listing(text.as_bytes()), b"OK 9\n10\n3\n");
    // A token does not cross a comment, and a space stands in its place.
    assert_eq!(refused("A=1...\n*\n2", 5), [(1, 18)]);
    assert_eq!(good("CONST...\n*\nA=1"), record(1, 1, 1, 1.0));
}

#[test]
fn comments_do_not_count_among_the_four() {
    let sum = records(&[
        (3, 0, 1, 1.0),
        (3, 0, 1, 2.0),
        (5, 0, 1, 0.0),
        (3, 0, 1, 3.0),
        (5, 0, 1, 0.0),
        (3, 0, 1, 4.0),
        (5, 0, 1, 0.0),
        (13, 1, 1, 0.0),
    ]);
    assert_eq!(good("A=1...\n*\n+2...\n*\n*...\n+3...\n*\n+4"), sum);
    let many = "*\n".repeat(1000);
    assert_eq!(good(&format!("A=1...\n{many}+2...\n+3...\n*\n+4\n")), sum);
    assert_eq!(
        refused("A=1...\n*\n+2...\n*\n+3...\n*\n+4...\n*\n+5\nB=1", 5),
        [(1, 12)]
    );
    // Four cards that end with dots, then comments: still open.
    assert_eq!(refused("A=1...\n+2...\n+3...\n+4...\n*\n*", 5), [(1, 11)]);
}

#[test]
fn comments_are_of_any_length() {
    let sum = records(&[
        (3, 0, 1, 1.0),
        (3, 0, 1, 2.0),
        (5, 0, 1, 0.0),
        (13, 1, 1, 0.0),
    ]);
    for bytes in [1, 72, 73, 100, 32_000] {
        let text = format!("A=1...\n{}\n+2", comment(bytes));
        assert_eq!(good(&text), sum);
        let dots = format!("A=1...\n{}...\n+2", comment(bytes));
        assert_eq!(good(&dots), sum);
    }
    // A card beside it is held to 72.
    let card = format!("+2{}", " ".repeat(71));
    let text = format!("A=1...\n{}\n{card}", comment(100));
    assert_eq!(refused(&text, 5), [(1, 13)]);
    // A comment may hold any bytes.
    let (number, count, _, program) = outcome(b"A=1...\n*\xff\0\r#a\n+2");
    assert_eq!((number, count), (0, 4));
    assert_eq!(program, sum);
}

#[test]
fn open_behind_trailing_comments() {
    for text in [
        "A=1...\n*",
        "A=1...\n*\n",
        "A=1...\n* ONE\n* TWO ...\n*THREE",
        "A=1... \n+1 ...\n*+1\n",
        "*\nB=2\n*\nA=1...\n*\n",
    ] {
        let line = if text.starts_with('*') { 4 } else { 1 };
        assert_eq!(refused(text, 5), [(line, 11)], "{text}");
    }
    // 11 comes before 12 and 13.
    let five = "A=1...\n+1...\n+1...\n+1...\n+1...\n";
    assert_eq!(refused(&format!("{five}*\n"), 5), [(1, 11)]);
    let long = format!("A=1{}...\n*\n", " ".repeat(70));
    assert_eq!(refused(&long, 5), [(1, 11)]);
}

#[test]
fn a_blank_inside_ends_the_statement() {
    let both = records(&[
        (3, 0, 1, 1.0),
        (13, 1, 1, 0.0),
        (3, 0, 4, 2.0),
        (13, 2, 4, 0.0),
    ]);
    assert_eq!(good("A=1...\n* C\n\nB=2"), both);
    assert_eq!(good("A=1...\n* C\n   \nB=2"), both);
    // A comment behind the blank stands between two statements.
    assert_eq!(good("A=1...\n\n* C\nB=2"), both);
    assert_eq!(refused("A=1...\n* C\n\n+2", 5), [(4, 18)]);
    // The blank is one of the four, and held to 72.
    let four = "A=1...\n*\n+1...\n*\n+1...\n*\n+1...\n*\n";
    assert_eq!(refused(&format!("{four}\n"), 5), [(1, 12)]);
    let spaces = " ".repeat(73);
    assert_eq!(refused(&format!("A=1...\n*\n{spaces}\n"), 5), [(1, 13)]);
}

#[test]
fn comments_are_lines_of_the_text() {
    let inside = |count: usize| format!("A=1...\n{}+2\n", "*\n".repeat(count));
    good(&inside(1022));
    assert_eq!(bare(inside(1023).as_bytes()), 3);
    // Faults behind a statement with comments stand at their own lines.
    assert_eq!(refused("A=1...\n*\n*\n+2\nB=\n", 5), [(5, 18)]);
    assert_eq!(refused("A=1...\n*\n*\n+2\nA=3\n", 7), [(5, 21)]);
}

#[test]
fn comments_inside_blocks() {
    let text = "PROCED A...\n* OUT\n=F(C)\nA=C...\n* TWICE\n+C\nENDPRO...\n*\n\nC=1";
    let expected = records(&[
        (3, 0, 10, 1.0),
        (13, 2, 10, 0.0),
        (4, 2, 4, 0.0),
        (4, 2, 4, 0.0),
        (5, 0, 4, 0.0),
        (13, 1, 4, 0.0),
    ]);
    assert_eq!(good(text), expected);
    assert_eq!(listing(text.as_bytes()), b"OK 6\n10\n1\n");
}
