//! The place of each fault: line and column, worked out by hand.

mod common;
use common::*;
use floesedge_peer::{listing, translate};

/// The one fault of a text with verdict 5: first line, code, line and column.
#[track_caller]
fn assert_fault(text: &str, fault: Fault) {
    assert_eq!(placed(text, 5), [fault], "{text:?}");
}

/// The same of a model fault.
#[track_caller]
fn assert_model_fault(text: &str, fault: Fault) {
    assert_eq!(placed(text, 7), [fault], "{text:?}");
}

/// So many spaces.
fn spaces(count: usize) -> String {
    " ".repeat(count)
}

#[test]
fn eight_bytes() {
    let mut list = [7; 4096];
    let verdict = translate(b"A=1...\n*\n)", &mut list, &mut []);
    assert_eq!((verdict.number, verdict.count), (5, 1));
    assert_eq!(list[..9], [1, 0, 18, 0, 3, 0, 1, 0, 7]);
    // Lines and columns over 255, low byte first: 301, 303 and 300.
    let text = format!("{}A=1...\n*\n{}...", "\n".repeat(300), spaces(297));
    let verdict = translate(text.as_bytes(), &mut list, &mut []);
    assert_eq!((verdict.number, verdict.count), (5, 1));
    assert_eq!(list[..9], [45, 1, 11, 0, 47, 1, 44, 1, 7]);
    // The list is filled to its last byte by 512 faults.
    let verdict = translate("A=\n".repeat(512).as_bytes(), &mut list, &mut []);
    assert_eq!((verdict.number, verdict.count), (5, 512));
    assert_eq!(list[4088..], [0, 2, 18, 0, 0, 2, 2, 0]);
    // The last line that there may be: 1,024.
    let text = format!("{}A=\n", "\n".repeat(1023));
    let verdict = translate(text.as_bytes(), &mut list, &mut []);
    assert_eq!((verdict.number, verdict.count), (5, 1));
    assert_eq!(list[..8], [0, 4, 18, 0, 0, 4, 2, 0]);
}

#[test]
fn four_numbers_are_listed() {
    let text = "* C\nA=1...\n* C\n +#\nB=\n\n CONST C=1,D=2 E=3\n";
    assert_eq!(
        listing(text.as_bytes()),
        b"NO 5\n2 14 4 3\n5 18 5 2\n7 18 7 16\n"
    );
    assert_eq!(listing(b"*\n A=B...\n*\n"), b"NO 5\n2 11 2 7\n");
    assert_eq!(listing(b"*\n A=B...\n*\n\n"), b"NO 7\n2 22 2 1\n");
}

#[test]
fn a_bad_byte_is_its_own_place() {
    assert_fault("A=#", (1, 14, 1, 3));
    assert_fault("\tA=1", (1, 14, 1, 1));
    assert_fault("A=1\r\nB=1", (1, 14, 1, 4));
    assert_fault("  a=1", (1, 14, 1, 3));
    // Behind a number and behind a name.
    assert_fault("A=2x", (1, 14, 1, 4));
    assert_fault("A=BCDEFGx", (1, 14, 1, 9));
    // The first of some, and before closing dots.
    assert_fault("A=##", (1, 14, 1, 3));
    assert_fault("A=1+#...\n1#", (1, 14, 1, 5));
    // On later cards, behind comments and behind spaces.
    assert_fault("A=1...\n#", (1, 14, 2, 1));
    assert_fault("A=1...\n* #\n* #\n  +1 a", (1, 14, 4, 6));
    assert_fault("\n*\nA=1...\n...\n*\n+1...\n*\n+1;\n", (3, 14, 8, 3));
    // The last byte that a card may have.
    assert_fault(&format!("A=1...\n{}#", spaces(71)), (1, 14, 2, 72));
}

#[test]
fn a_long_name_stands_at_its_first_letter() {
    assert_fault("ABCDEFG=1", (1, 15, 1, 1));
    assert_fault("  ABCDEFG=1", (1, 15, 1, 3));
    assert_fault("A=B+ABCDEFG9", (1, 15, 1, 5));
    assert_fault("ENDPROC", (1, 15, 1, 1));
    assert_fault("A=1...\n*2\n -ABCDEFG9+1", (1, 15, 3, 3));
    assert_fault("A=...\nABCDEFG...\n\n", (1, 15, 2, 1));
    // No name crosses a line end: here the second card has it.
    assert_fault("A=BCDEFG...\nHIJKLMN", (1, 15, 2, 1));
}

#[test]
fn a_bad_number_stands_at_its_first_byte() {
    assert_fault("A=2X", (1, 16, 1, 3));
    assert_fault("A=1+.+2", (1, 16, 1, 5));
    assert_fault("A=12.34E100", (1, 16, 1, 3));
    assert_fault("2X=1", (1, 16, 1, 1));
    assert_fault("A=1...\n+ 1E", (1, 16, 2, 3));
    assert_fault("A=1...\n*\n*\n1E+", (1, 16, 4, 1));
    // Five dots: three of them close, two are left. Six leave three.
    assert_fault("A=1.....\n+1", (1, 16, 1, 3));
    assert_fault("A=1+......  \n+1", (1, 16, 1, 5));
    // Dots that do not close.
    assert_fault("A=1+...1", (1, 16, 1, 5));
    assert_eq!(
        placed("A=1...\r\n1", 5),
        [(1, 16, 1, 3), (2, 18, 2, 1)],
        "the first bad token is the number, not the byte behind it"
    );
}

#[test]
fn a_number_out_of_range_stands_at_its_first_byte() {
    assert_fault("A=1E23", (1, 17, 1, 3));
    assert_fault("CONST A=1,B=-0.1E-22", (1, 17, 1, 14));
    assert_fault("A=...\n*\n*\n1000000000000000", (1, 17, 4, 1));
    assert_fault("A=1...\n  +  1E-23+2X ...\n2", (1, 17, 2, 6));
    // 16 comes before 17 in one token, and the first token before all.
    assert_fault("A=1E23X+1E23", (1, 16, 1, 3));
    assert_fault("A=1E23+2X", (1, 17, 1, 3));
    assert_fault("A=)+1E23", (1, 17, 1, 5));
}

#[test]
fn grammar_at_a_token() {
    assert_fault("A=TIME*-2", (1, 18, 1, 8));
    assert_fault("TIME=1", (1, 18, 1, 1));
    assert_fault("  TIME=1", (1, 18, 1, 3));
    assert_fault("A=)", (1, 18, 1, 3));
    assert_fault("A=1 TIME", (1, 18, 1, 5));
    assert_fault("A=INSW(1,2)", (1, 18, 1, 11));
    assert_fault("A=INSW(1,2,3,4)", (1, 18, 1, 13));
    assert_fault("A=INTGRL(-B,1)", (1, 18, 1, 11));
    assert_fault("A=INTGRL(1,2)+1", (1, 18, 1, 14));
    assert_fault("CONST A=1,B=C", (1, 18, 1, 13));
    assert_fault("CONST A=1+2", (1, 18, 1, 10));
    assert_fault("PROCED A,B=F(C,1)", (1, 18, 1, 16));
    assert_fault("ENDPRO ENDPRO", (1, 18, 1, 8));
    // The first one, whatever stands behind it.
    assert_fault("A=1 2 ) , = TIME", (1, 18, 1, 5));
}

#[test]
fn grammar_at_a_token_of_a_later_card() {
    assert_fault("A=1...\n2", (1, 18, 2, 1));
    assert_fault("A=1 ...  \n  2...\n", (1, 11, 2, 6));
    assert_fault("A=1 ...  \n  2...\n\n", (1, 18, 2, 3));
    assert_fault("A=3...\n*2\nB=1", (1, 18, 3, 1));
    assert_fault("A=(1...\n*\n,2)", (1, 18, 3, 1));
    assert_fault("A=1...\n...\n   )", (1, 18, 3, 4));
    assert_fault("A=1...\n+1...\n*\n*\n+1...\n*\n+1+*2", (1, 18, 7, 4));
    assert_fault("*\n\n  PROCED A,...\n* C\n TIME=F(C)", (3, 18, 5, 2));
    assert_fault("A=INTGRL...\n(...\n*\n(1),2)", (1, 18, 4, 1));
    assert_fault(&format!("A=1...\n{})", spaces(71)), (1, 18, 2, 72));
    // Each statement has its own.
    assert_eq!(
        placed("A=B\nB=)\n*\n C=1 1\nD=...\n* D\n,", 5),
        [(2, 18, 2, 3), (4, 18, 4, 6), (5, 18, 7, 1)]
    );
    // A blank card ends the statement; what follows is another one.
    assert_fault("A=1...\n* C\n\n+2", (4, 18, 4, 1));
}

#[test]
fn grammar_at_an_early_end() {
    assert_fault("A", (1, 18, 1, 1));
    assert_fault("A=", (1, 18, 1, 2));
    assert_fault("A=1+", (1, 18, 1, 4));
    assert_fault("A=INSW(1,2", (1, 18, 1, 10));
    assert_fault("A=INSW", (1, 18, 1, 6));
    assert_fault("CONST", (1, 18, 1, 5));
    assert_fault("CONST A=1,", (1, 18, 1, 10));
    assert_fault("PROCED A=F(C", (1, 18, 1, 12));
    // Trailing spaces are included.
    assert_fault("A=1+  ", (1, 18, 1, 6));
    assert_fault("  A=(1    \nB=1", (1, 18, 1, 10));
    assert_fault(&format!("A={}\n", spaces(70)), (1, 18, 1, 72));
    // On later cards.
    assert_fault("A=1+...\nTIME*", (1, 18, 2, 5));
    assert_fault("A=1+... \n* C\n    2*   \n", (1, 18, 3, 9));
    assert_fault("A=(...\n(...\n(...\n*2\n1", (1, 18, 5, 1));
    // Blank cards, empty or not: the end is on them, not on the last token.
    assert_fault("A=1+...\n\n", (1, 18, 2, 1));
    assert_fault("A=1+...\n\nB=1", (1, 18, 2, 1));
    assert_fault("A=1+...\n \n", (1, 18, 2, 1));
    assert_fault("A=1+...\n   \n", (1, 18, 2, 3));
    assert_fault("A=1+...\n   ", (1, 18, 2, 3));
    assert_fault("A=1+...\n*\n*\n\nB=1", (1, 18, 4, 1));
    assert_fault("A=1+...\n...\n*\n  ...\n*\n    \n*\n", (1, 18, 6, 4));
}

#[test]
fn a_statement_without_tokens_ends_early() {
    assert_fault("...\n\n", (1, 18, 2, 1));
    assert_fault("...\n ", (1, 18, 2, 1));
    assert_fault("...\n     \nA=1", (1, 18, 2, 5));
    assert_fault(" ...  \n*\n  ", (1, 18, 3, 2));
    assert_fault("*\n\n...\n   ...\n*\n ...\n\n", (3, 18, 7, 1));
}

#[test]
fn level_17_stands_at_its_parenthesis() {
    assert_fault(&format!("A={}", "(".repeat(17)), (1, 19, 1, 19));
    assert_fault(&format!("A={}1", "(".repeat(20)), (1, 19, 1, 19));
    assert_fault(&format!("A={} -1* (1", "(".repeat(16)), (1, 19, 1, 24));
    // INTGRL itself is not counted: 11 bytes, then the seventeenth.
    let state = format!("A=INTGRL(0,{}", "(".repeat(17));
    assert_fault(&state, (1, 19, 1, 28));
    // On a later card.
    let sixteen = format!("A={}...\n", "(".repeat(16));
    assert_fault(&format!("{sixteen}(1"), (1, 19, 2, 1));
    assert_fault(&format!("{sixteen}*\n* C\n  1+(1"), (1, 19, 4, 5));
    // Of a function it is the parenthesis too, not the word.
    let calls = format!("A={0}...\n{0}...\n", "COMPAR(".repeat(8));
    assert_fault(&format!("{calls}COMPAR(1"), (1, 19, 3, 7));
    assert_fault(&format!("{calls}*\n COMPAR...\n*\n  (1"), (1, 19, 6, 3));
    // The word without it is no opening.
    assert_fault(&format!("{calls}COMPAR"), (1, 18, 3, 6));
    assert_fault(&format!("{calls}COMPAR  )"), (1, 18, 3, 9));
    // Levels that are closed do not count.
    assert_fault(&format!("{sixteen}1)*(1*(2"), (1, 19, 2, 7));
    assert_fault(&format!("{sixteen}1))*((2"), (1, 18, 2, 7));
}

#[test]
fn open_at_the_end_of_the_text() {
    assert_fault("A=1...", (1, 11, 1, 6));
    assert_fault("A=1...\n", (1, 11, 1, 6));
    assert_fault("  A=1...", (1, 11, 1, 8));
    // Dots and spaces are included.
    assert_fault("A=1...  ", (1, 11, 1, 8));
    assert_fault("A=1   ....", (1, 11, 1, 10));
    assert_fault("...", (1, 11, 1, 3));
    assert_fault("*\n ...   \n", (2, 11, 2, 7));
    // On later cards, blank but for the dots or not.
    assert_fault("A=1...\n+1 ... ", (1, 11, 2, 7));
    assert_fault("A=1...\n   ...   \n", (1, 11, 2, 9));
    // Behind trailing comments it is still on the last card.
    assert_fault("A=3...\n*2", (1, 11, 1, 6));
    assert_fault("A=3...\n*2\n", (1, 11, 1, 6));
    assert_fault("A=1...\n*\n+1 ... \n*\n* ...\n*2", (1, 11, 3, 7));
    let comments = "*\n".repeat(1023);
    assert_fault(&format!("A=1...\n{comments}"), (1, 11, 1, 6));
    // 11 comes before 12 and 13, and has its own place then.
    let five = "A=1...\n+1...\n+1...\n+1...\n*\n+1...";
    assert_fault(five, (1, 11, 6, 5));
    assert_fault(&format!("A=1{}...", spaces(70)), (1, 11, 1, 76));
    assert_fault(&format!("A=1...{}\n*\n", spaces(70)), (1, 11, 1, 76));
    // It comes before bad tokens.
    assert_fault("#...\n2X...", (1, 11, 2, 5));
    // A whole text on one card.
    assert_fault(&format!("A{}...", spaces(32_764)), (1, 11, 1, 32_768));
}

#[test]
fn too_many_or_too_long_cards_stand_at_the_first_byte() {
    let more = "+1...\n".repeat(3);
    assert_fault(&format!("A=1...\n{more}+1\nB=1"), (1, 12, 1, 1));
    assert_fault(&format!("*\n\n  A=1...\n*\n{more}*\n#"), (3, 12, 3, 1));
    assert_fault(&format!("...\n{more}\n"), (1, 12, 1, 1));
    assert_fault(&format!("A={}", spaces(71)), (1, 13, 1, 1));
    assert_fault(&format!("{}A=1", spaces(70)), (1, 13, 1, 1));
    // The long card is a later one.
    assert_fault(&format!("*\n A=1...\n*\n+1{}", spaces(71)), (2, 13, 2, 1));
    assert_fault(&format!("A=#...\n{}", spaces(73)), (1, 13, 1, 1));
    // 12 comes before 13.
    let long = format!("  A={}...\n{more}+1", spaces(80));
    assert_fault(&long, (1, 12, 1, 1));
}

#[test]
fn model_faults_stand_at_the_first_byte() {
    assert_model_fault("A=1\n*\n  A=...\n*\n2", (3, 21, 3, 1));
    assert_model_fault("CONST B=1,...\nB=2", (1, 21, 1, 1));
    assert_model_fault("   A=1+...\n*\n  B", (1, 22, 1, 1));
    assert_model_fault("*\n X=INTGRL(...\nY,1)\nY=2", (2, 23, 2, 1));
    assert_model_fault("\n\n  A=...\n A", (3, 24, 3, 1));
    assert_model_fault("*\n  ENDPRO", (2, 25, 2, 1));
    let block = "CONST C=1\n  PROCED A...\n*\n=F(C)\nB=C\nENDPRO";
    assert_model_fault(block, (2, 26, 2, 1));
}

/// Puts one comment more behind each line of a text in turn: then each of both
/// line numbers is one higher if it stands behind the comment, and no column moves.
fn assert_comments_move_lines(text: &str, number: u32) {
    let lines: Vec<&str> = text.split('\n').collect();
    let before = placed(text, number);
    for place in 0..lines.len() {
        let longer = [&lines[..place], &["* #..."], &lines[place..]].concat();
        let moved = |line: u16| line + (line as usize > place) as u16;
        let expected = before
            .iter()
            .map(|&(line, code, at, column)| (moved(line), code, moved(at), column));
        let expected: Vec<_> = expected.collect();
        assert_eq!(placed(&longer.join("\n"), number), expected, "{longer:?}");
    }
}

#[test]
fn a_comment_moves_both_lines_alike() {
    assert_comments_move_lines("A=1...\n+1...\n#\nB=...\n...\n\nC=1...\n...  \n", 5);
    assert_comments_move_lines("A=1...\n+1...\n(\nB=...\n...\n  \nC=1 1\n  D=...\n2X", 5);
    assert_comments_move_lines("  A=1...\n+1\nB=...\nQ\n A=...\n2\nA=3\n", 7);
}
