//! Lines and statements.

use crate::faults::{Spot, Wrong};
use crate::limits::{LINE_BYTES, MAX_LINES, STATEMENT_LINES};

/// The text ends while the statement continues.
pub const UNFINISHED: u8 = 11;
/// A statement of more than four lines.
pub const TOO_MANY_LINES: u8 = 12;
/// A statement line of more than 72 bytes.
pub const LINE_TOO_LONG: u8 = 13;

/// The places in a text where its lines end, byte 10 left out.
pub struct Lines<'a> {
    text: &'a [u8],
    ends: Vec<u16>,
}

impl<'a> Lines<'a> {
    /// Finds all lines of a text that is not too long; none if they are too many.
    pub fn find(text: &'a [u8]) -> Option<Self> {
        let mut lines = Lines {
            text,
            ends: Vec::with_capacity(text.len().min(MAX_LINES)),
        };
        let chunks = text.chunks_exact(8);
        let tail = chunks.remainder();
        let mut base = 0;
        for chunk in chunks {
            let mut hits = line_ends(u64::from_le_bytes(chunk.try_into().unwrap()));
            while hits != 0 {
                lines.add(base + hits.trailing_zeros() as usize / 8)?;
                hits &= hits - 1;
            }
            base += 8;
        }
        for (i, &byte) in tail.iter().enumerate() {
            if byte == b'\n' {
                lines.add(base + i)?;
            }
        }
        if text.last().is_some_and(|&byte| byte != b'\n') {
            lines.add(text.len())?;
        }
        Some(lines)
    }

    /// Notes the end of one more line; none if there is no room for it.
    fn add(&mut self, end: usize) -> Option<()> {
        if self.ends.len() == MAX_LINES {
            return None;
        }
        self.ends.push(end as u16);
        Some(())
    }

    /// The line of an index from 0, without its byte 10.
    fn line(&self, index: usize) -> &'a [u8] {
        let begin = if index == 0 {
            0
        } else {
            self.ends[index - 1] as usize + 1
        };
        &self.text[begin..self.ends[index] as usize]
    }

    /// How many lines there are.
    pub fn count(&self) -> usize {
        self.ends.len()
    }

    /// The cards of the statement with this first line.
    pub fn cards(&self, line: u32) -> Cards<'a, '_> {
        Cards {
            lines: self,
            next: line as usize - 1,
            continues: true,
        }
    }

    /// The statements of the text from the top.
    pub fn statements(&self) -> Statements<'a, '_> {
        Statements {
            lines: self,
            next: 0,
        }
    }
}

/// Marks with its top bit each byte of a word that is byte 10, exactly.
fn line_ends(word: u64) -> u64 {
    const LOW: u64 = 0x7f7f_7f7f_7f7f_7f7f;
    let word = word ^ 0x0a0a_0a0a_0a0a_0a0a;
    !(((word & LOW) + LOW) | word | LOW)
}

/// A line of a statement: its number, its text as it stands, and that without
/// closing dots and trailing spaces.
pub struct Card<'a> {
    pub line: u32,
    pub whole: &'a [u8],
    pub part: &'a [u8],
}

/// Walks over the lines of one statement. Comments between and behind them are
/// none of them.
pub struct Cards<'a, 'b> {
    lines: &'b Lines<'a>,
    next: usize,
    continues: bool,
}

impl<'a> Iterator for Cards<'a, '_> {
    type Item = Card<'a>;

    /// Passes over comments and takes one line, if the statement goes on.
    #[inline(always)]
    fn next(&mut self) -> Option<Card<'a>> {
        while self.continues && self.next < self.lines.count() {
            let whole = self.lines.line(self.next);
            self.next += 1;
            if !is_comment(whole) {
                let line = self.next as u32;
                let part;
                (part, self.continues) = without_dots(whole);
                return Some(Card { line, whole, part });
            }
        }
        None
    }
}

/// One statement: its number, the texts of its lines without the closing dots,
/// and the fault that its lines alone show.
pub struct Statement<'a> {
    pub line: u32,
    parts: [&'a [u8]; STATEMENT_LINES],
    count: usize,
    fault: Option<u8>,
}

impl<'a> Statement<'a> {
    /// What its lines alone show to be wrong.
    pub fn wrong(&self) -> Option<Wrong> {
        let code = self.fault?;
        let spot = match code {
            UNFINISHED => Spot::Last,
            _ => Spot::First,
        };
        Some(Wrong { code, spot })
    }

    /// The parts to be joined with a space; complete if there is no fault.
    pub fn parts(&self) -> &[&'a [u8]] {
        &self.parts[..self.count.min(STATEMENT_LINES)]
    }
}

/// Walks over the statements of a text.
pub struct Statements<'a, 'b> {
    lines: &'b Lines<'a>,
    next: usize,
}

impl<'a> Iterator for Statements<'a, '_> {
    type Item = Statement<'a>;

    /// Passes over comments and blanks and takes one whole run of lines, with the
    /// comments among them and behind closing dots.
    fn next(&mut self) -> Option<Statement<'a>> {
        while self.next < self.lines.count() && is_passed_over(self.lines.line(self.next)) {
            self.next += 1;
        }
        if self.next == self.lines.count() {
            return None;
        }
        let line = self.next as u32 + 1;
        let mut statement = Statement {
            line,
            parts: [&[]; STATEMENT_LINES],
            count: 0,
            fault: None,
        };
        let mut too_long = false;
        let mut cards = self.lines.cards(line);
        for card in cards.by_ref() {
            too_long |= card.whole.len() > LINE_BYTES;
            if let Some(place) = statement.parts.get_mut(statement.count) {
                *place = card.part;
            }
            statement.count += 1;
        }
        self.next = cards.next;
        statement.fault = if cards.continues {
            Some(UNFINISHED)
        } else if statement.count > STATEMENT_LINES {
            Some(TOO_MANY_LINES)
        } else if too_long {
            Some(LINE_TOO_LONG)
        } else {
            None
        };
        Some(statement)
    }
}

/// Whether a line is a comment, wherever it stands.
fn is_comment(line: &[u8]) -> bool {
    line.first() == Some(&b'*')
}

/// Whether a fresh line is a comment or a blank.
fn is_passed_over(line: &[u8]) -> bool {
    is_comment(line) || line.iter().all(|&byte| byte == b' ')
}

/// Takes trailing spaces off a line, and closing dots if there are any,
/// and tells whether there were.
fn without_dots(line: &[u8]) -> (&[u8], bool) {
    let mut line = line;
    while let [rest @ .., b' '] = line {
        line = rest;
    }
    match line {
        [rest @ .., b'.', b'.', b'.'] => (rest, true),
        _ => (line, false),
    }
}

#[cfg(test)]
mod tests {
    use super::*;

    #[test]
    fn line_ends_are_exact() {
        assert_eq!(
            line_ends(u64::from_le_bytes(*b"\n\x0b\n\n\x09\x8a\x00\n")),
            0x8000_0000_8080_0080
        );
    }

    #[test]
    fn a_last_line_counts_only_if_not_empty() {
        assert_eq!(Lines::find(b"").unwrap().count(), 0);
        assert_eq!(Lines::find(b"\n").unwrap().count(), 1);
        assert_eq!(Lines::find(b"A\n").unwrap().count(), 1);
        assert_eq!(Lines::find(b"A\n ").unwrap().count(), 2);
        assert_eq!(Lines::find(b"\n\nABCDEFGHIJ\nX").unwrap().count(), 4);
    }

    /// Number, parts and fault of each statement of a text.
    fn read(text: &[u8]) -> Vec<(u32, Vec<Vec<u8>>, Option<u8>)> {
        let lines = Lines::find(text).unwrap();
        let parts = |s: &Statement| s.parts().iter().map(|part| part.to_vec()).collect();
        lines
            .statements()
            .map(|s| (s.line, parts(&s), s.fault))
            .collect()
    }

    /// The same, written down.
    fn statement(line: u32, parts: &[&str], fault: Option<u8>) -> (u32, Vec<Vec<u8>>, Option<u8>) {
        let parts = parts.iter().map(|part| part.as_bytes().to_vec()).collect();
        (line, parts, fault)
    }

    #[test]
    fn statements_are_runs() {
        assert_eq!(
            read(b"* c ...\n\n   \nA=1 ...  \n*2\n *3\n...\n\nB"),
            [
                statement(4, &["A=1 ", " *3"], None),
                statement(7, &["", ""], None),
                statement(9, &["B"], None),
            ]
        );
    }

    #[test]
    fn comments_are_no_part_of_a_statement() {
        assert_eq!(
            read(b"A=1...\n*\n* c ...\n+2...\n*3...\n+4\n*5\nB"),
            [
                statement(1, &["A=1", "+2", "+4"], None),
                statement(8, &["B"], None),
            ]
        );
        // A blank ends the statement, also behind a comment.
        assert_eq!(
            read(b"A=1...\n* c\n\nB=2"),
            [
                statement(1, &["A=1", ""], None),
                statement(4, &["B=2"], None),
            ]
        );
    }

    #[test]
    fn statements_stay_open_behind_comments() {
        let open = [statement(1, &["A=3"], Some(UNFINISHED))];
        for text in [
            &b"A=3..."[..],
            b"A=3...\n*2",
            b"A=3...\n*2\n",
            b"A=3...\n*\n* ...\n*2",
        ] {
            assert_eq!(read(text), open);
        }
    }

    #[test]
    fn cards_have_their_own_lines() {
        let lines = Lines::find(b"*\nA=1 ...  \n*2\n*\n  ...\n*\n\nB").unwrap();
        let cards = |line| -> Vec<(u32, &[u8], &[u8])> {
            let cards = lines.cards(line);
            cards.map(|c| (c.line, c.whole, c.part)).collect()
        };
        assert_eq!(
            cards(2),
            [
                (2, &b"A=1 ...  "[..], &b"A=1 "[..]),
                (5, b"  ...", b"  "),
                (7, b"", b""),
            ]
        );
        assert_eq!(cards(8), [(8, &b"B"[..], &b"B"[..])]);
    }

    #[test]
    fn more_than_three_dots_leave_the_rest() {
        assert_eq!(without_dots(b"A=1....  "), (&b"A=1."[..], true));
        assert_eq!(without_dots(b"A=1.. ."), (&b"A=1.. ."[..], false));
        assert_eq!(without_dots(b"..."), (&b""[..], true));
        assert_eq!(without_dots(b"...\r"), (&b"...\r"[..], false));
    }
}
