//! What the place of a fault must be by the bytes of the text alone, and by what
//! the text cut off there gives, on random texts, by the peer alone.

use floesedge_check::random::Random;
use floesedge_check::texts;
use floesedge_peer::limits::{FAULT, FAULT_LIST, MAX_PROGRAM};
use floesedge_peer::translate;

/// The texts looked at.
const TEXTS: u64 = 4000;

/// A fault: line, code, line of its place, column.
type Fault = (usize, u8, usize, usize);

/// The faults of a text, if it is refused with 5 or 7.
fn faults(text: &[u8]) -> Vec<Fault> {
    let (mut list, mut program) = (vec![0; FAULT_LIST], vec![0; MAX_PROGRAM]);
    let verdict = translate(text, &mut list, &mut program);
    let listed = verdict.count as usize * matches!(verdict.number, 5 | 7) as usize;
    let pair = |bytes: &[u8], at: usize| u16::from_le_bytes([bytes[at], bytes[at + 1]]) as usize;
    let fault = |bytes: &[u8]| (pair(bytes, 0), bytes[2], pair(bytes, 4), pair(bytes, 6));
    list.chunks(FAULT).take(listed).map(fault).collect()
}

/// The lines of a text, byte 10 left out.
fn lines(text: &[u8]) -> Vec<&[u8]> {
    let lines = text.split_inclusive(|&byte| byte == b'\n');
    lines
        .map(|line| line.strip_suffix(b"\n").unwrap_or(line))
        .collect()
}

/// Whether a line closes with dots.
fn has_dots(line: &[u8]) -> bool {
    let spaces = line.iter().rev().take_while(|&&byte| byte == b' ');
    line[..line.len() - spaces.count()].ends_with(b"...")
}

/// Whether a byte may stand in a statement.
fn is_good(byte: u8) -> bool {
    byte.is_ascii_uppercase() || byte.is_ascii_digit() || b". =(),+-*/".contains(&byte)
}

/// Whether a byte may stand in a name or a number.
fn is_joined(byte: u8) -> bool {
    byte.is_ascii_uppercase() || byte.is_ascii_digit() || byte == b'.'
}

/// A fault in its text.
struct Found<'a> {
    lines: Vec<&'a [u8]>,
    fault: Fault,
}

impl Found<'_> {
    /// The line of the place up to it, and from it on.
    fn parted(&self) -> (&[u8], &[u8]) {
        let (_, _, line, column) = self.fault;
        let whole = self.lines[line - 1];
        whole.split_at((column - 1).min(whole.len()))
    }

    /// The bytes of the statement before its place, comments left out.
    fn before(&self) -> Vec<u8> {
        let (first, _, line, _) = self.fault;
        let cards = self.lines[first - 1..line - 1].iter();
        let mut bytes = Vec::new();
        for card in cards.filter(|card| !card.starts_with(b"*")) {
            bytes.extend_from_slice(card);
            bytes.push(b' ');
        }
        bytes.extend_from_slice(self.parted().0);
        bytes
    }

    /// Whether the place is the last byte of a line, or column 1 of an empty one.
    fn is_last_byte(&self) -> bool {
        let (_, _, line, column) = self.fault;
        column == self.lines[line - 1].len().max(1)
    }

    /// The text up to the place, and so many bytes more.
    fn cut_off(&self, more: usize) -> Vec<u8> {
        let (_, _, line, _) = self.fault;
        let (before, behind) = self.parted();
        let mut text = self.lines[..line - 1].join(&b'\n');
        if line > 1 {
            text.push(b'\n');
        }
        text.extend_from_slice(before);
        text.extend_from_slice(&behind[..more.min(behind.len())]);
        text.push(b'\n');
        text
    }

    /// The statement fault of the same statement in another text.
    fn again(&self, text: &[u8]) -> Option<Fault> {
        let mut found = faults(text).into_iter();
        found.find(|&(line, code, ..)| line == self.fault.0 && code < 20)
    }

    /// What holds of every place.
    fn assert_on_a_card(&self) {
        let (first, _, line, column) = self.fault;
        assert!(first <= line && line <= self.lines.len());
        assert!(column >= 1 && column <= self.lines[line - 1].len().max(1));
        assert!(!self.lines[line - 1].starts_with(b"*"));
        // From its first line on the statement goes on up to the place.
        let cards = self.lines[first - 1..line - 1].iter();
        assert!({ cards }.all(|card| card.starts_with(b"*") || has_dots(card)));
    }

    /// What holds of the place of an open statement.
    fn assert_open(&self) {
        let (_, _, line, _) = self.fault;
        assert!(self.is_last_byte() && has_dots(self.lines[line - 1]));
        assert!(self.lines[line..].iter().all(|card| card.starts_with(b"*")));
    }

    /// What holds of the place of a bad token.
    fn assert_bad_token(&self) {
        let (before, behind) = (self.before(), self.parted().1);
        assert!(before.iter().all(|&byte| is_good(byte)));
        let name = behind
            .iter()
            .take_while(|&&byte| is_joined(byte) && byte != b'.');
        match self.fault.1 {
            14 => assert!(!is_good(behind[0])),
            15 => assert!(behind[0].is_ascii_uppercase() && name.count() > 6),
            _ => assert!(behind[0].is_ascii_digit() || behind[0] == b'.'),
        }
        // What stands before it has no bad token.
        let short = self.again(&self.cut_off(0));
        assert!(!short.is_some_and(|fault| matches!(fault.1, 14..=17)));
    }

    /// What holds of the place of a token that does not fit.
    fn assert_grammar(&self) {
        let (first, code, line, _) = self.fault;
        let (before, behind) = self.parted();
        if self.is_last_byte() && !has_dots(self.lines[line - 1]) {
            // An early end, or a token of one byte.
            assert!(code == 18 || behind == b"(");
            return;
        }
        assert!(behind[0] != b' ');
        let opened = self.before().iter().filter(|&&byte| byte == b'(').count();
        assert!(code == 18 || (behind[0] == b'(' && opened >= 16));
        // What stands before it lacks nothing but more tokens.
        if let Some((_, code, end, column)) = self.again(&self.cut_off(0)) {
            assert_eq!((code, end, column), (18, line, before.len().max(1)));
        }
        // Without what stands behind it, it is at fault all the same.
        let token = behind.iter().take_while(|&&byte| is_joined(byte)).count();
        let exponent = behind[0].is_ascii_digit() || behind[0] == b'.';
        if !exponent && !has_dots(&behind[..token.max(1)]) {
            let fault = self.again(&self.cut_off(token.max(1)));
            assert_eq!(fault, Some((first, code, line, before.len() + 1)));
        }
    }

    /// What holds of the place of this fault.
    fn assert_place(&self) {
        self.assert_on_a_card();
        match self.fault.1 {
            11 => self.assert_open(),
            14..=17 => self.assert_bad_token(),
            18 | 19 => self.assert_grammar(),
            _ => assert_eq!((self.fault.2, self.fault.3), (self.fault.0, 1)),
        }
    }
}

#[test]
fn each_place_is_what_it_says() {
    for case in 0..TEXTS {
        let text = texts::text(&mut Random::new(11, case * 2));
        for fault in faults(&text).into_iter().take(20) {
            let lines = lines(&text);
            Found { lines, fault }.assert_place();
        }
    }
}
