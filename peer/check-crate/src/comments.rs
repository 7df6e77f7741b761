//! Comment cards inside statements: texts with them, what of them a text has,
//! and a comment put into any text.

use crate::limits::{BYTES, LINES};
use crate::random::Random;

// Comments.

/// A comment card of any length, at times with closing dots, with what would go
/// on with an expression, or with bytes that no statement has.
pub fn comment(random: &mut Random) -> Vec<u8> {
    let mut card = b"*".to_vec();
    match random.below(8) {
        0 => {}
        1 => card.extend(b" COMMENT"),
        2 | 3 => {
            let factor = random.pick(&["2", "TIME", "(1)", ".5", "2+1", "A=1"]);
            card.extend(factor.bytes());
        }
        4 => card.extend(b"x#=".repeat(random.below(30))),
        5 => card.extend(b"-".repeat(random.range(70, 74))),
        6 => card.extend(b" LONG".repeat(random.range(15, 40))),
        _ => {
            let count = random.below(100);
            let bytes = random.bytes(count);
            card.extend(bytes.into_iter().filter(|&byte| byte != b'\n'));
        }
    }
    if random.once_in(4) {
        let dots = random.pick(&["...", " ...", "...  ", "...."]);
        card.extend(dots.bytes());
    }
    card
}

/// A comment as text.
pub(crate) fn comment_line(random: &mut Random) -> String {
    loop {
        if let Ok(line) = String::from_utf8(comment(random)) {
            return line;
        }
    }
}

/// The lines of a text, byte 10 left out.
fn lines(text: &[u8]) -> Vec<&[u8]> {
    let mut lines: Vec<&[u8]> = text.split(|&byte| byte == b'\n').collect();
    if lines.last().is_some_and(|last| last.is_empty()) {
        lines.pop();
    }
    lines
}

/// Whether a line closes with dots, trailing spaces aside.
fn has_dots(line: &[u8]) -> bool {
    let behind = line.iter().rposition(|&byte| byte != b' ');
    behind.is_some_and(|last| line[..=last].ends_with(b"..."))
}

/// A place for a comment: how many lines stand before it. Often one behind dots,
/// if there is any.
pub fn place(random: &mut Random, text: &[u8]) -> usize {
    let lines = lines(text);
    let behind: Vec<usize> = (1..=lines.len())
        .filter(|&count| has_dots(lines[count - 1]))
        .collect();
    if behind.is_empty() || random.once_in(3) {
        random.below(lines.len() + 1)
    } else {
        random.pick(&behind)
    }
}

/// A text with one line more, behind so many of its lines, or at its end.
pub fn put_in(text: &[u8], place: usize, card: &[u8]) -> Vec<u8> {
    let mut at = 0;
    for line in lines(text).iter().take(place) {
        at += line.len() + 1;
    }
    if at > text.len() {
        // The last line lacks its byte 10, and the comment will.
        return [text, b"\n", card].concat();
    }
    [&text[..at], card, b"\n", &text[at..]].concat()
}

/// A text with some comments more.
pub fn with_comments(random: &mut Random, mut text: Vec<u8>) -> Vec<u8> {
    for _ in 0..random.pick(&[1, 1, 2, 5]) {
        let place = place(random, &text);
        text = put_in(&text, place, &comment(random));
    }
    text
}

// Texts.

/// Statements of one to six cards with comments and blanks among them, at times
/// with a last one that stays open, behind comments or not.
pub(crate) fn cards(random: &mut Random) -> Vec<u8> {
    let most = random.pick(&[4, 4, 4, 5, 6]);
    let odd = random.pick(&[8, 30, 1000]);
    let mut text = Vec::new();
    for i in 0..random.range(1, 5) {
        let count = random.pick(&[1, 2, 3, 4, 4, most]);
        for card in 0..count {
            let dots = card + 1 < count;
            let body = match card {
                0 => format!("C{i}=1"),
                _ => random
                    .pick(&["+1", " *2", "/TIME", "-TIME", "", "   "])
                    .into(),
            };
            put_card(random, &mut text, &body, dots, odd);
            while dots && random.once_in(2) {
                text.extend(comment(random));
                text.push(b'\n');
            }
            if dots && random.once_in(odd) {
                let line = random.pick(&["\n", "  \n", "B=1\n", "*2\n", "+2X\n"]);
                text.extend(line.bytes());
            }
        }
        while random.once_in(4) {
            text.extend(comment(random));
            text.push(b'\n');
        }
    }
    if random.once_in(4) {
        text.extend(b"LAST=1...\n");
        for _ in 0..random.below(5) {
            text.extend(comment(random));
            text.push(b'\n');
        }
    }
    if random.once_in(3) {
        text.pop();
    }
    text
}

/// Adds a card, at times of just about 72 bytes.
fn put_card(random: &mut Random, text: &mut Vec<u8>, body: &str, dots: bool, odd: usize) {
    let end = if dots { "..." } else { "" };
    let wanted = if random.once_in(odd) {
        random.range(71, 74)
    } else {
        body.len() + end.len() + random.pick(&[0, 0, 1, 5])
    };
    let spaces = " ".repeat(wanted - body.len() - end.len());
    let card = if random.once_in(2) {
        [body, &spaces, end].concat()
    } else {
        [body, end, &spaces].concat()
    };
    text.extend(card.bytes());
    text.push(b'\n');
}

/// A statement whose one comment, or whose many, take all the room that a text
/// has left, or a little more.
pub(crate) fn filled(random: &mut Random, text: &mut Vec<u8>) {
    if text.last().is_some_and(|&byte| byte != b'\n') {
        text.push(b'\n');
    }
    text.extend(b"FILLED=1...\n");
    let behind = random.pick(&["", "+1", "+1\n", "\n", " *2...\n*\n"]);
    if random.once_in(2) {
        let wanted = BYTES.about(random);
        let count = wanted.saturating_sub(text.len() + 2 + behind.len());
        text.extend([b"*".as_slice(), &b"x".repeat(count), b"\n"].concat());
    } else {
        let wanted = LINES.about(random);
        let have = text.iter().filter(|&&byte| byte == b'\n').count();
        text.extend(b"*\n".repeat(wanted.saturating_sub(have + lines(behind.as_bytes()).len())));
    }
    text.extend(behind.bytes());
}

// What a text has.

/// What statements with comments inside may look like, and what they are told from.
#[derive(Clone, Copy, Debug, PartialEq, Eq, PartialOrd, Ord)]
pub enum Shape {
    /// Comments with a card of the same statement behind them.
    CommentBetweenCards,
    /// Dots, then comments up to the end of the text.
    CommentsBehindLastDots,
    /// A comment of more than 72 bytes between cards.
    LongCommentInside,
    /// A comment that closes with dots between cards.
    DottedCommentInside,
    /// Right behind dots a star with what it would multiply by.
    StarBehindDots,
    /// A card inside that begins with spaces and a star.
    SpacedStarInside,
    /// At most four cards that are more than four lines with their comments.
    FourCardsManyLines,
    /// More than four cards, comments among them.
    FiveCardsWithComments,
    /// A card of more than 72 bytes in a statement with comments.
    LongCardWithComments,
    /// A blank line that ends a statement.
    BlankInside,
    /// The same behind a comment.
    BlankBehindComment,
}

impl Shape {
    /// All of them.
    pub const ALL: [Shape; 11] = [
        Shape::CommentBetweenCards,
        Shape::CommentsBehindLastDots,
        Shape::LongCommentInside,
        Shape::DottedCommentInside,
        Shape::StarBehindDots,
        Shape::SpacedStarInside,
        Shape::FourCardsManyLines,
        Shape::FiveCardsWithComments,
        Shape::LongCardWithComments,
        Shape::BlankInside,
        Shape::BlankBehindComment,
    ];
}

/// The lines of a statement from its first to its last, or to the end of the
/// text if it stays open there.
struct Run<'a> {
    lines: Vec<&'a [u8]>,
    open: bool,
}

/// Whether a line is a comment.
fn is_comment(line: &[u8]) -> bool {
    line.starts_with(b"*")
}

/// Whether a line is empty or of spaces alone.
fn is_blank(line: &[u8]) -> bool {
    line.iter().all(|&byte| byte == b' ')
}

/// The runs of a text.
fn runs(text: &[u8]) -> Vec<Run<'_>> {
    let lines = lines(text);
    let mut runs = Vec::new();
    let mut rest = &lines[..];
    while let Some(first) = rest
        .iter()
        .position(|line| !is_comment(line) && !is_blank(line))
    {
        rest = &rest[first..];
        let last = rest
            .iter()
            .position(|line| !is_comment(line) && !has_dots(line));
        let count = last.map_or(rest.len(), |last| last + 1);
        runs.push(Run {
            lines: rest[..count].to_vec(),
            open: last.is_none(),
        });
        rest = &rest[count..];
    }
    runs
}

/// What of comments inside statements a text has, each once.
pub fn shapes(text: &[u8]) -> Vec<Shape> {
    let runs = runs(text);
    let holds = |shape: &Shape| runs.iter().any(|run| run.has(*shape));
    Shape::ALL.into_iter().filter(holds).collect()
}

/// Whether a comment stands inside a statement of a text or behind its dots.
pub fn has_comments_inside(text: &[u8]) -> bool {
    runs(text)
        .iter()
        .any(|run| run.lines.iter().any(|line| is_comment(line)))
}

/// Whether a place in a text is inside a statement or behind its dots.
pub fn is_inside(text: &[u8], place: usize) -> bool {
    let head: Vec<u8> = lines(text)
        .iter()
        .take(place)
        .flat_map(|line| [line, b"\n".as_slice()].concat())
        .collect();
    runs(&head).last().is_some_and(|run| run.open)
}

impl Run<'_> {
    /// Whether it has a shape.
    fn has(&self, shape: Shape) -> bool {
        let cards = self.lines.iter().filter(|line| !is_comment(line)).count();
        let comments = self.lines.len() - cards;
        // In a finished run every comment has a card behind it.
        let last_card = self.lines.iter().rposition(|line| !is_comment(line));
        let among = &self.lines[..last_card.unwrap_or(0)];
        let between = |test: fn(&[u8]) -> bool| {
            let mut comments = among.iter().filter(|line| is_comment(line));
            comments.any(|line| test(line))
        };
        let ends_blank = !self.open && self.lines.last().is_some_and(|line| is_blank(line));
        match shape {
            Shape::CommentBetweenCards => between(|_| true),
            Shape::CommentsBehindLastDots => {
                self.open && self.lines.last().is_some_and(|line| is_comment(line))
            }
            Shape::LongCommentInside => between(|line| line.len() > 72),
            Shape::DottedCommentInside => between(has_dots),
            Shape::StarBehindDots => self
                .lines
                .windows(2)
                .any(|pair| !is_comment(pair[0]) && would_multiply(pair[1])),
            Shape::SpacedStarInside => self.lines[1..]
                .iter()
                .any(|line| line.starts_with(b" ") && line.trim_ascii_start().starts_with(b"*")),
            Shape::FourCardsManyLines => !self.open && cards <= 4 && cards + comments > 4,
            Shape::FiveCardsWithComments => !self.open && cards > 4 && comments > 0,
            Shape::LongCardWithComments => {
                let long = |line: &&[u8]| !is_comment(line) && line.len() > 72;
                !self.open && comments > 0 && self.lines.iter().any(long)
            }
            Shape::BlankInside => ends_blank,
            Shape::BlankBehindComment => {
                ends_blank && matches!(self.lines[..], [.., before, _] if is_comment(before))
            }
        }
    }
}

/// Whether a line is a star with the beginning of a factor.
fn would_multiply(line: &[u8]) -> bool {
    matches!(line, [b'*', b'A'..=b'Z' | b'0'..=b'9' | b'.' | b'(', ..])
}
