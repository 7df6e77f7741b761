//! The places of faults: texts whose faults stand at all sorts of places, and of
//! which sort each of them is.

use floesedge_peer::deck::{Card, Lines};
use floesedge_peer::faults::{Fault, Spot};
use floesedge_peer::translate::faults;

use crate::comments::comment;
use crate::random::Random;
use crate::texts::{any_token, assignment, constants, need_space, state, tokens, Tokens};
use Kind::{Code, EarlyEnd};

// Texts.

/// Statements over some cards with faults at all sorts of places.
pub(crate) fn text(random: &mut Random) -> Vec<u8> {
    let mut text = Vec::new();
    if random.once_in(3) {
        model(random, &mut text);
    } else {
        statements(random, &mut text);
    }
    if random.once_in(3) {
        text.pop();
    }
    text
}

/// Adds statements, most of them with a statement fault, at times with a last
/// one that stays open.
fn statements(random: &mut Random, text: &mut Vec<u8>) {
    for i in 0..random.range(1, 12) {
        put_comments(random, text, 4);
        let (list, at) = statement(random, &format!("P{i}"));
        put_statement(random, text, &list, at, false);
    }
    if random.once_in(2) {
        let (mut list, at) = statement(random, "LAST");
        if random.once_in(6) {
            list.clear();
        }
        put_statement(random, text, &list, at, true);
        put_comments(random, text, 2);
    }
}

/// Adds statements that are sound one by one, but make a model fault together.
fn model(random: &mut Random, text: &mut Vec<u8>) {
    const LOOSE: [&[&str]; 6] = [
        &["A=1", "A=2", "CONST A=3,A=4"],
        &["A=Q+1", "B=INTGRL(Q,1)"],
        &["X=INTGRL(A,1)", "Y=INTGRL(X,A)", "A=1", "Z=INTGRL(Z,1)"],
        &["A=B", "B=A", "D=A+1", "C=1"],
        &["ENDPRO", "PROCED A=F(C)", "C=1"],
        &["PROCED A=F(C)", "B=D", "ENDPRO", "C=1"],
    ];
    for statement in random.pick(&LOOSE) {
        put_comments(random, text, 4);
        let list = apart(statement);
        let at = random.below(list.len() + 1);
        put_statement(random, text, &list, at, false);
    }
}

/// The tokens of a statement of names and marks, numbers being digits.
fn apart(statement: &str) -> Tokens {
    let mut list = Tokens::new();
    let mut joined = false;
    for c in statement.chars() {
        let joins = c.is_ascii_alphanumeric();
        match list.last_mut() {
            Some(last) if joins && joined => last.push(c),
            _ if c == ' ' => {}
            _ => list.push(c.into()),
        }
        joined = joins;
    }
    list
}

/// Adds comments, at least one once in n times.
fn put_comments(random: &mut Random, text: &mut Vec<u8>, n: usize) {
    while random.once_in(n) {
        text.extend(comment(random));
        text.push(b'\n');
    }
}

/// Adds a statement over some cards, comments among them.
fn put_statement(random: &mut Random, text: &mut Vec<u8>, list: &Tokens, at: usize, open: bool) {
    for (i, card) in cards(random, list, at, open).iter().enumerate() {
        if i > 0 {
            put_comments(random, text, 3);
        }
        text.extend(card.bytes());
        text.push(b'\n');
    }
}

/// The tokens of a statement, sound or with a fault, and about where that is.
fn statement(random: &mut Random, name: &str) -> (Tokens, usize) {
    let mut list = sound(random, name);
    let at = random.below(list.len() + 1);
    match random.below(18) {
        0 => {}
        1..=6 => list.insert(at, bad_token(random)),
        7 => list.insert(at, any_token(random)),
        8 | 9 => list.insert(at, wrong_token(random)),
        10 | 11 => list.truncate(at),
        12 => list.clear(),
        _ => return deep(random, name),
    }
    (list, at)
}

/// The tokens of a sound statement.
fn sound(random: &mut Random, name: &str) -> Tokens {
    let leaves = random.range(1, 6);
    let names = [name.to_string()];
    match random.below(6) {
        0 => constants(random, &names),
        1 => state(random, name, &[], &names, leaves),
        2 => tokens(&["PROCED", name, "=", "F", "(", "C", ",", "D", ")"]),
        _ => assignment(random, name, &names, leaves),
    }
}

/// A token with a bad byte, a name too long, or a bad number.
fn bad_token(random: &mut Random) -> String {
    let bad: &[&str] = match random.below(4) {
        0 => &["#", "a", "\t", ";", "\r", "AB#", "2x", "1E5$", "##"],
        1 => &["ABCDEFG", "A1234567", "INTGRLS", "ENDPROC", "TIMETIME"],
        2 => &["2X", "1E", "1..2", ".", "1E+", "1E100", ".E5", "1.5.", "."],
        _ => &["1E23", "1000000000000000", "0.1E-22", "1E-23", "0E23"],
    };
    random.pick(bad).to_string()
}

/// A token that rarely fits.
fn wrong_token(random: &mut Random) -> String {
    let wrong = ["=", ")", ",", "INTGRL", "CONST", "ENDPRO", "PROCED", "("];
    random.pick(&wrong).to_string()
}

/// The tokens of a statement of about 17 levels, and where its seventeenth opens.
fn deep(random: &mut Random, name: &str) -> (Tokens, usize) {
    const FORMS: [&[&str]; 6] = [
        &["("],
        &["INSW", "("],
        &["LIMIT", "("],
        &["COMPAR", "("],
        &["1", "+", "("],
        &["-", "("],
    ];
    let mut list = tokens(&[name, "="]);
    if random.once_in(3) {
        list.extend(tokens(&["INTGRL", "(", "1", ","]));
    }
    let plain = random.once_in(2);
    let mut at = 0;
    for level in 1..=random.pick(&[16, 17, 17, 17, 17, 18]) {
        let form = if plain { FORMS[0] } else { random.pick(&FORMS) };
        list.extend(tokens(form));
        if level <= 17 {
            at = list.len() - 1;
        }
    }
    if random.once_in(2) {
        list.extend(tokens(&["1", ")"]));
    }
    (list, at)
}

/// Lays tokens over one to five cards, some of them blank, often with one that
/// begins or ends at a given token. An open statement has dots on its last card.
fn cards(random: &mut Random, list: &Tokens, at: usize, open: bool) -> Vec<String> {
    let count = random.pick(&[1, 2, 2, 3, 3, 4, 4, 5]);
    let mut ends = vec![list.len()];
    for _ in 1..count {
        let any = random.below(list.len() + 1);
        let end = random.pick(&[any, at, at + 1]);
        ends.push(end.min(list.len()));
    }
    ends.sort();
    let long = match random.below(8) {
        0 => random.below(count),
        1 if open => count - 1,
        _ => count,
    };
    let mut begin = 0;
    let mut cards = Vec::new();
    for (i, end) in ends.into_iter().enumerate() {
        let mut card = body(random, &list[begin..end]);
        if open || i + 1 < count {
            card.push_str(random.pick(&["...", "...", " ..."]));
        }
        card.push_str(random.pick(&["", "", "", " ", "   "]));
        if long == i {
            card.push_str(&" ".repeat(random.range(71, 75).saturating_sub(card.len())));
        }
        cards.push(card);
        begin = end;
    }
    cards
}

/// The tokens of one card, at times behind spaces.
fn body(random: &mut Random, list: &[String]) -> String {
    let mut body = random.pick(&["", "", " ", "    "]).to_string();
    let star = list.first().is_some_and(|token| token == "*");
    if star && body.is_empty() && !random.once_in(8) {
        // A star in front would make a comment of the card.
        body.push(' ');
    }
    let mut left = "";
    for token in list {
        if need_space(left, token) || random.once_in(6) {
            body.push(' ');
        }
        body.push_str(token);
        left = token;
    }
    body
}

// What a place is like.

/// A fault by its code, and the early end, which is told from other faults 18.
#[derive(Clone, Copy, Debug, PartialEq, Eq, PartialOrd, Ord)]
pub enum Kind {
    Code(u8),
    EarlyEnd,
}

impl std::fmt::Display for Kind {
    /// The code, that of an early end with a word.
    fn fmt(&self, to: &mut std::fmt::Formatter) -> std::fmt::Result {
        match self {
            Kind::Code(code) => write!(to, "{code}"),
            Kind::EarlyEnd => write!(to, "18 end"),
        }
    }
}

/// What the place of a fault may be like.
#[derive(Clone, Copy, Debug, PartialEq, Eq, PartialOrd, Ord)]
pub enum Sort {
    /// On the first card of the statement.
    FirstCard,
    /// On a later one.
    LaterCard,
    /// On a later one, with comments between it and the first.
    BehindComments,
    /// On a later one, with a card before it that has nothing but dots and spaces.
    BehindBlankCard,
    /// A token at the first byte of its card.
    FirstByte,
    /// A token with nothing but spaces before it.
    BehindSpaces,
    /// A token that ends at the last byte of its card.
    LastByte,
    /// A token right before the closing dots.
    BeforeDots,
    /// The last byte is a dot.
    AtDot,
    /// The last byte is a space behind dots or tokens.
    AtSpace,
    /// The last byte ends a token.
    AtToken,
    /// The last card has no tokens, but bytes.
    BlankCard,
    /// The last card is empty.
    EmptyCard,
    /// No card has any token.
    NoTokens,
    /// Comments follow the last card up to the end of the text.
    CommentsBehind,
    /// A column over 72.
    Over72,
    /// The statement begins with a space.
    FirstSpace,
    /// It begins with another byte.
    FirstOther,
    /// It has more than one card.
    MoreCards,
    /// It is a later card that is too long.
    LongLater,
}

/// The faults that stand at a token.
const AT_TOKENS: [Kind; 6] = [Code(14), Code(15), Code(16), Code(17), Code(18), Code(19)];
/// The faults that stand at the end of a statement.
const AT_ENDS: [Kind; 2] = [Code(11), EarlyEnd];
/// The faults that stand at a token or at the end of a statement.
const INSIDE: [Kind; 8] = [
    Code(11),
    Code(14),
    Code(15),
    Code(16),
    Code(17),
    Code(18),
    EarlyEnd,
    Code(19),
];
/// The faults that stand at the first byte of a statement.
const AT_FIRST: [Kind; 8] = [
    Code(12),
    Code(13),
    Code(21),
    Code(22),
    Code(23),
    Code(24),
    Code(25),
    Code(26),
];

impl Sort {
    /// All of them, each with the faults of which there are such.
    pub const ALL: [(Sort, &'static [Kind]); 20] = [
        (Sort::FirstCard, &INSIDE),
        (Sort::LaterCard, &INSIDE),
        (Sort::BehindComments, &INSIDE),
        (Sort::BehindBlankCard, &INSIDE),
        (Sort::FirstByte, &AT_TOKENS),
        (Sort::BehindSpaces, &AT_TOKENS),
        (Sort::LastByte, &AT_TOKENS),
        (Sort::BeforeDots, &AT_TOKENS),
        (Sort::AtDot, &[Code(11)]),
        (Sort::AtSpace, &AT_ENDS),
        (Sort::AtToken, &[EarlyEnd]),
        (Sort::BlankCard, &AT_ENDS),
        (Sort::EmptyCard, &[EarlyEnd]),
        (Sort::NoTokens, &AT_ENDS),
        (Sort::CommentsBehind, &[Code(11)]),
        (Sort::Over72, &[Code(11)]),
        (Sort::FirstSpace, &AT_FIRST),
        (Sort::FirstOther, &AT_FIRST),
        (Sort::MoreCards, &AT_FIRST),
        (Sort::LongLater, &[Code(13)]),
    ];
}

/// Of which sorts the places of the faults of a text are, by the peer.
pub fn sorts(text: &[u8]) -> Vec<(Sort, Kind)> {
    let Some(lines) = Lines::find(text) else {
        return Vec::new();
    };
    let mut sorts = Vec::new();
    for fault in faults(text) {
        let statement = Statement {
            cards: lines.cards(fault.line).collect(),
            last_line: lines.count() as u32,
            fault,
        };
        for (sort, kinds) in Sort::ALL {
            let kind = statement.kind();
            if kinds.contains(&kind) && statement.has(sort) {
                sorts.push((sort, kind));
            }
        }
    }
    sorts
}

/// A statement with a fault.
struct Statement<'a> {
    cards: Vec<Card<'a>>,
    /// The last line of the text.
    last_line: u32,
    fault: Fault,
}

impl Statement<'_> {
    /// The fault, an early end told from others.
    fn kind(&self) -> Kind {
        match self.fault.spot {
            Spot::Last if self.fault.code == 18 => EarlyEnd,
            _ => Code(self.fault.code),
        }
    }

    /// The index of the card on which the place is.
    fn index(&self) -> usize {
        let line = self.fault.place.line;
        let index = self.cards.iter().position(|card| card.line == line);
        index.expect("a place is on a card")
    }

    /// Whether the place of the fault is of a sort.
    fn has(&self, sort: Sort) -> bool {
        let index = self.index();
        let card = &self.cards[index];
        let before = self.fault.place.column as usize - 1;
        let end = before + token_length(card.part.get(before..).unwrap_or_default());
        let dotted = card.whole[card.part.len()..].starts_with(b"...");
        let last = card.whole.last();
        match sort {
            Sort::FirstCard => index == 0,
            Sort::LaterCard => index > 0,
            Sort::BehindComments => (card.line - self.fault.line) as usize > index,
            Sort::BehindBlankCard => self.cards[..index].iter().any(is_blank),
            Sort::FirstByte => before == 0,
            Sort::BehindSpaces => before > 0 && is_spaces(&card.whole[..before]),
            Sort::LastByte => end == card.whole.len(),
            Sort::BeforeDots => dotted && end == card.part.len(),
            Sort::AtDot => last == Some(&b'.'),
            Sort::AtSpace => last == Some(&b' ') && (dotted || !is_blank(card)),
            Sort::AtToken => last.is_some_and(|&byte| byte != b' '),
            Sort::BlankCard => is_blank(card) && !card.whole.is_empty(),
            Sort::EmptyCard => card.whole.is_empty(),
            Sort::NoTokens => self.cards.iter().all(is_blank),
            Sort::CommentsBehind => card.line < self.last_line,
            Sort::Over72 => before >= 72,
            Sort::FirstSpace => card.whole.first() == Some(&b' '),
            Sort::FirstOther => card.whole.first() != Some(&b' '),
            Sort::MoreCards => self.cards.len() > 1,
            Sort::LongLater => card.whole.len() <= 72,
        }
    }
}

/// Whether bytes are spaces alone.
fn is_spaces(bytes: &[u8]) -> bool {
    bytes.iter().all(|&byte| byte == b' ')
}

/// Whether a card has nothing but spaces and closing dots.
fn is_blank(card: &Card) -> bool {
    is_spaces(card.part)
}

/// How many bytes the token in front has, a bad one taken up to the next byte
/// that is no letter, digit or point.
fn token_length(text: &[u8]) -> usize {
    let inside = |byte: &&u8| byte.is_ascii_alphanumeric() || **byte == b'.';
    text.iter().take_while(inside).count().max(1)
}
