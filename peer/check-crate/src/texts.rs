//! Texts on which the two translators are compared: valid decks, decks near
//! each limit, decks damaged in every way that the paper names, and raw bytes.

use crate::blocks;
use crate::comments;
use crate::limits::{BYTES, DEFINITIONS, LINES, STATEMENTS};
use crate::places;
use crate::random::Random;
use floesedge_peer::limits::{MAX_DEFINITIONS, MAX_RECORDS, MAX_STATEMENTS, MAX_TEXT};

/// The tokens of one statement.
pub(crate) type Tokens = Vec<String>;

const RESERVED: [&str; 10] = [
    "CONST", "PARAM", "INCON", "INTGRL", "TIME", "INSW", "LIMIT", "COMPAR", "PROCED", "ENDPRO",
];
const ALPHABET: &[u8] = b"ABCDEIKLMNOPRSTWXZ0123456789.. =(),+-*/ \n\n";

/// A text of a random family, at times with comments put in.
pub fn text(random: &mut Random) -> Vec<u8> {
    let text = of_family(random);
    if random.once_in(6) {
        comments::with_comments(random, text)
    } else {
        text
    }
}

/// A text of a random family.
fn of_family(random: &mut Random) -> Vec<u8> {
    match random.below(118) {
        0..=4 => valid(random, Size::Small),
        5 => valid(random, Size::Large),
        6..=10 => damaged(random),
        11..=14 => model_damaged(random),
        15..=18 => graph(random),
        19 => large_graph(random),
        20 => chain(random),
        21 | 46 => sized(random),
        22 | 47 => lined(random),
        23 | 48 => many_statements(random),
        24 | 49 => many_definitions(random),
        25 | 40 => many_records(random),
        26..=27 => nested(random),
        28..=29 => numbers(random),
        30 => long_lines(random),
        31 => runs(random),
        32 => names(random),
        33..=36 => soup(random),
        37 => alphabet_bytes(random),
        38 => raw_bytes(random),
        39 => tiny(random),
        41 => each_byte(random),
        44 | 45 => dense(random),
        50..=88 => blocks::text(random),
        89..=96 => comments::cards(random),
        97 => filled(random),
        98..=113 => places::text(random),
        114..=117 => full(random),
        _ => tricky(random),
    }
}

/// Whether headers or ends of blocks may stand in a text.
pub fn has_blocks(text: &[u8]) -> bool {
    let stands = |word: &[u8]| text.windows(word.len()).any(|part| part == word);
    stands(b"PROCED") || stands(b"ENDPRO")
}

/// How big a deck is wanted.
#[derive(Clone, Copy)]
pub(crate) enum Size {
    Small,
    Large,
}

// Names and numbers.

/// A name that is no reserved word.
pub(crate) fn name(random: &mut Random) -> String {
    loop {
        let length = random.pick(&[1, 1, 2, 2, 3, 4, 5, 6, 6]);
        let mut name = String::new();
        for i in 0..length {
            let letters = if i == 0 || !random.once_in(3) { 26 } else { 36 };
            let pick = random.below(letters);
            name.push(b"ABCDEFGHIJKLMNOPQRSTUVWXYZ0123456789"[pick] as char);
        }
        if !RESERVED.contains(&name.as_str()) {
            return name;
        }
    }
}

/// Names all different, at times close to reserved words.
pub(crate) fn different_names(random: &mut Random, count: usize) -> Vec<String> {
    const NEAR: [&str; 16] = [
        "CONSTS", "CONS", "PARAMS", "INCO", "INTGR", "TIMES", "TIM", "INSW1", "LIMITS", "COMPA",
        "E", "E5", "PROCE", "PROCES", "ENDPR", "ENDPR0",
    ];
    let mut seen = std::collections::HashSet::new();
    let mut names = Vec::new();
    while names.len() < count {
        let name = if random.once_in(25) {
            random.pick(&NEAR).to_string()
        } else {
            name(random)
        };
        if seen.insert(name.clone()) {
            names.push(name);
        }
    }
    names
}

/// A number in range.
pub(crate) fn number(random: &mut Random) -> String {
    loop {
        let text = match random.below(8) {
            0..=2 => random.below(10).to_string(),
            3 => random.below(100_000).to_string(),
            4 => format!("{}.{}", random.below(100), random.below(1000)),
            5 => random
                .pick(&["0.5", ".5", "5.", "0", "00", "0.0", "1.E5", ".1E-1", "1E0"])
                .to_string(),
            6 => digits_with_exponent(random, 15, 22),
            _ => format!("{}E{}", random.below(1000), random.range(0, 20)),
        };
        if is_in_range(&text) {
            return text;
        }
    }
}

/// Digits with a point somewhere and an exponent, in or out of range.
fn digits_with_exponent(random: &mut Random, most: usize, power: usize) -> String {
    let count = random.range(1, most);
    let mut digits: Vec<u8> = (0..count).map(|_| b'0' + random.below(10) as u8).collect();
    if random.once_in(2) {
        digits.insert(random.below(count + 1), b'.');
    }
    let mut text = String::from_utf8(digits).unwrap();
    if random.once_in(2) {
        text += "E";
        text += random.pick(&["", "+", "-"]);
        text += &if random.once_in(4) {
            format!("{:02}", random.below(power + 1))
        } else {
            random.below(power + 1).to_string()
        };
    }
    text
}

/// Whether a well formed number is in range, by plain counting of its parts.
fn is_in_range(text: &str) -> bool {
    let (digits, exponent) = text.split_once('E').unwrap_or((text, "0"));
    let decimals = digits
        .split_once('.')
        .map_or(0, |(_, behind)| behind.len() as i64);
    let whole: String = digits.chars().filter(|c| *c != '.').collect();
    let whole = whole.trim_start_matches('0');
    let k = exponent.parse::<i64>().unwrap() - decimals;
    whole.len() <= 15 && (-22..=22).contains(&k)
}

// Expressions.

/// What an expression may be made of, and how.
struct Maker<'a> {
    random: &'a mut Random,
    names: &'a [String],
    tokens: Tokens,
}

impl Maker<'_> {
    /// Adds a token.
    fn put(&mut self, token: &str) {
        self.tokens.push(token.into());
    }

    /// An expression of about this many leaves.
    fn expression(&mut self, leaves: usize, level: usize) {
        if self.random.once_in(5) {
            let sign = self.random.pick(&["-", "-", "+"]);
            self.put(sign);
        }
        let terms = self.random.range(1, leaves.min(4));
        for i in 0..terms {
            if i > 0 {
                let sign = self.random.pick(&["+", "-"]);
                self.put(sign);
            }
            self.term((leaves / terms).max(1), level);
        }
    }

    /// A term of about this many leaves.
    fn term(&mut self, leaves: usize, level: usize) {
        let factors = self.random.range(1, leaves.min(3));
        for i in 0..factors {
            if i > 0 {
                let mark = self.random.pick(&["*", "/"]);
                self.put(mark);
            }
            self.factor((leaves / factors).max(1), level);
        }
    }

    /// A factor of about this many leaves.
    fn factor(&mut self, leaves: usize, level: usize) {
        if level == 16 || (leaves == 1 && !self.random.once_in(12)) {
            return self.leaf();
        }
        let (word, arguments) =
            self.random
                .pick(&[("", 1), ("", 1), ("INSW", 3), ("LIMIT", 3), ("COMPAR", 2)]);
        if !word.is_empty() {
            self.put(word);
        }
        self.put("(");
        for i in 0..arguments {
            if i > 0 {
                self.put(",");
            }
            self.expression((leaves / arguments).max(1), level + 1);
        }
        self.put(")");
    }

    /// A number, a name or the time.
    fn leaf(&mut self) {
        if self.random.once_in(8) {
            self.put("TIME");
        } else if self.names.is_empty() || self.random.once_in(3) {
            let number = number(self.random);
            self.put(&number);
        } else {
            let name = self.random.of(self.names).clone();
            self.put(&name);
        }
    }
}

/// An expression over some names.
pub(crate) fn expression(random: &mut Random, names: &[String], leaves: usize) -> Tokens {
    let mut maker = Maker {
        random,
        names,
        tokens: Vec::new(),
    };
    maker.expression(leaves, 0);
    maker.tokens
}

/// Owned tokens of a list.
pub(crate) fn tokens(list: &[&str]) -> Tokens {
    list.iter().map(|token| token.to_string()).collect()
}

// Decks.

/// A deck before it is laid out in lines.
struct Deck {
    statements: Vec<Tokens>,
    constants: Vec<String>,
    assigned: Vec<String>,
    states: Vec<String>,
}

/// A constants statement.
pub(crate) fn constants(random: &mut Random, names: &[String]) -> Tokens {
    let mut list = tokens(&[random.pick(&["CONST", "PARAM", "INCON"])]);
    for (i, name) in names.iter().enumerate() {
        if i > 0 {
            list.push(",".into());
        }
        list.extend([name.clone(), "=".into()]);
        if random.once_in(3) {
            list.push(random.pick(&["-", "-", "+"]).to_string());
        }
        list.push(number(random));
    }
    list
}

/// An assignment.
pub(crate) fn assignment(
    random: &mut Random,
    name: &str,
    uses: &[String],
    leaves: usize,
) -> Tokens {
    let mut list = tokens(&[name, "="]);
    list.extend(expression(random, uses, leaves));
    list
}

/// A state statement, its initial value at times one of the constants.
pub(crate) fn state(
    random: &mut Random,
    name: &str,
    constants: &[String],
    uses: &[String],
    leaves: usize,
) -> Tokens {
    let mut list = tokens(&[name, "=", "INTGRL", "("]);
    if !constants.is_empty() && random.once_in(2) {
        list.push(random.of(constants).clone());
    } else {
        if random.once_in(3) {
            list.push(random.pick(&["-", "-", "+"]).to_string());
        }
        list.push(number(random));
    }
    list.push(",".into());
    list.extend(expression(random, uses, leaves));
    list.push(")".into());
    list
}

/// A sortable deck.
fn deck(random: &mut Random, size: Size) -> Deck {
    let most = match size {
        Size::Small => random.range(1, 12),
        Size::Large => random.range(40, MAX_DEFINITIONS),
    };
    let names = different_names(random, most);
    // Only constants share a statement, and they are as many as that takes.
    let least = most.saturating_sub(MAX_STATEMENTS * 2 / 3);
    let first = random.range(least, most);
    let second = random.range(first, most);
    let constant_names = names[..first].to_vec();
    let assigned = names[first..second].to_vec();
    let states = names[second..].to_vec();
    let most_leaves = match size {
        Size::Small => random.pick(&[1, 3, 6, 20]),
        Size::Large => random.pick(&[1, 2, 4, 6]),
    };
    let mut statements = Vec::new();
    let mut rest = &constant_names[..];
    while !rest.is_empty() {
        let count = random.range(1, rest.len().min(7));
        statements.push(constants(random, &rest[..count]));
        rest = &rest[count..];
    }
    let mut uses = [&constant_names[..], &states[..]].concat();
    for name in &assigned {
        let leaves = random.range(1, most_leaves);
        statements.push(assignment(random, name, &uses, leaves));
        uses.push(name.clone());
    }
    for name in &states {
        let leaves = random.range(1, most_leaves);
        statements.push(state(random, name, &constant_names, &uses, leaves));
    }
    match random.below(4) {
        0 => {}
        1 => statements.reverse(),
        _ => random.shuffle(&mut statements),
    }
    Deck {
        statements,
        constants: constant_names,
        assigned,
        states,
    }
}

// Layout.

/// How a deck is laid out.
struct Style {
    spaces: usize,
    breaks: usize,
    between: usize,
    inside: usize,
}

/// A random style.
fn style(random: &mut Random) -> Style {
    Style {
        spaces: random.pick(&[1, 2, 8, 1000]),
        breaks: random.pick(&[4, 15, 1000, 1000]),
        between: random.pick(&[2, 6, 1000]),
        inside: random.pick(&[2, 6, 1000]),
    }
}

/// Whether two tokens would run together.
pub(crate) fn need_space(left: &str, right: &str) -> bool {
    let sticks = |byte: u8| byte.is_ascii_alphanumeric() || byte == b'.';
    let last = left.bytes().last().unwrap_or(b' ');
    let first = right.bytes().next().unwrap_or(b' ');
    sticks(last) && sticks(first)
}

/// Lays one statement out in lines of at most 72 bytes.
fn statement_lines(random: &mut Random, style: &Style, list: &Tokens) -> Vec<String> {
    let mut lines = vec![String::new()];
    let mut left = "";
    for (i, token) in list.iter().enumerate() {
        let line = lines.last_mut().unwrap();
        let spaces = if random.once_in(style.spaces) {
            random.below(3)
        } else {
            0
        };
        let spaces = spaces.max(need_space(left, token) as usize);
        let full = line.len() + spaces + token.len() + 3 > 72;
        if i > 0 && (full || random.once_in(style.breaks)) {
            close(random, line);
            lines.push(String::new());
        }
        let line = lines.last_mut().unwrap();
        if !line.is_empty() || random.once_in(3) {
            line.push_str(&" ".repeat(spaces));
        }
        if line.is_empty() && token.starts_with('*') && !random.once_in(12) {
            // A star in front would make a comment of the card.
            line.push(' ');
        }
        line.push_str(token);
        left = token;
    }
    if random.once_in(30) && lines.len() < 4 {
        close(random, lines.last_mut().unwrap());
        lines.push(random.pick(&["", " ", "     "]).to_string());
    }
    let last = lines.last_mut().unwrap();
    if random.once_in(10) && last.len() < 70 {
        last.push_str("  ");
    }
    lines
}

/// Closes a line with dots, at times with spaces before and behind.
fn close(random: &mut Random, line: &mut String) {
    if random.once_in(4) && line.len() < 69 {
        line.push(' ');
    }
    line.push_str("...");
    while random.once_in(5) && line.len() < 72 {
        line.push(' ');
    }
}

/// A comment or a blank line.
fn filler(random: &mut Random) -> String {
    match random.below(6) {
        0 => String::new(),
        1 => " ".repeat(random.below(80)),
        _ => comments::comment_line(random),
    }
}

/// Joins the lines of a statement, at times with comments between them.
fn join(random: &mut Random, style: &Style, lines: &[String]) -> String {
    let mut text = String::new();
    for (i, line) in lines.iter().enumerate() {
        while i > 0 && random.once_in(style.inside) {
            text.push_str(&comments::comment_line(random));
            text.push('\n');
        }
        text.push_str(line);
        text.push('\n');
    }
    text
}

/// Lays a deck out. Statements that do not fit four lines are left out,
/// unless they are wanted.
pub(crate) fn lay_out(random: &mut Random, statements: &[Tokens], keep_long: bool) -> Vec<u8> {
    let style = style(random);
    let mut text = String::new();
    for list in statements {
        while random.once_in(style.between) {
            text.push_str(&filler(random));
            text.push('\n');
        }
        let tight = Style {
            spaces: 1000,
            breaks: 1000,
            between: 1000,
            inside: 1000,
        };
        let mut lines = statement_lines(random, &style, list);
        if lines.len() > 4 {
            lines = statement_lines(random, &tight, list);
        }
        if lines.len() <= 4 || keep_long {
            text.push_str(&join(random, &style, &lines));
        }
    }
    if random.once_in(4) {
        text.pop();
    }
    text.into_bytes()
}

/// A deck without fault, unless leaving out a long statement made one.
fn valid(random: &mut Random, size: Size) -> Vec<u8> {
    let deck = deck(random, size);
    lay_out(random, &deck.statements, false)
}

// Damage.

/// A valid deck with bytes, lines or tokens changed.
fn damaged(random: &mut Random) -> Vec<u8> {
    let mut deck = deck(random, Size::Small);
    if random.once_in(2) {
        for _ in 0..random.range(1, 3) {
            damage_tokens(random, &mut deck.statements);
        }
        return lay_out(random, &deck.statements, true);
    }
    let mut text = lay_out(random, &deck.statements, true);
    for _ in 0..random.range(1, 3) {
        damage_bytes(random, &mut text);
    }
    text
}

/// Changes some bytes of a text.
fn damage_bytes(random: &mut Random, text: &mut Vec<u8>) {
    let at = random.below(text.len() + 1);
    let any = random.byte();
    let near = random.pick(ALPHABET);
    let odd = random.pick(b"\t\r\0az#;:'&%@[`{/:\x7f\x80\xff");
    let byte = random.pick(&[any, near, near, odd]);
    match random.below(7) {
        0 => text.insert(at, byte),
        1 | 2 if at < text.len() => text[at] = byte,
        3 if at < text.len() => drop(text.remove(at)),
        4 => text.truncate(at),
        5 => {
            let dots = random.pick(&[
                &b"..."[..],
                b"....",
                b"...\n",
                b".. .",
                b"... ",
                b"...\r\n",
                b"...\n*",
                b"...\n*\n",
            ]);
            text.splice(at..at, dots.iter().copied());
        }
        _ => {
            let mut lines: Vec<Vec<u8>> = text
                .split(|&byte| byte == b'\n')
                .map(<[u8]>::to_vec)
                .collect();
            let (a, b) = (random.below(lines.len()), random.below(lines.len()));
            match random.below(3) {
                0 => lines.swap(a, b),
                1 => lines.insert(a, lines[b].clone()),
                _ => drop(lines.remove(a)),
            }
            *text = lines.join(&b'\n');
        }
    }
}

/// A token of any kind, good or bad.
pub(crate) fn any_token(random: &mut Random) -> String {
    match random.below(12) {
        0..=4 => random
            .pick(&["=", "(", ")", ",", "+", "-", "*", "/"])
            .to_string(),
        5 => random.pick(&RESERVED).to_string(),
        6 => name(random),
        7 | 8 => number(random),
        9 => near_number(random),
        10 => random
            .pick(&[
                "#", "a", "ABCDEFG", "A1234567", "$", "2X", "1..2", ".", "1E", "1E23",
            ])
            .to_string(),
        _ => random.pick(&["A", "B", "C"]).to_string(),
    }
}

/// Changes some tokens of a deck.
pub(crate) fn damage_tokens(random: &mut Random, statements: &mut Vec<Tokens>) {
    if statements.is_empty() {
        statements.push(vec![any_token(random)]);
    }
    let count = statements.len();
    let list = &mut statements[random.below(count)];
    if list.is_empty() {
        list.push(any_token(random));
    }
    let at = random.below(list.len());
    match random.below(6) {
        0 => list.insert(at, any_token(random)),
        1 => list[at] = any_token(random),
        2 => drop(list.remove(at)),
        3 => list.truncate(at),
        4 => list.insert(at, list[at].clone()),
        _ => list.push(any_token(random)),
    }
}

/// A deck whose definitions, uses or initials are changed, its grammar kept.
fn model_damaged(random: &mut Random) -> Vec<u8> {
    let Deck {
        mut statements,
        constants,
        assigned,
        states,
    } = deck(random, Size::Small);
    let all = [&constants[..], &assigned[..], &states[..]].concat();
    for _ in 0..random.range(1, 3) {
        let fresh = name(random);
        let other = random.of(&all).clone();
        let new = if random.once_in(3) { fresh } else { other };
        let count = statements.len();
        if count == 0 {
            break;
        }
        match random.below(7) {
            // A statement twice.
            0 => {
                let copy = statements[random.below(count)].clone();
                statements.insert(random.below(count + 1), copy);
            }
            // A statement missing, so that its names are undefined.
            1 => drop(statements.remove(random.below(count))),
            // Another name in place of a used or defined one.
            2..=4 => {
                let list = &mut statements[random.below(count)];
                let places: Vec<usize> = (0..list.len())
                    .filter(|&i| all.contains(&list[i]))
                    .collect();
                if !places.is_empty() {
                    list[random.pick(&places)] = new;
                }
            }
            // Another name in place of an initial value.
            5 => {
                let is_state = |list: &&mut Tokens| list.len() > 4 && list[2] == "INTGRL";
                for list in statements.iter_mut().filter(is_state) {
                    if random.once_in(2) {
                        if list[5] != "," {
                            list.remove(4);
                        }
                        list[4] = random.of(&all).clone();
                    }
                }
            }
            // A use added to the end of an assignment.
            _ => {
                let list = &mut statements[random.below(count)];
                if assigned.contains(&list[0]) {
                    list.extend(["+".into(), new]);
                }
            }
        }
    }
    lay_out(random, &statements, false)
}

/// A small deck of few names with random uses, so that loops and what hangs
/// behind them are common.
fn graph(random: &mut Random) -> Vec<u8> {
    let count = random.range(2, 14);
    let names: Vec<String> = (0..count)
        .map(|i| format!("{}", (b'A' + i as u8) as char))
        .collect();
    let most = random.pick(&[1, 1, 2, 2, 3]);
    let state_share = random.pick(&[3, 8, 1000]);
    let mut text = String::new();
    for (i, name) in names.iter().enumerate() {
        let mut terms: Vec<String> = Vec::new();
        for _ in 0..random.range(0, most) {
            terms.push(random.of(&names).clone());
        }
        if terms.is_empty() || random.once_in(4) {
            terms.push(random.pick(&["1", "TIME"]).to_string());
        }
        if random.once_in(60) {
            terms.push("QQ".into());
        }
        let sum = terms.join(random.pick(&["+", "-", "*", " / "]));
        let name = if random.once_in(80) {
            random.of(&names)
        } else {
            name
        };
        let line = match random.below(state_share * 4) {
            0..=3 => format!("{name}=INTGRL({i},{sum})"),
            4 => format!("CONST {name}={i}"),
            5 if i > 2 => format!("{name}=INTGRL({},{sum})", random.of(&names)),
            _ => format!("{name}={sum}"),
        };
        text.push_str(&line);
        text.push_str(random.pick(&["\n", "\n", "\n\n", " \n* C\n"]));
    }
    text.into_bytes()
}

/// A deck of very many statements with uses mostly of lower rank.
fn large_graph(random: &mut Random) -> Vec<u8> {
    let count = random.range(30, MAX_STATEMENTS);
    let mut rank: Vec<usize> = (0..count).collect();
    if !random.once_in(4) {
        random.shuffle(&mut rank);
    }
    let wrong = random.pick(&[10, 100, 100_000, 100_000]);
    let mut text = String::new();
    for own in rank {
        let mut terms = vec!["1".to_string()];
        for _ in 0..random.below(5) {
            let used = if random.once_in(wrong) || own == 0 {
                random.below(count)
            } else {
                random.below(own)
            };
            if used != own || wrong < 100_000 {
                terms.push(format!("V{used}"));
            }
        }
        let sum = terms.join("+");
        text.push_str(&match random.below(8) {
            0 => format!("V{own}=INTGRL(0,{sum})\n"),
            _ => format!("V{own}={sum}\n"),
        });
    }
    text.into_bytes()
}

/// A long chain of assignments in some order, at times closed to a loop.
fn chain(random: &mut Random) -> Vec<u8> {
    let count = random.range(2, MAX_STATEMENTS);
    let mut places: Vec<usize> = (0..count).collect();
    match random.below(3) {
        0 => places.reverse(),
        1 => random.shuffle(&mut places),
        _ => {}
    }
    let last = if random.once_in(3) {
        format!("C{}", random.below(count))
    } else {
        "0".into()
    };
    let mut text = String::new();
    for place in places {
        let next = if place + 1 < count {
            format!("C{}", place + 1)
        } else {
            last.clone()
        };
        text.push_str(&format!("C{place}={next}\n"));
    }
    text.into_bytes()
}

// Limits.

/// A text padded to just about the most bytes.
fn sized(random: &mut Random) -> Vec<u8> {
    let mut text = valid(random, Size::Small);
    if text.last().is_some_and(|&byte| byte != b'\n') {
        text.push(b'\n');
    }
    let wanted = BYTES.about(random);
    let fill = random.pick(b"*  \n");
    text.push(if fill == b'*' { b'*' } else { b' ' });
    while text.len() < wanted {
        text.push(if fill == b'\n' && random.once_in(40) {
            b'\n'
        } else if fill == b'*' {
            b'x'
        } else {
            b' '
        });
    }
    if random.once_in(3) {
        damage_bytes(random, &mut text);
    }
    text
}

/// A text of just about the most lines.
fn lined(random: &mut Random) -> Vec<u8> {
    let mut text = valid(random, Size::Small);
    if text.last().is_some_and(|&byte| byte != b'\n') {
        text.push(b'\n');
    }
    let wanted = LINES.about(random);
    let have = text.iter().filter(|&&byte| byte == b'\n').count();
    let fill = random.pick(&["\n", "*\n", " \n"]);
    let more = fill.repeat(wanted.saturating_sub(have));
    if random.once_in(2) {
        text.splice(0..0, more.bytes());
    } else {
        text.extend(more.bytes());
    }
    text.extend(random.pick(&["", "", " ", "*", "Q1Q=1"]).bytes());
    text
}

/// A text of just about the most bytes or lines, most of them comments inside
/// its last statement.
fn filled(random: &mut Random) -> Vec<u8> {
    let mut text = valid(random, Size::Small);
    comments::filled(random, &mut text);
    text
}

/// Just about the most statements, with or without faults.
fn many_statements(random: &mut Random) -> Vec<u8> {
    let count = STATEMENTS.about(random);
    let faulty = random.pick(&[1, 3, 200, 100_000, 100_000]);
    let doubles = random.once_in(2);
    let mut text = String::new();
    for i in 0..count {
        let line = if random.once_in(faulty) {
            let run = "A=1...\n".repeat(random.range(1, 2)) + "+1";
            let bad = ["A=", "A", "A=#", "ABCDEFG=1", "A=1E", "A=1E99", "(", &run];
            random.pick(&bad).to_string()
        } else {
            match random.below(12) {
                0 => format!("S{i}=INTGRL(1,2)"),
                1 => format!("CONST S{i}=1"),
                2 if doubles => format!("S{}=1", random.below(count)),
                3 => format!("* C\nS{i}=1"),
                4 => format!("\nS{i}=1"),
                5 => format!("S{i}=1...\n*2\n"),
                _ => format!("S{i}=1"),
            }
        };
        text.push_str(&line);
        text.push('\n');
    }
    text.into_bytes()
}

/// Just about the most definitions in lists of constants and other statements.
fn many_definitions(random: &mut Random) -> Vec<u8> {
    let mut left = DEFINITIONS.about(random);
    let mut statements = Vec::new();
    let double = random.once_in(4);
    let faulty = random.once_in(6);
    while left > 0 {
        let mut next = || {
            left -= 1;
            format!("D{left}")
        };
        let list = match random.below(4) {
            0 => tokens(&[&next(), "=", "1"]),
            1 => tokens(&[&next(), "=", "INTGRL", "(", "1", ",", "TIME", ")"]),
            _ => {
                let mut list = tokens(&["CONST", &next(), "=", "1"]);
                for _ in 0..left.min(8) {
                    left -= 1;
                    let name = if double && random.once_in(50) {
                        "D0".into()
                    } else {
                        format!("D{left}")
                    };
                    list.extend(tokens(&[",", &name, "=", "2"]));
                }
                list
            }
        };
        statements.push(list);
    }
    if faulty {
        statements.push(tokens(&["A", "="]));
    }
    lay_out(random, &statements, false)
}

/// Just about the most records.
fn many_records(random: &mut Random) -> Vec<u8> {
    let mut left = random.range(MAX_RECORDS - 2, MAX_RECORDS + 2);
    let mut text = String::new();
    let mut i = 0;
    while left > 0 {
        i += 1;
        if left >= 256 && !random.once_in(40) {
            let part = random.pick(&["+1", "-2", "*3", "+T"]);
            let part = part.repeat(32);
            let rest = format!("...\n {part}").repeat(3);
            text.push_str(&format!("N{i:02}={}{rest}\n", &part[1..]));
            left -= 256;
        } else if left >= 3 && random.once_in(3) {
            text.push_str(&format!("N{i}=INTGRL(0,1)\n"));
            left -= 3;
        } else if left >= 2 && random.once_in(2) {
            text.push_str(&format!("N{i}=1\n"));
            left -= 2;
        } else {
            text.push_str(&format!("CONST N{i}=1\n"));
            left -= 1;
        }
    }
    // The name that some sums use; it needs one more record.
    text.push_str(random.pick(&["CONST T=1\n", "CONST T=1\n", "T=T\n", ""]));
    text.into_bytes()
}

/// A sound deck of just about the most statements, definitions, lines and bytes,
/// all at once.
fn full(random: &mut Random) -> Vec<u8> {
    let statements = STATEMENTS.about(random);
    let definitions = DEFINITIONS.about(random).max(statements);
    let lines = LINES.about(random).max(statements + 1);
    let mut deck = Vec::new();
    let mut named = 0;
    while deck.len() < statements {
        // Constants take what is more than one for each statement that is left.
        let more = definitions - named - (statements - deck.len());
        let count = more.min(7) + 1;
        deck.push(if count > 1 {
            let list = (named..named + count).map(|i| format!("K{i}={count}"));
            format!("CONST {}", list.collect::<Vec<_>>().join(","))
        } else {
            let used = random.below(named.max(1));
            let sum = random.pick(&["TIME", "1.5", "-TIME/2"]);
            match random.below(6) {
                0 => format!("K{named}=INTGRL({used},{sum})"),
                1 if used < named => format!("K{named}={sum}+K{used}"),
                _ => format!("K{named}={sum}"),
            }
        });
        named += count;
    }
    if random.once_in(2) {
        random.shuffle(&mut deck);
    }
    deck.resize(lines - 1, "*".into());
    let text = deck.join("\n");
    let left = BYTES.about(random).saturating_sub(text.len() + 2);
    format!("{text}\n*{}", "-".repeat(left)).into_bytes()
}

/// A token in nearly every byte, up to the most that a text holds, at times
/// with damage.
fn dense(random: &mut Random) -> Vec<u8> {
    let most = random.range(100, MAX_TEXT + 100);
    let mut text = b"T=1\n".to_vec();
    for i in 0..random.range(1, MAX_STATEMENTS) {
        let part = random.pick(&["+1", "-2", "*3", "+T", "/T"]);
        let sum = part.repeat(random.range(1, 34));
        let statement = format!("N{i}={}\n", &sum[1..]);
        if text.len() + statement.len() > most {
            break;
        }
        text.extend(statement.bytes());
    }
    if random.once_in(2) {
        for _ in 0..random.range(1, 4) {
            damage_bytes(random, &mut text);
        }
    }
    text
}

/// Statements nested to just about level 16.
fn nested(random: &mut Random) -> Vec<u8> {
    let mut statements = Vec::new();
    for i in 0..random.range(1, 4) {
        let name = format!("N{i}");
        let mut list = tokens(&[&name, "="]);
        let in_state = random.once_in(3);
        if in_state {
            list.extend(tokens(&["INTGRL", "(", "1", ","]));
        }
        let levels = random.pick(&[14, 15, 16, 16, 16, 17, 17, 18]);
        let only_plain = random.once_in(2);
        let mut behind: Vec<Tokens> = Vec::new();
        for _ in 0..levels {
            if random.once_in(8) {
                list.extend(tokens(random.pick(&[
                    &["1", "+"][..],
                    &["2", "*"],
                    &["-"],
                    &["1", "-", "2", "/"],
                ])));
            }
            let forms: &[(&[&str], &[&str])] = &[
                (&["("], &[")"]),
                (&["INSW", "("], &[",", "1", ",", "2", ")"]),
                (&["LIMIT", "(", "0", ",", "1", ","], &[")"]),
                (&["COMPAR", "(", "1", ","], &[")"]),
            ];
            let (open, shut) = if only_plain {
                forms[0]
            } else {
                random.pick(forms)
            };
            list.extend(tokens(open));
            behind.push(tokens(shut));
        }
        list.push(random.pick(&["1", "TIME", "INSW", "N0"]).to_string());
        for shut in behind.into_iter().rev() {
            list.extend(shut);
            if random.once_in(10) {
                list.extend(tokens(
                    random.pick(&[&["+", "1"][..], &["*", "(", "2", ")"]]),
                ));
            }
        }
        if in_state {
            list.push(")".into());
        }
        if random.once_in(4) {
            list.truncate(random.below(list.len() + 1));
        }
        if random.once_in(8) {
            list.push(any_token(random));
        }
        statements.push(list);
    }
    lay_out(random, &statements, false)
}

/// A number at the edge of the ranges, at times malformed.
fn near_number(random: &mut Random) -> String {
    let digits = match random.below(6) {
        0 => "999999999999999".to_string(),
        1 => "1000000000000000".to_string(),
        2 => (999_999_999_999_990 + random.below(20)).to_string(),
        3 => random.below(1000).to_string(),
        4 => format!("{}{}", "0".repeat(random.below(25)), random.below(10)),
        _ => (random.word() >> random.below(64)).to_string(),
    };
    let mut text = digits;
    let decimals = random.pick(&[0, 0, 0, 1, 5, 14, 15, 16, 20]);
    if random.once_in(2) && decimals <= text.len() {
        text.insert(text.len() - decimals, '.');
    } else if random.once_in(6) {
        text.insert_str(0, &format!(".{}", "0".repeat(random.below(24))));
    }
    if random.once_in(2) {
        let size = random.pick(&[0, 1, 5, 7, 8, 21, 22, 23, 24, 36, 37, 38, 99]);
        text += &format!("E{}{size}", random.pick(&["", "+", "-"]));
    }
    if random.once_in(8) {
        text += random.pick(&[
            "E", "E+", "E-5", "X", ".", "..", "E5X", "E100", "x", "#", "E 5", "EE", "E5.", "0",
        ]);
    }
    text
}

/// Statements that each hold one number at an edge.
fn numbers(random: &mut Random) -> Vec<u8> {
    let mut text = String::new();
    for i in 0..random.range(1, 30) {
        let number = if random.once_in(3) {
            digits_with_exponent(random, 18, 40)
        } else {
            near_number(random)
        };
        // One doubtful number for every few sound ones lets verdict 0 occur.
        let number = if random.once_in(3) || is_sound(&number) {
            number
        } else {
            "7".into()
        };
        text.push_str(&match random.below(5) {
            0 => format!("CONST N{i}={number}\n"),
            1 => format!("PARAM N{i}=-{number}\n"),
            2 => format!("N{i}=INTGRL({number},{number})\n"),
            _ => format!("N{i}={number}\n"),
        });
    }
    text.into_bytes()
}

/// Whether a text is surely a number in range.
fn is_sound(text: &str) -> bool {
    let (digits, exponent) = text.split_once('E').unwrap_or((text, "0"));
    let power = exponent.trim_start_matches(['+', '-']);
    let good = |part: &str| !part.is_empty() && part.bytes().all(|byte| byte.is_ascii_digit());
    let whole = digits.replacen('.', "", 1);
    good(&whole) && good(power) && power.len() <= 2 && is_in_range(text)
}

/// Statements with lines of just about 72 bytes.
fn long_lines(random: &mut Random) -> Vec<u8> {
    let mut text = String::new();
    for i in 0..random.range(1, 6) {
        let count = random.range(1, 5);
        for line in 0..count {
            let mut body = match line {
                0 => format!("L{i}=1"),
                _ => random.pick(&["+1", " *TIME", "", "/2"]).to_string(),
            };
            let length = random.pick(&[20, 71, 72, 72, 72, 73, 74]);
            let dots = line + 1 < count;
            let spaces = " ".repeat(length - body.len() - 3 * dots as usize);
            if random.once_in(2) {
                body.push_str(&spaces);
                body.push_str(if dots { "..." } else { "" });
            } else {
                body.push_str(if dots { "..." } else { "" });
                body.push_str(&spaces);
            }
            text.push_str(&body);
            text.push('\n');
            if dots && random.once_in(6) {
                text.push_str(&format!("*{}\n", "-".repeat(random.range(70, 75))));
            }
        }
        if random.once_in(4) {
            text.push_str(&format!(
                "{}{}\n",
                random.pick(&["*", " "]),
                " ".repeat(random.range(70, 75))
            ));
        }
    }
    text.into_bytes()
}

/// Runs of three to six lines with all that may stand in them.
fn runs(random: &mut Random) -> Vec<u8> {
    const LINES: [&str; 13] = [
        "+1",
        " *2",
        "",
        "  ",
        "*2",
        "* NOTE",
        "B=1",
        "...",
        "+#",
        "+ABCDEFG",
        "+2X",
        "+1E23",
        "+((((((((((((((((((",
    ];
    let mut text = String::new();
    for i in 0..random.range(1, 5) {
        text.push_str(&format!("R{i}=1"));
        for _ in 1..random.pick(&[1, 2, 3, 4, 4, 5, 5, 6]) {
            text.push_str(random.pick(&["...\n", "...  \n", " ...\n", "....\n"]));
            let plain = !random.once_in(5);
            text.push_str(if plain {
                random.pick(&LINES[..4])
            } else {
                random.pick(&LINES)
            });
        }
        text.push('\n');
    }
    if random.once_in(3) {
        text.pop();
        text.push_str(random.pick(&["...", "...\n", "...\n ", "... \n\n", "...\n*2", "...\n*\n"]));
    }
    text.into_bytes()
}

/// Names of five to eight characters and names close to reserved words.
fn names(random: &mut Random) -> Vec<u8> {
    const NAMES: [&str; 24] = [
        "ABCDE", "ABCDEF", "ABCDEFG", "ABCDEFGH", "A2345", "A23456", "A234567", "INTGRL",
        "INTGRLS", "COMPAR", "COMPARE", "LIMITS", "CONSTS", "PARAM", "TIME", "TIMES", "INSWS",
        "XINSW", "PROCED", "PROCEDS", "PROCE", "ENDPRO", "ENDPROC", "ENDPR",
    ];
    let mut text = String::new();
    for _ in 0..random.range(1, 5) {
        let (a, b) = (random.pick(&NAMES), random.pick(&NAMES));
        text.push_str(&match random.below(5) {
            0 => format!("CONST {a}=1\n"),
            1 => format!("{a}=INTGRL({b},1)\n"),
            2 => format!("{a}=INTGRL(1,{b})\n"),
            3 => format!("{a}={b}(1,2,3)\n"),
            _ => format!("{a}={b}\n"),
        });
    }
    text.into_bytes()
}

/// Statements of random tokens that mostly begin well.
fn soup(random: &mut Random) -> Vec<u8> {
    const COMMON: [&str; 24] = [
        "A", "B", "X1", "1", "2.5", "TIME", "(", ")", "(", ")", ",", ",", "+", "-", "*", "/", "=",
        "INSW", "LIMIT", "COMPAR", "INTGRL", "CONST", "PROCED", "ENDPRO",
    ];
    const BEGINS: [&str; 17] = [
        "A=",
        "B=",
        "A=INTGRL(",
        "A=INTGRL(1,",
        "A=INTGRL(B,",
        "CONST ",
        "CONST A=",
        "PARAM A=1,",
        "A=INSW(",
        "A=COMPAR(1,",
        "A=LIMIT(1,2,",
        "PROCED ",
        "PROCED A",
        "PROCED A=B",
        "PROCED A,B=X1(A",
        "ENDPRO",
        "",
    ];
    let mut text = String::new();
    for _ in 0..random.range(1, 40) {
        text.push_str(random.pick(&BEGINS));
        for _ in 0..random.below(8) {
            let token = if random.once_in(40) {
                any_token(random)
            } else {
                random.pick(&COMMON).to_string()
            };
            text.push_str(&token);
            if random.once_in(4) {
                text.push(' ');
            }
        }
        text.push('\n');
    }
    text.into_bytes()
}

/// Statements that each hold one byte of any kind at some place.
fn each_byte(random: &mut Random) -> Vec<u8> {
    let mut bytes: Vec<u8> = (0..=255).collect();
    random.shuffle(&mut bytes);
    bytes.truncate(random.range(1, 250));
    let mut text = Vec::new();
    for (i, byte) in bytes.into_iter().enumerate() {
        let line = format!("B{i}=1+TIME");
        let at = random.below(line.len() + 1);
        text.extend(&line.as_bytes()[..at]);
        if random.once_in(4) {
            text.push(b' ');
        }
        text.push(byte);
        text.extend(&line.as_bytes()[at..]);
        text.push(b'\n');
    }
    text
}

/// Short statements that are good, or just not.
const TRICKY: [&str; 84] = [
    "A=+1",
    "A=-1",
    "A=--1",
    "A=+-1",
    "A=1+-1",
    "A=1-+1",
    "A=1*-1",
    "A=1/+1",
    "A=(-1)",
    "A=(+1)",
    "A=(--1)",
    "A=()",
    "A=((1)",
    "A=(1))",
    "A=1)",
    "A=(1",
    "A=1 2",
    "A=B C",
    "A=1=2",
    "A==1",
    "A=",
    "A",
    "=",
    "=1",
    "1=A",
    "A=,",
    "A=1,",
    "A=1+",
    "A=1*",
    "A=*1",
    "A=/1",
    "A=TIME",
    "A=-TIME*B",
    "A=TIME 1",
    "TIME=1",
    "INSW=1",
    "INTGRL=1",
    "A=CONST",
    "A=PARAM+1",
    "A=INCON",
    "A=INTGRL",
    "A=INTGRL(",
    "A=INTGRL()",
    "A=INTGRL(1)",
    "A=INTGRL(1,)",
    "A=INTGRL(,1)",
    "A=INTGRL(1,2",
    "A=INTGRL(1,2)",
    "A=INTGRL(1,2,3)",
    "A=INTGRL(1,2)+1",
    "A=INTGRL(1,2))",
    "A=-INTGRL(1,2)",
    "A=(INTGRL(1,2))",
    "A=INTGRL(-1,2)",
    "A=INTGRL(+1,2)",
    "A=INTGRL(--1,2)",
    "A=INTGRL(B,2)",
    "A=INTGRL(-B,2)",
    "A=INTGRL(+B,2)",
    "A=INTGRL((1),2)",
    "A=INTGRL(1+1,2)",
    "A=INTGRL(TIME,2)",
    "A=INTGRL(INSW,2)",
    "A=INTGRL(1,INTGRL(1,2))",
    "A=INSW(1,2,3)",
    "A=INSW(1,2)",
    "A=INSW(1,2,3,4)",
    "A=INSW",
    "A=INSW 1",
    "A=INSW=1",
    "A=LIMIT(-1,+1,-TIME)",
    "A=LIMIT(1,2)",
    "A=COMPAR(1,2)",
    "A=COMPAR(1)",
    "A=COMPAR(1,2,3)",
    "A=COMPAR()",
    "CONST A=1",
    "CONST A=+1,C=-1",
    "CONST A=--1",
    "CONST A=1,",
    "CONST ,A=1",
    "CONST A=B",
    "CONST A=1+1",
    "CONST",
];

/// Tricky statements, mostly one a text, or many that are read but not sorted.
fn tricky(random: &mut Random) -> Vec<u8> {
    let mut text = String::from(random.pick(&["", "CONST B=2\n", "PARAM B=-2,D=1\n", "B=1\n"]));
    let count = random.pick(&[1, 1, 1, 2, 30]);
    for _ in 0..count {
        let mut line = random.pick(&TRICKY).to_string();
        if random.once_in(6) {
            let at = random.below(line.len() + 1);
            line.insert_str(at, random.pick(&[" ", " ...\n", "A", "1", "-", "(", ")"]));
        }
        text.push_str(&line);
        text.push('\n');
    }
    text.into_bytes()
}

/// Bytes of the language in random order.
fn alphabet_bytes(random: &mut Random) -> Vec<u8> {
    let most = random.pick(&[20, 300, 3000]);
    let count = random.below(most);
    (0..count).map(|_| random.pick(ALPHABET)).collect()
}

/// Bytes of any kind.
fn raw_bytes(random: &mut Random) -> Vec<u8> {
    let count = match random.below(12) {
        0 => 0,
        1 => BYTES.about(random),
        2 => random.below(5000),
        _ => random.below(200),
    };
    random.bytes(count)
}

/// Very short texts of the language.
fn tiny(random: &mut Random) -> Vec<u8> {
    const BYTES: &[u8] = b"A1.=+*E( \n\n...";
    let count = random.below(10);
    (0..count).map(|_| random.pick(BYTES)).collect()
}
