//! The first token at which no statement can go on, sought in a second way: the
//! grammar is written out as rules, and all that they allow is followed at once.

mod common;
use common::*;

/// The rules: what is replaced, and by what. N is a name, 7 a number.
const RULES: &[(&str, &str)] = &[
    ("statement", "CONST list"),
    ("statement", "PARAM list"),
    ("statement", "INCON list"),
    ("statement", "N = sum"),
    ("statement", "N = INTGRL ( initial , sum )"),
    ("statement", "PROCED names = N ( names )"),
    ("statement", "ENDPRO"),
    ("list", "N = signed"),
    ("list", "N = signed , list"),
    ("names", "N"),
    ("names", "N , names"),
    ("signed", "7"),
    ("signed", "+ 7"),
    ("signed", "- 7"),
    ("initial", "signed"),
    ("initial", "N"),
    ("sum", "term terms"),
    ("sum", "+ term terms"),
    ("sum", "- term terms"),
    ("terms", ""),
    ("terms", "+ term terms"),
    ("terms", "- term terms"),
    ("term", "factor factors"),
    ("factors", ""),
    ("factors", "* factor factors"),
    ("factors", "/ factor factors"),
    ("factor", "7"),
    ("factor", "N"),
    ("factor", "TIME"),
    ("factor", "( sum )"),
    ("factor", "INSW ( sum , sum , sum )"),
    ("factor", "LIMIT ( sum , sum , sum )"),
    ("factor", "COMPAR ( sum , sum )"),
];

/// The tokens that a statement may be made of.
const TOKENS: [&str; 20] = [
    "N", "7", "=", "(", ")", ",", "+", "-", "*", "/", "CONST", "PARAM", "INCON", "INTGRL", "TIME",
    "INSW", "LIMIT", "COMPAR", "PROCED", "ENDPRO",
];

/// What may still come, the next at the end: a token, or nothing at all.
type Rest = Vec<&'static str>;

/// All that a rest stands for once what comes next is a token.
fn replaced(rest: Rest) -> Vec<Rest> {
    let Some(&next) = rest.last() else {
        return vec![rest];
    };
    if TOKENS.contains(&next) {
        return vec![rest];
    }
    let rules = RULES.iter().filter(|(from, _)| *from == next);
    let with = |&(_, to): &(&str, &'static str)| {
        let mut longer = rest[..rest.len() - 1].to_vec();
        longer.extend(to.split_whitespace().rev());
        longer
    };
    rules.map(with).flat_map(replaced).collect()
}

/// All that may come behind this token.
fn behind(rests: &[Rest], token: &str) -> Vec<Rest> {
    let fit = rests.iter().filter(|rest| rest.last() == Some(&token));
    fit.flat_map(|rest| replaced(rest[..rest.len() - 1].to_vec()))
        .collect()
}

/// All that a statement may be.
fn statements() -> Vec<Rest> {
    replaced(vec!["statement"])
}

/// The index of the first token at which no statement can go on, the count of
/// tokens if it ends early, none if it is a statement.
fn first_wrong(tokens: &[&str]) -> Option<usize> {
    let mut rests = statements();
    for (index, token) in tokens.iter().enumerate() {
        rests = behind(&rests, token);
        if rests.is_empty() {
            return Some(index);
        }
    }
    let ends = rests.iter().any(|rest| rest.is_empty());
    (!ends).then_some(tokens.len())
}

/// A small source of numbers below a given one.
struct Source(u64);

impl Source {
    /// The next number below n.
    fn below(&mut self, n: usize) -> usize {
        self.0 = self
            .0
            .wrapping_mul(6364136223846793005)
            .wrapping_add(1442695040888963407);
        (self.0 >> 33) as usize % n
    }
}

/// A text that grows by statements, and the faults that it must have.
struct Deck {
    text: String,
    line: u16,
    faults: Vec<Fault>,
    source: Source,
}

impl Deck {
    /// Begins with a fault, so that the verdict is always 5.
    fn new(seed: u64) -> Self {
        Deck {
            text: "=\n".into(),
            line: 2,
            faults: vec![(1, 18, 1, 1)],
            source: Source(seed),
        }
    }

    /// Adds a statement over one to four cards, comments among them.
    fn add(&mut self, tokens: &[&str]) {
        let first = self.line;
        let mut places = Vec::new();
        let mut card = String::new();
        let mut breaks = 0;
        for token in tokens {
            if card.len() > 55 || (breaks < 2 && self.source.below(4) == 0) {
                breaks += 1;
                card.push_str(["...", " ...  "][self.source.below(2)]);
                self.close(&mut card);
                for _ in 0..self.source.below(3) {
                    self.text.push_str("* 7\n");
                    self.line += 1;
                }
            }
            card.push_str(&" ".repeat(1 + self.source.below(2)));
            places.push((self.line, card.len() as u16 + 1));
            card.push_str(token);
        }
        card.push_str(["", "  "][self.source.below(2)]);
        places.push((self.line, card.len() as u16));
        self.close(&mut card);
        if let Some(index) = first_wrong(tokens) {
            let (line, column) = places[index];
            self.faults.push((first, 18, line, column));
        }
    }

    /// Ends a card.
    fn close(&mut self, card: &mut String) {
        assert!(card.len() <= 72);
        self.text.push_str(card);
        self.text.push('\n');
        self.line += 1;
        card.clear();
    }

    /// Compares, once there are enough lines or at last, and begins afresh.
    fn compare(&mut self, at_last: bool) {
        if at_last || self.line > 480 {
            assert_eq!(placed(&self.text, 5), self.faults, "{}", self.text);
            *self = Deck::new(self.source.0);
        }
    }
}

/// Goes through all that begins a statement, with each token behind it.
fn all_behind(deck: &mut Deck, tokens: &mut Vec<&'static str>, rests: &[Rest], left: usize) {
    for token in TOKENS {
        tokens.push(token);
        deck.add(tokens);
        deck.compare(false);
        let rests = behind(rests, token);
        if left > 1 && !rests.is_empty() {
            all_behind(deck, tokens, &rests, left - 1);
        }
        tokens.pop();
    }
}

#[test]
fn all_short_beginnings() {
    let mut deck = Deck::new(1);
    all_behind(&mut deck, &mut Vec::new(), &statements(), 7);
    deck.compare(true);
}

#[test]
fn long_beginnings_with_anything_behind() {
    let mut deck = Deck::new(2);
    for _ in 0..4000 {
        let mut tokens = Vec::new();
        let mut rests = statements();
        for _ in 0..deck.source.below(14) {
            let next: Vec<&str> = rests
                .iter()
                .filter_map(|rest| rest.last().copied())
                .collect();
            let token = if next.is_empty() || deck.source.below(12) == 0 {
                TOKENS[deck.source.below(TOKENS.len())]
            } else {
                next[deck.source.below(next.len())]
            };
            tokens.push(token);
            rests = behind(&rests, token);
        }
        if !tokens.is_empty() {
            deck.add(&tokens);
            deck.compare(false);
        }
    }
    deck.compare(true);
}
