//! Tokens.

use crate::limits::NAME_BYTES;

/// A byte that no token may hold.
pub const BAD_BYTE: u8 = 14;
/// A name of more than six characters.
pub const LONG_NAME: u8 = 15;
/// A malformed number.
pub const BAD_NUMBER: u8 = 16;
/// A number whose digits or exponent are out of range.
pub const OUT_OF_RANGE: u8 = 17;

/// The greatest whole number that the digits of a number may make.
const MAX_DIGITS: u64 = 999_999_999_999_999;
/// The exact powers of ten.
const POWERS: [f64; 23] = [
    1e0, 1e1, 1e2, 1e3, 1e4, 1e5, 1e6, 1e7, 1e8, 1e9, 1e10, 1e11, 1e12, 1e13, 1e14, 1e15, 1e16,
    1e17, 1e18, 1e19, 1e20, 1e21, 1e22,
];

/// A name of at most six characters, its bytes packed into one word.
pub type Name = u64;

/// A token, or the end of the statement.
#[derive(Clone, Copy, Debug, PartialEq)]
pub enum Token {
    Name(Name),
    Mark(u8),
    Number(f64),
    End,
}

/// Packs the bytes of a name.
pub const fn pack(text: &[u8]) -> Name {
    let mut name = 0;
    let mut i = 0;
    while i < text.len() {
        name = name << 8 | text[i] as u64;
        i += 1;
    }
    name
}

/// The bytes of a packed name, filled up with zeros.
pub fn unpack(name: Name) -> [u8; 8] {
    let free = name.leading_zeros() / 8;
    (name << (8 * free)).to_be_bytes()
}

/// What a byte may be part of.
#[derive(Clone, Copy, PartialEq)]
enum Class {
    Letter,
    Digit,
    Point,
    Space,
    Mark,
    Bad,
}

/// The class of each byte.
const CLASSES: [Class; 256] = classes();

/// Works out the class of each byte.
const fn classes() -> [Class; 256] {
    let mut table = [Class::Bad; 256];
    let mut byte = 0;
    while byte < 256 {
        table[byte] = match byte as u8 {
            b'A'..=b'Z' => Class::Letter,
            b'0'..=b'9' => Class::Digit,
            b'.' => Class::Point,
            b' ' => Class::Space,
            b'=' | b'(' | b')' | b',' | b'+' | b'-' | b'*' | b'/' => Class::Mark,
            _ => Class::Bad,
        };
        byte += 1;
    }
    table
}

/// The class of a byte.
fn class(byte: u8) -> Class {
    CLASSES[byte as usize]
}

/// A bad token: its code, and how many bytes of its part stand before it.
#[derive(Clone, Copy, Debug, PartialEq)]
pub struct Bad {
    pub code: u8,
    pub before: u16,
}

/// Cuts one part of a statement into tokens, or gives the first bad one. Parts
/// are cut one by one, as no token crosses a line end.
pub fn cut(part: &[u8], tokens: &mut Vec<Token>) -> Result<(), Bad> {
    let mut rest = part;
    while let [first, behind @ ..] = rest {
        let bad = |code| Bad {
            code,
            before: (part.len() - rest.len()) as u16,
        };
        match class(*first) {
            Class::Space => rest = behind,
            Class::Mark => {
                tokens.push(Token::Mark(*first));
                rest = behind;
            }
            Class::Letter => {
                let (name, behind) = cut_name(rest).map_err(bad)?;
                tokens.push(Token::Name(name));
                rest = behind;
            }
            Class::Digit | Class::Point => {
                let (value, behind) = cut_number(rest).map_err(bad)?;
                tokens.push(Token::Number(value));
                rest = behind;
            }
            Class::Bad => return Err(bad(BAD_BYTE)),
        }
    }
    Ok(())
}

/// How many bytes stand before each token of a part that has no bad one.
pub fn begins(part: &[u8]) -> impl Iterator<Item = usize> + '_ {
    let mut next = 0;
    std::iter::from_fn(move || {
        while part.get(next) == Some(&b' ') {
            next += 1;
        }
        let before = next;
        next += length(&part[before..])?;
        Some(before)
    })
}

/// How many bytes the token in front has, if there is one.
fn length(text: &[u8]) -> Option<usize> {
    let in_name = |byte| matches!(class(byte), Class::Letter | Class::Digit);
    let in_number = |byte| in_name(byte) || byte == b'.';
    // The sign of an exponent is the only mark in a token with other bytes.
    let is_sign = |last, byte| last == b'E' && matches!(byte, b'+' | b'-');
    let mut pairs = text.windows(2);
    let behind = match class(*text.first()?) {
        Class::Letter => pairs.position(|pair| !in_name(pair[1])),
        Class::Digit | Class::Point => {
            pairs.position(|pair| !in_number(pair[1]) && !is_sign(pair[0], pair[1]))
        }
        _ => return Some(1),
    };
    Some(behind.map_or(text.len(), |last| last + 1))
}

/// Cuts the longest run of letters and digits.
fn cut_name(text: &[u8]) -> Result<(Name, &[u8]), u8> {
    let mut name = 0;
    let mut rest = text;
    while let [byte, behind @ ..] = rest {
        if !matches!(class(*byte), Class::Letter | Class::Digit) {
            break;
        }
        name = name << 8 | *byte as u64;
        rest = behind;
    }
    if text.len() - rest.len() > NAME_BYTES {
        return Err(LONG_NAME);
    }
    Ok((name, rest))
}

/// Cuts a number from its first digit or point on.
fn cut_number(text: &[u8]) -> Result<(f64, &[u8]), u8> {
    let (digits, decimals, rest) = cut_digits(text)?;
    let (exponent, rest) = match rest {
        [b'E', behind @ ..] => cut_exponent(behind)?,
        _ => (0, rest),
    };
    if let [byte, ..] = rest {
        if matches!(class(*byte), Class::Letter | Class::Digit | Class::Point) {
            return Err(BAD_NUMBER);
        }
    }
    Ok((scale(digits, exponent - decimals)?, rest))
}

/// Cuts digits with at most one point: the whole number they make (kept just
/// above the greatest allowed once it is over), and how many follow the point.
fn cut_digits(text: &[u8]) -> Result<(u64, i32, &[u8]), u8> {
    let mut digits = 0;
    let mut decimals = 0;
    let mut any = false;
    let mut point = false;
    let mut rest = text;
    while let [byte, behind @ ..] = rest {
        match byte {
            b'0'..=b'9' => {
                if digits <= MAX_DIGITS {
                    digits = digits * 10 + (byte - b'0') as u64;
                }
                decimals += point as i32;
                any = true;
            }
            b'.' if !point => point = true,
            _ => break,
        }
        rest = behind;
    }
    if any {
        Ok((digits, decimals, rest))
    } else {
        Err(BAD_NUMBER)
    }
}

/// Cuts an optional sign and one or two digits.
fn cut_exponent(text: &[u8]) -> Result<(i32, &[u8]), u8> {
    let (negative, text) = match text {
        [b'-', behind @ ..] => (true, behind),
        [b'+', behind @ ..] => (false, behind),
        _ => (false, text),
    };
    let (size, rest) = match text {
        [a @ b'0'..=b'9', b @ b'0'..=b'9', rest @ ..] => ((a - b'0') * 10 + (b - b'0'), rest),
        [a @ b'0'..=b'9', rest @ ..] => (a - b'0', rest),
        _ => return Err(BAD_NUMBER),
    };
    let size = size as i32;
    Ok((if negative { -size } else { size }, rest))
}

/// The float value of m times 10 to the k, by one multiplication or division.
fn scale(m: u64, k: i32) -> Result<f64, u8> {
    if m > MAX_DIGITS || !(-22..=22).contains(&k) {
        return Err(OUT_OF_RANGE);
    }
    let m = m as f64;
    Ok(if k >= 0 {
        m * POWERS[k as usize]
    } else {
        m / POWERS[-k as usize]
    })
}

#[cfg(test)]
mod tests {
    use super::*;

    /// Cuts a text, giving its tokens or the first bad one.
    fn cut_all(text: &str) -> Result<Vec<Token>, Bad> {
        let mut tokens = Vec::new();
        cut(text.as_bytes(), &mut tokens).map(|()| tokens)
    }

    #[test]
    fn kinds() {
        let name = Token::Name(pack(b"AB2"));
        assert_eq!(
            cut_all("AB2= 1.5(").unwrap(),
            [
                name,
                Token::Mark(b'='),
                Token::Number(1.5),
                Token::Mark(b'(')
            ]
        );
        assert_eq!(cut_all("  "), Ok(vec![]));
    }

    #[test]
    fn names_unpacked() {
        assert_eq!(&unpack(pack(b"A")), b"A\0\0\0\0\0\0\0");
        assert_eq!(&unpack(pack(b"Z9")), b"Z9\0\0\0\0\0\0");
        assert_eq!(&unpack(pack(b"ABCDE6")), b"ABCDE6\0\0");
    }

    #[test]
    fn beginnings() {
        let all = |text: &str| begins(text.as_bytes()).collect::<Vec<_>>();
        assert_eq!(all("AB2= 1.5E-1("), [0, 3, 5, 11]);
        assert_eq!(all("  A  ,B "), [2, 5, 6]);
        assert_eq!(all(""), []);
        assert_eq!(all("   "), []);
        // A sign behind an E belongs to a number, but not to a name.
        assert_eq!(all("1E+5+1.E-2-.5E1"), [0, 4, 5, 10, 11]);
        assert_eq!(all("E+1-ABE-2"), [0, 1, 2, 3, 4, 7, 8]);
        // A point ends a name, and a number may begin with it.
        assert_eq!(all("A.5"), [0, 1]);
        assert_eq!(all("1.5(2)"), [0, 3, 4, 5]);
    }

    #[test]
    fn good_numbers() {
        for (text, value) in [
            ("1.E5", 100000.0),
            (".5", 0.5),
            ("5.", 5.0),
            ("0", 0.0),
            ("1E22", 1e22),
            ("1E-22", 1e-22),
            ("1E+2", 100.0),
            ("1E02", 100.0),
            ("000000000000000000000000000001", 1.0),
            ("999999999999999", 999999999999999.0),
            (".0000000000000000000001", 1e-22),
            ("1.5E23", 15.0 * 1e22),
            ("0.1E-21", 1e-22),
        ] {
            assert_eq!(cut_all(text), Ok(vec![Token::Number(value)]), "{text}");
        }
    }

    #[test]
    fn bad_tokens() {
        // The sign `^` stands before the bad token.
        for (marked, code) in [
            ("^1..", 16),
            ("^.", 16),
            ("^.E5", 16),
            ("^1.2.3", 16),
            ("^2X", 16),
            ("^1E", 16),
            ("^1E+", 16),
            ("^1E+-2", 16),
            ("^1E100", 16),
            ("^1E5E", 16),
            ("^1E5.", 16),
            ("^1Ex", 16),
            ("^1000000000000000E99X", 16),
            ("A= 1+^2X+3", 16),
            ("2^x", 14),
            ("1^#", 14),
            ("1E5^x", 14),
            ("AB^a", 14),
            ("^#", 14),
            ("^\t", 14),
            ("A=^##", 14),
            ("^1000000000000000", 17),
            ("^1.000000000000000", 17),
            ("^1E23", 17),
            ("^0E23", 17),
            ("^0.1E-22", 17),
            ("^1E-23", 17),
            ("^1E23+2X", 17),
            ("1  ^1E23", 17),
            ("^ABCDEFG#", 15),
            ("A=(^ABCDEFG+1", 15),
            ("ABCDEF 1^#", 14),
        ] {
            let before = marked.find('^').unwrap() as u16;
            let text = marked.replace('^', "");
            assert_eq!(cut_all(&text), Err(Bad { code, before }), "{marked}");
        }
    }
}
