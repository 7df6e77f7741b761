//! The grammar: reads the tokens of one statement and adds what it says to
//! the model, its expression already in postfix.

use crate::blocks::{Header, Mark};
use crate::faults::{Spot, Wrong};
use crate::limits::LEVELS;
use crate::model::{Definition, Equation, Model, Sort};
use crate::program::{
    Item, ADD, COMPAR, DERIVATIVE, DIVIDE, INSW, LIMIT, MULTIPLY, NEGATE, STORE, SUBTRACT,
};
use crate::tokens::{pack, Name, Token};

/// No statement of the grammar goes on here.
pub const GRAMMAR: u8 = 18;
/// The seventeenth level is opened.
pub const TOO_DEEP: u8 = 19;

/// The reserved words.
mod word {
    use super::{pack, Name};
    pub const CONST: Name = pack(b"CONST");
    pub const PARAM: Name = pack(b"PARAM");
    pub const INCON: Name = pack(b"INCON");
    pub const INTGRL: Name = pack(b"INTGRL");
    pub const TIME: Name = pack(b"TIME");
    pub const INSW: Name = pack(b"INSW");
    pub const LIMIT: Name = pack(b"LIMIT");
    pub const COMPAR: Name = pack(b"COMPAR");
    pub const PROCED: Name = pack(b"PROCED");
    pub const ENDPRO: Name = pack(b"ENDPRO");
}

/// Whether a name token is a reserved word. None of them ends in a digit.
fn is_reserved(name: Name) -> bool {
    let letter = name as u8 >= b'A';
    letter
        && matches!(
            name,
            word::CONST
                | word::PARAM
                | word::INCON
                | word::INTGRL
                | word::TIME
                | word::INSW
                | word::LIMIT
                | word::COMPAR
                | word::PROCED
                | word::ENDPRO
        )
}

/// Reads one whole statement, its tokens closed by the end token, or tells
/// what is wrong with it. After that the model is of no use any more.
pub fn read(tokens: &[Token], line: u32, model: &mut Model) -> Result<(), Wrong> {
    let mut reader = Reader {
        tokens,
        at: 0,
        line,
        model,
    };
    let read = match reader.next() {
        Token::Name(word::CONST | word::PARAM | word::INCON) => reader.constants(),
        Token::Name(word::PROCED) => reader.header(),
        Token::Name(word::ENDPRO) => reader.end(),
        Token::Name(name) if !is_reserved(name) => reader.equation(name),
        _ => Err(GRAMMAR),
    };
    read.map_err(|code| reader.wrong(code))
}

/// Reads tokens from the left. Where it gives a code, the token that it took
/// last is the one at fault.
struct Reader<'a> {
    tokens: &'a [Token],
    at: usize,
    line: u32,
    model: &'a mut Model,
}

impl Reader<'_> {
    /// The token at the front, the end if all are read.
    fn peek(&self) -> Token {
        self.tokens.get(self.at).copied().unwrap_or(Token::End)
    }

    /// Takes the token at the front.
    fn next(&mut self) -> Token {
        let token = self.peek();
        self.at += 1;
        token
    }

    /// What is wrong by a code, which the token taken last has given.
    fn wrong(&self, code: u8) -> Wrong {
        let index = self.at - 1;
        let spot = match self.tokens.get(index) {
            None | Some(Token::End) => Spot::Last,
            Some(_) => Spot::Token(index as u16),
        };
        Wrong { code, spot }
    }

    /// Takes this token, and nothing else will do.
    fn expect(&mut self, token: Token) -> Result<(), u8> {
        if self.next() == token {
            Ok(())
        } else {
            Err(GRAMMAR)
        }
    }

    /// Takes a name that is no reserved word.
    fn name(&mut self) -> Result<Name, u8> {
        match self.next() {
            Token::Name(name) if !is_reserved(name) => Ok(name),
            _ => Err(GRAMMAR),
        }
    }

    /// Takes a sign if there is one, and tells whether it is a minus.
    fn minus(&mut self) -> bool {
        let token = self.peek();
        let minus = token == Token::Mark(b'-');
        self.at += (minus || token == Token::Mark(b'+')) as usize;
        minus
    }

    /// Takes a number with an optional sign.
    fn signed_number(&mut self) -> Result<f64, u8> {
        let minus = self.minus();
        match self.next() {
            Token::Number(value) => Ok(if minus { -value } else { value }),
            _ => Err(GRAMMAR),
        }
    }

    /// Reads the list of a constants statement, behind its first word.
    fn constants(&mut self) -> Result<(), u8> {
        loop {
            let name = self.name()?;
            self.expect(Token::Mark(b'='))?;
            let value = self.signed_number()?;
            self.define(name, Sort::Constant, value);
            match self.next() {
                Token::Mark(b',') => {}
                Token::End => return Ok(()),
                _ => return Err(GRAMMAR),
            }
        }
    }

    /// Reads an assignment or a state statement, behind its name.
    fn equation(&mut self, name: Name) -> Result<(), u8> {
        self.expect(Token::Mark(b'='))?;
        let (items, uses) = self.lengths();
        let definition = self.model.definitions.len() as u16;
        let state = self.peek() == Token::Name(word::INTGRL);
        let mut value = 0.0;
        let mut initial = None;
        if state {
            self.at += 1;
            self.expect(Token::Mark(b'('))?;
            if let Token::Name(_) = self.peek() {
                initial = Some(self.name()?);
            } else {
                value = self.signed_number()?;
            }
            self.expect(Token::Mark(b','))?;
            self.expression(0)?;
            self.expect(Token::Mark(b')'))?;
        } else {
            self.expression(0)?;
        }
        self.expect(Token::End)?;
        let (kind, sort) = if state {
            (DERIVATIVE, Sort::State)
        } else {
            (STORE, Sort::Assigned)
        };
        self.emit(Item::plain(kind));
        let end = self.lengths();
        let (items, uses) = ((items, end.0), (uses, end.1));
        self.define(name, sort, value);
        self.model.equations.push(Equation {
            line: self.line,
            items,
            uses,
            definition,
            initial,
        });
        Ok(())
    }

    /// Reads an expression that stands at this level.
    fn expression(&mut self, level: u32) -> Result<(), u8> {
        let minus = self.minus();
        self.term(level)?;
        if minus {
            self.emit(Item::plain(NEGATE));
        }
        loop {
            let kind = match self.peek() {
                Token::Mark(b'+') => ADD,
                Token::Mark(b'-') => SUBTRACT,
                _ => return Ok(()),
            };
            self.at += 1;
            self.term(level)?;
            self.emit(Item::plain(kind));
        }
    }

    /// Reads a term that stands at this level.
    fn term(&mut self, level: u32) -> Result<(), u8> {
        self.factor(level)?;
        loop {
            let kind = match self.peek() {
                Token::Mark(b'*') => MULTIPLY,
                Token::Mark(b'/') => DIVIDE,
                _ => return Ok(()),
            };
            self.at += 1;
            self.factor(level)?;
            self.emit(Item::plain(kind));
        }
    }

    /// Reads a factor that stands at this level.
    fn factor(&mut self, level: u32) -> Result<(), u8> {
        match self.next() {
            Token::Number(value) => self.emit(Item::number(value)),
            Token::Name(word::TIME) => self.emit(Item::time()),
            Token::Name(word::INSW) => self.call(INSW, 3, level)?,
            Token::Name(word::LIMIT) => self.call(LIMIT, 3, level)?,
            Token::Name(word::COMPAR) => self.call(COMPAR, 2, level)?,
            Token::Name(name) if !is_reserved(name) => {
                self.model.uses.push(self.model.items.len() as u16);
                self.emit(Item::name(name));
            }
            Token::Mark(b'(') => {
                if level == LEVELS {
                    return Err(TOO_DEEP);
                }
                self.expression(level + 1)?;
                self.expect(Token::Mark(b')'))?;
            }
            _ => return Err(GRAMMAR),
        }
        Ok(())
    }

    /// Reads a function's arguments in their parentheses, behind its word.
    fn call(&mut self, kind: u8, arguments: u32, level: u32) -> Result<(), u8> {
        self.expect(Token::Mark(b'('))?;
        if level == LEVELS {
            return Err(TOO_DEEP);
        }
        self.expression(level + 1)?;
        for _ in 1..arguments {
            self.expect(Token::Mark(b','))?;
            self.expression(level + 1)?;
        }
        self.expect(Token::Mark(b')'))?;
        self.emit(Item::plain(kind));
        Ok(())
    }

    /// Reads a header, behind its first word.
    fn header(&mut self) -> Result<(), u8> {
        let outputs = self.names(b'=')?;
        self.name()?;
        self.expect(Token::Mark(b'('))?;
        let inputs = self.names(b')')?;
        self.expect(Token::End)?;
        self.mark(Some(Header { outputs, inputs }));
        Ok(())
    }

    /// Reads the end of a block, behind its word.
    fn end(&mut self) -> Result<(), u8> {
        self.expect(Token::End)?;
        self.mark(None);
        Ok(())
    }

    /// Reads names with commas up to a mark, and gives where they begin and end.
    fn names(&mut self, mark: u8) -> Result<(u16, u16), u8> {
        let from = self.model.header_names.len() as u16;
        loop {
            let name = self.name()?;
            self.model.header_names.push(name);
            match self.next() {
                Token::Mark(b',') => {}
                token if token == Token::Mark(mark) => {
                    return Ok((from, self.model.header_names.len() as u16));
                }
                _ => return Err(GRAMMAR),
            }
        }
    }

    /// Adds a header or an end to the model.
    fn mark(&mut self, header: Option<Header>) {
        self.model.marks.push(Mark {
            line: self.line,
            header,
            definitions: self.model.definitions.len() as u16,
            equations: self.model.equations.len() as u16,
        });
    }

    /// Adds a definition to the model.
    fn define(&mut self, name: Name, sort: Sort, value: f64) {
        self.model.definitions.push(Definition {
            name,
            line: self.line,
            sort,
            known: 0,
            value,
        });
    }

    /// How many items and uses the model has.
    fn lengths(&self) -> (u16, u16) {
        (self.model.items.len() as u16, self.model.uses.len() as u16)
    }

    /// Adds an item to the postfix of the statement.
    fn emit(&mut self, item: Item) {
        self.model.items.push(item);
    }
}

#[cfg(test)]
mod tests {
    use super::*;
    use crate::tokens::cut;

    /// The tokens of a text that has no bad one.
    fn tokens(text: &str) -> Vec<Token> {
        let mut tokens = Vec::new();
        assert_eq!(cut(text.as_bytes(), &mut tokens), Ok(()));
        tokens
    }

    /// Reads one statement, giving the kinds of its items or what is wrong.
    fn kinds(text: &str) -> Result<Vec<u8>, Wrong> {
        let mut tokens = tokens(text);
        tokens.push(Token::End);
        let mut model = Model::default();
        read(&tokens, 1, &mut model)?;
        Ok(model.items.iter().map(|item| item.kind).collect())
    }

    /// Reads one statement that has this fault where the sign `^` stands.
    fn assert_wrong(marked: &str, code: u8) {
        let (before, behind) = marked.split_once('^').unwrap();
        let spot = match behind.trim() {
            "" => Spot::Last,
            _ => Spot::Token(tokens(before).len() as u16),
        };
        let text = format!("{before}{behind}");
        assert_eq!(kinds(&text), Err(Wrong { code, spot }), "{marked}");
    }

    #[test]
    fn postfix() {
        assert_eq!(kinds("Y=-A*B+C").unwrap(), [4, 4, 7, 9, 4, 5, 13]);
        assert_eq!(kinds("Y=+A-B-C").unwrap(), [4, 4, 6, 4, 6, 13]);
        assert_eq!(kinds("Y=A-B*C/D").unwrap(), [4, 4, 4, 7, 4, 8, 6, 13]);
        assert_eq!(kinds("Y=A-(-B)").unwrap(), [4, 4, 9, 6, 13]);
        assert_eq!(kinds("Y=INSW(A,-1,TIME)").unwrap(), [4, 3, 9, 4, 10, 13]);
        assert_eq!(kinds("Y=INTGRL(-2,COMPAR(A,B))").unwrap(), [4, 4, 12, 14]);
        assert_eq!(kinds("CONST A=1,B=-2").unwrap(), []);
    }

    #[test]
    fn grammar_faults() {
        for marked in [
            "^",
            "A^",
            "A=^",
            "A=+^",
            "A=1+^",
            "A=-^-1",
            "A=1+^-1",
            "A=TIME*^-2",
            "^TIME=1",
            "^INTGRL=1",
            "A=^=1",
            "A=1^=2",
            "A=1 ^2",
            "A=(^)",
            "A=(1^",
            "A=1^)",
            "A=B ^C",
            "A=INSW(1,2^)",
            "A=INSW(1,2,3^,4)",
            "A=COMPAR(1^)",
            "A=COMPAR(1,2^,3)",
            "A=LIMIT ^1",
            "A=^CONST",
            "A=INTGRL^",
            "A=INTGRL(1^)",
            "A=INTGRL(1,2^",
            "A=INTGRL(1,2)^+1",
            "A=INTGRL(-^B,2)",
            "A=INTGRL(^TIME,2)",
            "A=INTGRL(^(1),2)",
            "A=-^INTGRL(1,2)",
            "A=1+^INTGRL(1,2)",
            "CONST^",
            "CONST A^",
            "CONST A=^",
            "CONST A=^B",
            "CONST A=1,^",
            "CONST A=1 ^B=2",
            "CONST ^TIME=1",
            "CONST A=-^-1",
            "CONST A=1^+2",
            "CONST^=1",
            "^1=A",
            "^=",
            "PROCED^",
            "PROCED A^",
            "PROCED A=^",
            "PROCED A=F^",
            "PROCED A=F(^",
            "PROCED A=F(^)",
            "PROCED A=F(C^",
            "PROCED A=F(C,^",
            "PROCED A=F(C,^)",
            "PROCED A=F(C)^)",
            "PROCED A=F(C)^D",
            "PROCED A=F(C) ^D",
            "PROCED A=F(C)^,B",
            "PROCED A=F(C ^D)",
            "PROCED A=F(^-C)",
            "PROCED A=F(C^+D)",
            "PROCED A=F(^(C))",
            "PROCED A=F(^1)",
            "PROCED A=F(^TIME)",
            "PROCED A=F(C,^TIME)",
            "PROCED A=F(^ENDPRO)",
            "PROCED A=^(C)",
            "PROCED A=F ^G(C)",
            "PROCED A=F^=G(C)",
            "PROCED A=^1(C)",
            "PROCED A=^TIME(C)",
            "PROCED A=^INSW(C)",
            "PROCED A=^PROCED(C)",
            "PROCED ^=F(C)",
            "PROCED F^(C)",
            "PROCED A,^=F(C)",
            "PROCED ^,A=F(C)",
            "PROCED A ^B=F(C)",
            "PROCED A,B ^F(C)",
            "PROCED ^TIME=F(C)",
            "PROCED A,^CONST=F(C)",
            "PROCED^=1",
            "PROCED ^PROCED A=F(C)",
            "ENDPRO ^A",
            "ENDPRO ^1",
            "ENDPRO ^ENDPRO",
            "ENDPRO^=1",
            "ENDPRO^,",
            "A=^PROCED",
            "A=^ENDPRO+1",
            "A=INTGRL(^ENDPRO,1)",
            "CONST ^PROCED=1",
            "PARAM A=1,^ENDPRO=1",
        ] {
            assert_wrong(marked, GRAMMAR);
        }
    }

    #[test]
    fn headers_and_ends() {
        for text in [
            "PROCED A=F(C)",
            "PROCED A,B=F(C,D)",
            " PROCED  A , B = F ( C )",
            "PROCED A,A=A(A,A)",
            "PROCED PROCE=ENDPR(PROCE1)",
            "ENDPRO",
            "  ENDPRO  ",
        ] {
            assert_eq!(kinds(text), Ok(vec![]), "{text}");
        }
        // The header's parentheses are no level, nor is any inside them allowed.
        assert_wrong(&format!("PROCED A=F(^{}", "(".repeat(16)), GRAMMAR);
    }

    #[test]
    fn levels() {
        let sixteen = format!("A={}", "(".repeat(16));
        let calls = format!("A={}", "COMPAR(".repeat(16));
        assert!(kinds(&format!("{sixteen}1{}", ")".repeat(16))).is_ok());
        assert_wrong(&format!("{sixteen}^(1"), TOO_DEEP);
        assert_wrong(&format!("{sixteen}-1*^(1"), TOO_DEEP);
        assert_wrong(&format!("{calls}COMPAR^(1"), TOO_DEEP);
        assert_wrong(&format!("{sixteen}1*INSW^("), TOO_DEEP);
        assert_wrong(&format!("{sixteen}1*INSW^)"), GRAMMAR);
        assert_wrong(&format!("{sixteen}1*INSW^"), GRAMMAR);
        assert_wrong(&format!("{sixteen}1)^((("), GRAMMAR);
        assert_wrong("A=(A^=1", GRAMMAR);
        // Levels that are closed no longer count.
        assert_wrong(&format!("{sixteen}1)*(1^("), GRAMMAR);
        assert_wrong(&format!("{sixteen}1)*(^"), GRAMMAR);
        assert_wrong(&format!("{sixteen}1)*(^)"), GRAMMAR);
        assert_wrong(&format!("{sixteen}1)*(^="), GRAMMAR);
        assert_wrong(&format!("{sixteen}1)*(1*^("), TOO_DEEP);
        let inside = format!("A=INTGRL(0,{}1{})", "(".repeat(16), ")".repeat(16));
        assert!(kinds(&inside).is_ok());
        let deeper = format!("A=INTGRL(0,{}^(1)", "(".repeat(16));
        assert_wrong(&deeper, TOO_DEEP);
    }
}
