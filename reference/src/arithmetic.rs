//! Arithmetic: tokens are taken one ahead, a tree is built by precedence, and only a whole tree is worked out, by `operation`.

use crate::constant::constant;
use crate::image::{begins_name, continues_name};
use crate::limits;
use crate::number::Number;
use crate::operation::work_out;
use crate::variables::Variables;

#[derive(Clone, Debug, PartialEq, Eq)]
enum Token {
    Constant(i64),
    Name(Vec<u8>),
    /// An operator or a parenthesis, as written.
    Sign(&'static str),
    End,
}

/// The longer signs stand first, so that the longest one is taken.
const SIGNS: [&str; 30] = [
    "<<", ">>", "<=", ">=", "==", "!=", "&&", "||", "+=", "-=", "*=", "/=", "%=", "<", ">", "&", "^", "|", "!", "~",
    "?", ":", "=", "+", "-", "*", "/", "%", "(", ")",
];

/// The binary operators from the loosest to the tightest level.
pub const LEVELS: [&[&str]; 10] = [
    &["||"],
    &["&&"],
    &["|"],
    &["^"],
    &["&"],
    &["==", "!="],
    &["<", "<=", ">", ">="],
    &["<<", ">>"],
    &["+", "-"],
    &["*", "/", "%"],
];

/// The signs that stand before one operand.
pub const UNARY: [&str; 4] = ["+", "-", "!", "~"];

/// The signs that store, each behind a bare name: `=`, and the binary operators that take the name's number first.
pub const ASSIGNMENTS: [&str; 6] = ["=", "+=", "-=", "*=", "/=", "%="];

#[derive(Debug)]
pub enum Tree {
    Constant(i64),
    Name(Vec<u8>),
    Unary(&'static str, Box<Tree>),
    Binary(&'static str, Box<Tree>, Box<Tree>),
    /// The condition, the side for all numbers but 0, the side for 0.
    Conditional(Box<Tree>, Box<Tree>, Box<Tree>),
    /// The sign, the name it stores under, the right side.
    Assignment(&'static str, Vec<u8>, Box<Tree>),
}

/// What the text comes to, or its first fault; its assignments are stored as far as it comes.
pub fn result(text: &[u8], variables: &mut Variables) -> Result<i64, Number> {
    work_out(&read(text)?, variables)
}

/// The tree of the whole text, or its first fault of reading.
pub fn read(text: &[u8]) -> Result<Tree, Number> {
    let mut parser = Parser { rest: text, next: Token::End, open: 0 };
    parser.advance()?;
    let tree = parser.expression()?;
    match parser.next {
        Token::End => Ok(tree),
        _ => Err(Number::ArithmeticSyntax),
    }
}

/// How far a text is read that is no tree: the text up to the token that may not stand there, and that token if it is a sign. It decides nothing here, but
/// lets the generator count its cases.
pub fn read_up_to(text: &[u8]) -> (&[u8], Option<&'static str>) {
    let mut parser = Parser { rest: text, next: Token::End, open: 0 };
    let _ = parser.advance().and_then(|()| parser.expression());
    match parser.next {
        Token::Sign(sign) => (&text[..text.len() - parser.rest.len() - sign.len()], Some(sign)),
        _ => (&text[..text.len() - parser.rest.len()], None),
    }
}

/// The text behind the next token, that token, and how many parentheses and signs are open.
struct Parser<'a> {
    rest: &'a [u8],
    next: Token,
    open: usize,
}

impl Parser<'_> {
    /// Takes the next token; a constant is judged here, before the grammar asks for it.
    fn advance(&mut self) -> Result<(), Number> {
        self.next = Token::End;
        self.rest = behind_blanks(self.rest);
        let (token, length) = token(self.rest)?;
        self.next = token;
        self.rest = &self.rest[length..];
        Ok(())
    }

    /// A conditional, or an assignment, whose right side is an expression again. Only a bare name may stand before the sign: what begins with a name
    /// and is one has nothing else in it, no parenthesis either.
    fn expression(&mut self) -> Result<Tree, Number> {
        let bare = matches!(self.next, Token::Name(_));
        let left = self.conditional()?;
        match (left, &self.next) {
            (Tree::Name(name), &Token::Sign(sign)) if bare && ASSIGNMENTS.contains(&sign) => {
                self.advance()?;
                Ok(Tree::Assignment(sign, name, Box::new(self.expression()?)))
            }
            (left, _) => Ok(left),
        }
    }

    /// C's grammar: a whole expression stands between `?` and `:`, and a conditional behind the `:`.
    fn conditional(&mut self) -> Result<Tree, Number> {
        let condition = self.binary(0)?;
        if self.next != Token::Sign("?") {
            return Ok(condition);
        }
        self.advance()?;
        let if_true = self.expression()?;
        self.pass(":")?;
        let if_zero = self.conditional()?;
        Ok(Tree::Conditional(Box::new(condition), Box::new(if_true), Box::new(if_zero)))
    }

    /// Operands and the operators between them, as far as these are of this level or a tighter one, each from the left.
    fn binary(&mut self, loosest: usize) -> Result<Tree, Number> {
        let mut left = self.unary()?;
        while let Token::Sign(sign) = self.next {
            let Some(level) = level(sign).filter(|level| *level >= loosest) else {
                break;
            };
            self.advance()?;
            let right = self.binary(level + 1)?;
            left = Tree::Binary(sign, Box::new(left), Box::new(right));
        }
        Ok(left)
    }

    fn unary(&mut self) -> Result<Tree, Number> {
        match self.next.clone() {
            Token::Constant(number) => {
                self.advance()?;
                Ok(Tree::Constant(number))
            }
            Token::Name(name) => {
                self.advance()?;
                Ok(Tree::Name(name))
            }
            Token::Sign("(") => self.opened(Self::parenthesis),
            Token::Sign(sign) if UNARY.contains(&sign) => Ok(Tree::Unary(sign, Box::new(self.opened(Self::unary)?))),
            _ => Err(Number::ArithmeticSyntax),
        }
    }

    fn parenthesis(&mut self) -> Result<Tree, Number> {
        let tree = self.expression()?;
        self.pass(")")?;
        Ok(tree)
    }

    /// Passes the one sign that may stand here.
    fn pass(&mut self, sign: &'static str) -> Result<(), Number> {
        if self.next != Token::Sign(sign) {
            return Err(Number::ArithmeticSyntax);
        }
        self.advance()
    }

    /// Passes an opening sign, then reads what it opens; one too many is 12 before anything behind it.
    fn opened(&mut self, inside: fn(&mut Self) -> Result<Tree, Number>) -> Result<Tree, Number> {
        if self.open == limits::OPEN_IN_ARITHMETIC {
            return Err(Number::TooDeep);
        }
        self.open += 1;
        self.advance()?;
        let tree = inside(self)?;
        self.open -= 1;
        Ok(tree)
    }
}

/// The level of a binary operator.
fn level(sign: &str) -> Option<usize> {
    LEVELS.iter().position(|signs| signs.contains(&sign))
}

/// The text behind the blanks, tabs and newlines that separate tokens.
fn behind_blanks(text: &[u8]) -> &[u8] {
    let blank = |&&byte: &&u8| matches!(byte, b' ' | b'\t' | b'\n');
    &text[text.iter().take_while(blank).count()..]
}

/// The token the text begins with, and its length.
fn token(text: &[u8]) -> Result<(Token, usize), Number> {
    let Some(&first) = text.first() else {
        return Ok((Token::End, 0));
    };
    let run = text.iter().take_while(|&&b| continues_name(b)).count();
    if first.is_ascii_digit() {
        return Ok((Token::Constant(constant(&text[..run])?), run));
    }
    if begins_name(first) {
        return Ok((Token::Name(text[..run].to_vec()), run));
    }
    let sign = SIGNS.iter().find(|sign| text.starts_with(sign.as_bytes()));
    let sign = sign.ok_or(Number::ArithmeticSyntax)?;
    Ok((Token::Sign(sign), sign.len()))
}
