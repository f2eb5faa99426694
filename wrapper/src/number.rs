//! The refusals' numbers under their names, and the refusal: a number with its place and, of a value that is demanded, the message.

use std::error::Error;
use std::fmt;

/// Why a call was refused. The discriminant is the number of docs/01-scope.md or docs/02-change-requests.md, the name that of
/// include/drunquill.h.
#[derive(Clone, Copy, Debug, PartialEq, Eq, Hash, PartialOrd, Ord)]
#[repr(u8)]
pub enum Number {
    WorkTooSmall = 1,
    BadVariables = 2,
    BadHomes = 3,
    BadPaths = 4,
    LineTooLong = 5,
    ZeroByte = 6,
    Unended = 7,
    BareOperator = 8,
    Substitution = 9,
    Unserved = 10,
    BadSyntax = 11,
    TooDeep = 12,
    Demanded = 13,
    TooManyUnits = 14,
    NotNumber = 15,
    ArithmeticSyntax = 16,
    Overflow = 17,
    ZeroDivisor = 18,
    BracketClass = 19,
    VariableRoom = 20,
    OutputRoom = 21,
    BadFields = 22,
    BadParameters = 23,
    BadPath = 24,
    UnsetName = 25,
}

impl Number {
    /// All of them, in order.
    pub const ALL: [Number; 25] = [
        Number::WorkTooSmall,
        Number::BadVariables,
        Number::BadHomes,
        Number::BadPaths,
        Number::LineTooLong,
        Number::ZeroByte,
        Number::Unended,
        Number::BareOperator,
        Number::Substitution,
        Number::Unserved,
        Number::BadSyntax,
        Number::TooDeep,
        Number::Demanded,
        Number::TooManyUnits,
        Number::NotNumber,
        Number::ArithmeticSyntax,
        Number::Overflow,
        Number::ZeroDivisor,
        Number::BracketClass,
        Number::VariableRoom,
        Number::OutputRoom,
        Number::BadFields,
        Number::BadParameters,
        Number::BadPath,
        Number::UnsetName,
    ];

    /// The refusal of that number, if there is one: 0 is the acceptance.
    pub fn of(number: u8) -> Option<Number> {
        Number::ALL.into_iter().find(|known| *known as u8 == number)
    }

    /// What the number says, in words: those of commands/numbers.txt.
    pub fn words(self) -> &'static str {
        match self {
            Number::WorkTooSmall => "the work area has fewer than 65,536 bytes",
            Number::BadVariables => "the table of variables is spoiled or too long",
            Number::BadHomes => "the table of homes is spoiled or too long",
            Number::BadPaths => "the table of paths is spoiled or too long, or a path is empty or holds a zero byte",
            Number::LineTooLong => "the line has more than 2,048 bytes",
            Number::ZeroByte => "a zero byte stands in the line",
            Number::Unended => {
                "an apostrophe or quote, a brace or a calculation is not closed, or a backslash ends the line"
            }
            Number::BareOperator => "one of |&;<>() is not quoted, or a word begins with #",
            Number::Substitution => "a command, as $(...) or in backquotes, is never run",
            Number::Unserved => "a parameter that is not served, as $? or $0, or one where it may not stand",
            Number::BadSyntax => "bad syntax, or among assignments a word that is none",
            Number::TooDeep => "nested too deep: more than 8 expansions, or 32 parentheses and signs, are open at once",
            Number::Demanded => "a value that the line demands is missing",
            Number::TooManyUnits => {
                "too long: a word, value or calculation above 2,048 units, or a pattern or text to be priced"
            }
            Number::NotNumber => "a calculation has something that is not a number",
            Number::ArithmeticSyntax => "a calculation cannot be read",
            Number::Overflow => "a calculation leaves the range of 64 bits, or shifts by a count that is not 0 to 63",
            Number::ZeroDivisor => "a calculation divides by zero",
            Number::BracketClass => "a class in the brackets of a pattern is not served",
            Number::VariableRoom => "no room for a variable",
            Number::OutputRoom => "no room for the answer",
            Number::BadFields => "the image of fields is malformed or too long",
            Number::BadParameters => "the positional parameters are malformed or too long",
            Number::BadPath => "the path to insert is there already, or the one to delete is not there",
            Number::UnsetName => "a name that is not set, while unset names shout",
        }
    }
}

/// A number, and the place: the offset in the line of the first byte of the word at fault, or of the operator itself if no word is open; 0 for numbers 1 to 6,
/// 22, 23 and 24, and for 21 from quoting. `{}` and `{:?}` show the message as text.
#[derive(Clone, PartialEq, Eq, Hash)]
pub struct Refusal {
    pub number: Number,
    pub place: usize,
    /// What the word of `${name?word}` expands to, of [`Number::Demanded`] alone: any bytes but zero, of which there may be none.
    pub message: Vec<u8>,
}

impl Refusal {
    /// What a call's number, place and message say.
    ///
    /// # Panics
    /// On a number above 25: the functions are proved to give none.
    pub(crate) fn unless_accepted(number: u8, place: usize, message: &[u8]) -> Result<(), Refusal> {
        match number {
            0 => Ok(()),
            _ => {
                let number = Number::of(number).expect("a number of the documents");
                Err(Refusal { number, place, message: message.to_vec() })
            }
        }
    }
}

impl fmt::Display for Refusal {
    fn fmt(&self, out: &mut fmt::Formatter) -> fmt::Result {
        write!(out, "refused at place {}: {} ({})", self.place, self.number.words(), self.number as u8)?;
        match self.message.as_slice() {
            [] => Ok(()),
            message => write!(out, ": {}", String::from_utf8_lossy(message)),
        }
    }
}

impl fmt::Debug for Refusal {
    fn fmt(&self, out: &mut fmt::Formatter) -> fmt::Result {
        let message = format!("b\"{}\"", self.message.escape_ascii());
        out.debug_struct("Refusal")
            .field("number", &self.number)
            .field("place", &self.place)
            .field("message", &format_args!("{message}"))
            .finish()
    }
}

impl Error for Refusal {}
