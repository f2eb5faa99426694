//! The numbers of document 01's table and those that document 02 adds, each with its name, and the refusal that pairs one with a place.

/// Why a call is refused. The discriminant is the number the documents give.
#[derive(Clone, Copy, Debug, PartialEq, Eq)]
#[repr(u8)]
pub enum Number {
    WorkArea = 1,
    Variables = 2,
    Homes = 3,
    Paths = 4,
    LineTooLong = 5,
    ZeroByte = 6,
    LineEnds = 7,
    Operator = 8,
    CommandSubstitution = 9,
    NotServed = 10,
    Syntax = 11,
    TooDeep = 12,
    Missing = 13,
    TooManyUnits = 14,
    NotANumber = 15,
    ArithmeticSyntax = 16,
    Overflow = 17,
    ZeroDivisor = 18,
    BracketClass = 19,
    NoRoomForVariable = 20,
    NoRoomForOutput = 21,
    Fields = 22,
    Parameters = 23,
    /// A path to insert that is there, or one to delete that is not.
    PathPresence = 24,
    /// With the switch on, a parameter that is unset where its value is asked for.
    Unset = 25,
}

/// The number of an accepted call, and the last number of the table.
pub const ACCEPTED: u8 = 0;
pub const LAST_NUMBER: u8 = Number::Unset as u8;

/// A number, the place it was met at, and the message that was demanded, which only 13 has.
#[derive(Clone, Debug, PartialEq, Eq)]
pub struct Refusal {
    pub number: Number,
    pub place: usize,
    pub message: Vec<u8>,
}

impl Number {
    /// The refusal of this number at a word's place, without a message.
    pub fn at(self, place: usize) -> Refusal {
        Refusal { number: self, place, message: Vec::new() }
    }
}
