//! Reading a pattern from units: bytes, `*`, `?` and brackets.

use crate::bracket::{set, Bracket, End, Fault, Searches};
use crate::row::{Mark, Unit};

/// What a pattern is read for; in paths a slash ends the search for a bracket's end.
#[derive(Clone, Copy, Debug, PartialEq, Eq)]
pub enum Purpose {
    Removal,
    Paths,
}

#[derive(Clone, Debug, PartialEq, Eq)]
pub enum Element {
    Byte(u8),
    /// `?`
    One,
    /// `*`
    Any,
    /// A closed bracket.
    Set(Box<[bool; 256]>),
}

/// A byte of the pattern, N gone.
#[derive(Clone, Copy, Debug)]
pub struct PatternByte {
    pub byte: u8,
    pub active: bool,
}

impl PatternByte {
    pub fn is(self, byte: u8) -> bool {
        self.active && self.byte == byte
    }
}

/// A pattern that is served, with all brackets that were searched for their end, closed or not.
#[derive(Debug, Default)]
pub struct Pattern {
    pub elements: Vec<Element>,
    pub brackets: Vec<Bracket>,
}

/// The bytes of these units; N vanishes before anything is looked at.
pub fn pattern_bytes(units: &[Unit]) -> Vec<PatternByte> {
    units.iter().filter_map(pattern_byte).collect()
}

/// The pattern these units are.
pub fn read(units: &[Unit], purpose: Purpose) -> Result<Pattern, Fault> {
    let bytes = pattern_bytes(units);
    let mut searches = Searches::new(&bytes, purpose);
    let mut pattern = Pattern::default();
    let mut at = 0;
    while let Some(first) = bytes.get(at) {
        at += 1;
        let mut element = Element::Byte(first.byte);
        if first.is(b'*') {
            element = Element::Any;
        } else if first.is(b'?') {
            element = Element::One;
        } else if first.is(b'[') {
            let bracket = searches.bracket(at)?;
            if bracket.end == End::Closed {
                element = Element::Set(set(&searches.members(&bracket), bracket.negated));
                at = bracket.members.end + 1;
            }
            pattern.brackets.push(bracket);
        }
        pattern.elements.push(element);
    }
    Ok(pattern)
}

/// How many stars the pattern has.
pub fn stars(pattern: &Pattern) -> usize {
    let star = |element: &&Element| **element == Element::Any;
    pattern.elements.iter().filter(star).count()
}

fn pattern_byte(unit: &Unit) -> Option<PatternByte> {
    match *unit {
        Unit::Byte(byte, mark) => Some(PatternByte { byte, active: mark != Mark::Quoted }),
        Unit::Empty | Unit::Break => None,
    }
}
