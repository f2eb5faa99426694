//! What expanding has come across. It decides nothing, but lets the generator keep its cases cheap and count them.

use crate::number::Number;
use crate::pattern::Purpose;
use crate::row::Unit;
use crate::tree::End;
use crate::variables::Variables;

/// All of it.
#[derive(Debug, Default)]
pub struct Seen {
    /// The patterns that were read, a refused one too.
    pub patterns: Vec<SeenPattern>,
    /// Each row; a refused one with what would have passed the limit.
    pub rows: Vec<SeenRow>,
    /// The arithmetic texts that were worked out or refused.
    pub sums: Vec<SeenSum>,
    /// The quotes that gave back their empty mark.
    pub given_back: usize,
    /// Each `?` on a missing value, the innermost first.
    pub demands: Vec<SeenDemand>,
    /// Each parameter that was unset where a form or an arithmetic text met it; with 25, the last one is why.
    pub unset: Vec<SeenUnset>,
}

/// Where a parameter was unset.
#[derive(Clone, Copy, Debug, PartialEq, Eq)]
pub enum SeenUnset {
    /// In a form, by its sign.
    Form { sign: &'static str, numbered: bool },
    /// In arithmetic; only one that was refused is seen.
    Arithmetic,
}

/// A `?` on a missing value: the units of its operand or why that was refused, whether it began with a tilde, and whether it had stored anything by then.
#[derive(Debug)]
pub struct SeenDemand {
    pub operand: Result<Vec<Unit>, Number>,
    pub tilde: bool,
    pub stored: bool,
}

/// An arithmetic text, and the variables as they were before it was worked out.
#[derive(Debug)]
pub struct SeenSum {
    pub text: Vec<u8>,
    pub variables: Variables,
}

/// How many units a row has, and how many of them are break marks.
#[derive(Clone, Copy, Debug)]
pub struct SeenRow {
    pub units: usize,
    pub breaks: usize,
}

impl SeenRow {
    pub fn of(units: &[Unit]) -> SeenRow {
        SeenRow { units: units.len(), breaks: units.iter().filter(|unit| **unit == Unit::Break).count() }
    }
}

#[derive(Debug)]
pub struct SeenPattern {
    pub units: Vec<Unit>,
    pub held_to: HeldTo,
}

/// The texts that a pattern may match.
#[derive(Debug)]
pub enum HeldTo {
    /// The beginnings or the ends of a value.
    Value(Vec<u8>, End),
    Paths,
}

impl SeenPattern {
    pub fn purpose(&self) -> Purpose {
        match self.held_to {
            HeldTo::Value(..) => Purpose::Removal,
            HeldTo::Paths => Purpose::Paths,
        }
    }
}
