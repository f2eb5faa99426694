//! Units, and the row a word, an operand or an arithmetic text becomes.

use std::mem;

use crate::limits;
use crate::number::Number;

/// Where a byte comes from.
#[derive(Clone, Copy, Debug, PartialEq, Eq)]
pub enum Mark {
    /// L: it stands bare in the line.
    Literal,
    /// E: from an expansion, bare.
    Expansion,
    /// Q: quoted.
    Quoted,
}

#[derive(Clone, Copy, Debug, PartialEq, Eq)]
pub enum Unit {
    Byte(u8, Mark),
    /// N, the empty mark.
    Empty,
    /// The break mark, between two positional parameters.
    Break,
}

/// What a part of a text gives.
#[derive(Debug, Default)]
pub struct Given {
    pub units: Vec<Unit>,
    /// Whether a `$@` in it had no parameters to give; the quotes around it ask.
    pub no_parameters: bool,
}

impl From<Vec<Unit>> for Given {
    fn from(units: Vec<Unit>) -> Given {
        Given { units, no_parameters: false }
    }
}

/// At most 2,048 units.
#[derive(Debug, Default)]
pub struct Row(Given);

impl Row {
    /// Adds what has been worked out, or refuses it whole.
    pub fn add(&mut self, given: &Given) -> Result<(), Number> {
        if self.0.units.len() + given.units.len() > limits::ROW {
            return Err(Number::TooManyUnits);
        }
        self.0.units.extend_from_slice(&given.units);
        self.0.no_parameters |= given.no_parameters;
        Ok(())
    }

    /// Takes back the last unit, the empty mark of quotes of which nothing came.
    pub fn take_back(&mut self) {
        self.0.units.pop();
    }

    pub fn units(&self) -> &[Unit] {
        &self.0.units
    }

    /// Whether a `$@` had no parameters to give since this was last asked.
    pub fn had_no_parameters(&mut self) -> bool {
        mem::take(&mut self.0.no_parameters)
    }

    pub fn given(self) -> Given {
        self.0
    }
}

/// The bytes as units of one mark.
pub fn marked(bytes: &[u8], mark: Mark) -> Vec<Unit> {
    bytes.iter().map(|&byte| Unit::Byte(byte, mark)).collect()
}

/// The bytes without marks; N and break marks vanish.
pub fn bytes(units: &[Unit]) -> Vec<u8> {
    let byte = |unit: &Unit| match unit {
        Unit::Byte(byte, _) => Some(*byte),
        Unit::Empty | Unit::Break => None,
    };
    units.iter().filter_map(byte).collect()
}
