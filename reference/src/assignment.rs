//! Assignment lines: each word is a name, a bare `=` and a value, and each value is stored before the next is expanded.

use crate::expand::Expander;
use crate::image::begins_name;
use crate::number::{Number, Refusal};
use crate::read::{is_operator, BareEnd, Reader};
use crate::row::bytes;
use crate::tree::Assignment;

/// All assignments of the line, or the first fault met from the left. `$@` and `$*` are served in none of them.
pub fn read(line: &[u8]) -> Result<Vec<Assignment>, Refusal> {
    Reader::new(line, false).assignments()
}

impl Reader<'_> {
    pub fn assignments(&mut self) -> Result<Vec<Assignment>, Refusal> {
        let mut assignments = Vec::new();
        while let Some(place) = self.next_word() {
            let assignment = self.assignment(place).map_err(|number| number.at(place))?;
            assignments.push(assignment);
        }
        Ok(assignments)
    }

    /// The assignment that begins here. In its name all that does not fit is 11, whatever it would be elsewhere; only an operator that opens no word is 8.
    fn assignment(&mut self, place: usize) -> Result<Assignment, Number> {
        match self.peek(0) {
            Some(byte) if is_operator(byte) || byte == b'#' => return Err(Number::Operator),
            Some(byte) if begins_name(byte) => (),
            _ => return Err(Number::Syntax),
        }
        let name = self.name();
        if self.peek(0) != Some(b'=') {
            return Err(Number::Syntax);
        }
        self.at += 1;
        Ok(Assignment { place, name, value: self.bare(BareEnd::Value)? })
    }
}

/// Expands and stores from left to right, up to the first fault. The bytes of a value are stored without marks; nothing is split, nothing becomes paths.
pub fn assign(assignments: &[Assignment], expander: &mut Expander) -> Result<(), Refusal> {
    for Assignment { place, name, value } in assignments {
        let stored = expander.row(value).and_then(|row| expander.variables.store(name, bytes(row.units())));
        stored.map_err(|number| expander.refusal(number, *place))?;
    }
    Ok(())
}
