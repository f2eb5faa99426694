//! Lines beside shells with `set -u`, which is what the switch is there: those that are accepted give the same, and those refused with 25 fail for that reason.

use super::{reference, Given, Shell, Taken};
use crate::case::Job;
use crate::generate::walk::walk;
use crate::number::Number;
use crate::read::read;
use crate::seen::SeenUnset;
use crate::tree::{Form, Part};

/// What the shells write behind the name of a parameter that is unset.
const COMPLAINTS: [&[u8]; 2] = [b"parameter not set\n", b"unbound variable\n"];

/// Whether the line is refused with 25.
pub fn is_refused(line: &[u8], given: &Given) -> bool {
    reference(line, given, Taken::Fields) == Err(Number::Unset as u8)
}

/// Whether a shell's complaint is that of an unset parameter.
pub fn is_of_unset(complaint: &[u8]) -> bool {
    COMPLAINTS.iter().any(|known| complaint.ends_with(known))
}

impl Shell {
    /// Whether the shell refuses what the switch does: dash reads an unset name in arithmetic as 0 still, bash does not expand the operand of a removal from an
    /// empty value, and what a message holds must be what the shell takes it for.
    pub fn shouts_alike(self, line: &[u8], given: &Given) -> bool {
        if is_refused(line, given) && !self.demands_alike(line) {
            return false;
        }
        let words = read(line).unwrap_or_default();
        match self {
            Shell::Dash => !shouts_in_arithmetic(line, given),
            Shell::Bash => !is_refused(line, given) || !words.iter().any(|word| asks_in_removal(&word.parts, false)),
            _ => true,
        }
    }
}

/// Whether 25 comes of a name in arithmetic.
fn shouts_in_arithmetic(line: &[u8], given: &Given) -> bool {
    walk(Job::Expand, &given.lent(line)).unset.contains(&SeenUnset::Arithmetic)
}

/// Whether there is an expansion in the operand of a removal, or, in one, any expansion.
fn asks_in_removal(parts: &[Part], in_removal: bool) -> bool {
    parts.iter().any(|part| match part {
        Part::Quotes(inside) => asks_in_removal(inside, in_removal),
        Part::Arithmetic { text, .. } => in_removal || asks_in_removal(text, false),
        Part::Parameter { form: Form::Removal { operand, .. }, .. } => in_removal || asks_in_removal(operand, true),
        Part::Parameter { form: Form::Choice { operand, .. }, .. } => in_removal || asks_in_removal(operand, false),
        Part::Parameter { .. } => in_removal,
        _ => false,
    })
}
