//! What stands in assignment lines, and what comes of them: how the used length moves, where tildes are found, and why lines are refused.

use std::collections::{BTreeMap, BTreeSet};
use std::fmt;
use std::slice::from_ref;

use super::walk::expander;
use crate::assignment::{assign, read};
use crate::calls::Answer;
use crate::case::Lent;
use crate::image::{begins_name, continues_name, fields, homes};
use crate::limits;
use crate::number::{Number, Refusal, ACCEPTED};
use crate::tree::{Assignment, Choice, Form, Parameter, Part};

/// What a line that came to be read may have.
pub const KINDS: [&str; 32] = [
    "several assignments",
    "an empty value",
    "a new name",
    "a value that is replaced",
    "a name that is assigned twice",
    "a value that an earlier one gives",
    "a tilde behind the = that is found",
    "a tilde behind a : that is found",
    "a tilde that is not found",
    "a literal ~ behind a : or another =",
    "a store of an operand",
    "a used length that falls",
    "a used length that stays, with another value",
    "a used length that rises",
    "an image that was longer for a while",
    "bytes behind that are not of an unused buffer, and a fall",
    "a name that does not fit the row beside its value",
    "a value of 2,048 units or nearly",
    "11 at a word's first byte",
    "11 in a name",
    "11 where a word ends",
    "11 in a value",
    "7 in a value",
    "8 with no word open",
    "8 in a value",
    "9 in a value",
    "10 in a value",
    "13 in a value",
    "14 in a value",
    "19 of a removal",
    "20 of a value",
    "20 of a later value",
];

#[derive(Debug, Default)]
pub struct Assigned {
    /// The lines that were accepted and have an assignment.
    pub accepted: usize,
    /// By kind, the lines that have it.
    pub kinds: BTreeMap<&'static str, usize>,
}

impl Assigned {
    /// Counts a line that came to be read.
    pub fn add(&mut self, lent: &Lent, answer: &Answer) {
        let mut found = BTreeSet::new();
        match read(&lent.line) {
            Err(refusal) => found.extend(unread(&lent.line, &refusal)),
            Ok(assignments) => {
                self.accepted += usize::from(answer.number == ACCEPTED && !assignments.is_empty());
                walk(lent, &assignments, answer, &mut found);
            }
        }
        for kind in found {
            assert!(KINDS.contains(&kind), "{kind} is listed");
            *self.kinds.entry(kind).or_default() += 1;
        }
    }
}

/// Why a line cannot be read.
fn unread(line: &[u8], refusal: &Refusal) -> Option<&'static str> {
    let word = &line[refusal.place..];
    let name = word.iter().take_while(|&&byte| continues_name(byte)).count();
    let in_value = word.get(name) == Some(&b'=') && begins_name(word[0]);
    match refusal.number {
        Number::Syntax if in_value => Some("11 in a value"),
        Number::Syntax if !begins_name(word[0]) => Some("11 at a word's first byte"),
        Number::Syntax => match word.get(name) {
            None | Some(b' ' | b'\t' | b'\n') => Some("11 where a word ends"),
            Some(_) => Some("11 in a name"),
        },
        Number::LineEnds => Some("7 in a value"),
        Number::Operator if in_value => Some("8 in a value"),
        Number::Operator => Some("8 with no word open"),
        Number::CommandSubstitution => Some("9 in a value"),
        Number::NotServed => Some("10 in a value"),
        _ => None,
    }
}

/// The kinds of a line that is read, up to its first fault.
fn walk(lent: &Lent, assignments: &[Assignment], answer: &Answer, found: &mut BTreeSet<&'static str>) {
    let (homes, parameters) = (homes(&lent.homes).unwrap_or_default(), fields(&lent.parameters).unwrap_or_default());
    let mut expander = expander(lent, &homes, &parameters);
    let before = expander.variables.clone();
    let (mut names, mut longest) = (BTreeSet::new(), 0);
    found.extend((assignments.len() > 1).then_some("several assignments"));
    for (at, assignment) in assignments.iter().enumerate() {
        let Assignment { name, value, .. } = assignment;
        let known = expander.variables.value(name).is_some();
        parts(value, &names, found);
        for (at, part) in value.iter().enumerate() {
            if let Part::Tilde(login) = part {
                found.insert(match (expander.home(login), at) {
                    (Some(_), 0) => "a tilde behind the = that is found",
                    (Some(_), _) => "a tilde behind a : that is found",
                    (None, _) => "a tilde that is not found",
                });
            }
        }
        if let Err(refusal) = assign(from_ref(assignment), &mut expander) {
            found.extend(refused(refusal.number, at));
            return;
        }
        longest = longest.max(expander.variables.image().len());
        found.extend(value.is_empty().then_some("an empty value"));
        found.insert(if known { "a value that is replaced" } else { "a new name" });
        found.extend((!names.insert(name.clone())).then_some("a name that is assigned twice"));
        let units = expander.seen.rows.last().map_or(0, |row| row.units);
        found.extend((units + name.len() > limits::ROW).then_some("a name that does not fit the row beside its value"));
        found.extend((units >= limits::ROW - 1).then_some("a value of 2,048 units or nearly"));
    }
    if answer.number != ACCEPTED {
        return;
    }
    let falls = answer.used < lent.used;
    found.extend(falls.then_some("a used length that falls"));
    found.extend((answer.used > lent.used).then_some("a used length that rises"));
    let stays = answer.used == lent.used && expander.variables != before;
    found.extend(stays.then_some("a used length that stays, with another value"));
    found.extend((longest > answer.used).then_some("an image that was longer for a while"));
    let behind = falls && lent.variables.len() > lent.used;
    found.extend(behind.then_some("bytes behind that are not of an unused buffer, and a fall"));
}

fn refused(number: Number, at: usize) -> Option<&'static str> {
    match number {
        Number::Missing => Some("13 in a value"),
        Number::TooManyUnits => Some("14 in a value"),
        Number::BracketClass => Some("19 of a removal"),
        Number::NoRoomForVariable if at > 0 => Some("20 of a later value"),
        Number::NoRoomForVariable => Some("20 of a value"),
        _ => None,
    }
}

/// What the parts of a value have, behind assignments to these names.
fn parts(value: &[Part], names: &BTreeSet<Vec<u8>>, found: &mut BTreeSet<&'static str>) {
    for (at, part) in value.iter().enumerate() {
        match part {
            Part::Literal(b'~')
                if at > 0 && matches!(value[at - 1], Part::Literal(b':' | b'=') | Part::Quoted(b':')) =>
            {
                found.insert("a literal ~ behind a : or another =");
            }
            Part::Quotes(inside) => parts(inside, names, found),
            Part::Arithmetic { text, .. } => parts(text, names, found),
            Part::Parameter { parameter: Parameter::Name(name), form, .. } => {
                found.extend(names.contains(name).then_some("a value that an earlier one gives"));
                if let Form::Choice { choice: Choice::Store, .. } = form {
                    found.insert("a store of an operand");
                }
            }
            _ => (),
        }
    }
}

impl fmt::Display for Assigned {
    fn fmt(&self, out: &mut fmt::Formatter) -> fmt::Result {
        writeln!(out, "accepted assignment lines {}", self.accepted)?;
        for kind in KINDS {
            writeln!(out, "assignment lines with {kind} {}", self.kinds.get(kind).copied().unwrap_or_default())?;
        }
        Ok(())
    }
}
