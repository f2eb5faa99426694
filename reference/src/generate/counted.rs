//! What stands in assignments of arithmetic texts, and what comes of them: each sign, chains, sides, left sides that are no bare name, the number of each
//! step, and how the used length moves.

use std::collections::{BTreeMap, BTreeSet};
use std::fmt;

use super::sums::Met;
use crate::calls::Answer;
use crate::case::{Job, Lent};
use crate::number::{Number, ACCEPTED};

/// What a call may have whose line came to be expanded.
pub const KINDS: [&str; 72] = [
    "a store by =",
    "a store by +=",
    "a store by -=",
    "a store by *=",
    "a store by /=",
    "a store by %=",
    "a chain of two",
    "a chain of three or more",
    "a chain of different signs",
    "2,000 bytes of a chain",
    "an assignment as an operand",
    "an assignment between ? and :",
    "a right side that reads the name",
    "a right side that stores under the name",
    "a left operand that the right one stores",
    "a right operand that the left one stores",
    "a name that comes from an expansion",
    "a new name",
    "an unset name that is read",
    "an empty value that is read",
    "a value that was not its shortest text",
    "a value that shrinks",
    "a value that grows",
    "another value of the same length",
    "the smallest number as a value",
    "an assignment in a side that is not needed of &&",
    "an assignment in a side that is not needed of ||",
    "an assignment in a side that is not needed of ?:",
    "15 of an assignment in such a side",
    "17 of an assignment in such a side",
    "18 of an assignment in such a side",
    "20 of an assignment in such a side",
    "an assignment in a side that is needed",
    "15 of the name",
    "17 of the name",
    "17 of the operation",
    "18 of the operation",
    "20 of the store",
    "a number of the right side before one of the name",
    "a number of the name before 18",
    "15 in reading behind an assignment",
    "17 in reading behind an assignment",
    "12 in reading behind an assignment",
    "16 for want of a right side",
    "16 at a sign behind nothing",
    "16 at a sign behind a parenthesis",
    "16 at a sign behind a constant",
    "16 at a sign behind a sign and a name",
    "16 at a sign behind an operator and a name",
    "16 at a sign behind && or || and a name",
    "16 at a sign behind a : and a name",
    "16 at the = of <<=",
    "16 at the = of >>=",
    "16 at the = of &=",
    "16 at the = of ^=",
    "16 at the = of |=",
    "16 at a sign behind another",
    "a store by the expander",
    "a store by the normaliser",
    "a store in a value",
    "a used length that falls by the expander",
    "a used length that falls by the normaliser",
    "a used length that falls in a value",
    "a used length that stays, with another value",
    "a used length that rises",
    "an image that was longer for a while",
    "bytes behind that are not of an unused buffer, and a fall",
    "a name that two texts store under",
    "a store of IFS or HOME",
    "a store that its own text undoes",
    "a store that a later fault undoes",
    "a store and 21",
];

#[derive(Debug, Default)]
pub struct Counted {
    /// The calls that were accepted and stored from arithmetic.
    pub accepted: usize,
    /// By kind, the calls that have it.
    pub kinds: BTreeMap<&'static str, usize>,
}

impl Counted {
    /// Counts a call whose line came to be expanded, with what its texts had.
    pub fn add(&mut self, job: Job, lent: &Lent, answer: &Answer, texts: &[Met]) {
        let mut found: BTreeSet<&'static str> = texts.iter().flat_map(|met| met.kinds.iter().copied()).collect();
        if texts.iter().any(|met| !met.stored.is_empty()) {
            self.accepted += usize::from(answer.number == ACCEPTED);
            found.extend(left(job, lent, answer, texts));
        }
        for kind in KINDS {
            *self.kinds.entry(kind).or_default() += usize::from(found.contains(kind));
        }
    }
}

/// What a call that stored from arithmetic leaves.
fn left(job: Job, lent: &Lent, answer: &Answer, texts: &[Met]) -> Vec<&'static str> {
    if answer.number == Number::NoRoomForOutput as u8 {
        return vec!["a store and 21"];
    }
    if answer.number != ACCEPTED {
        let own = texts.last().is_some_and(|met| !met.worked_out && !met.stored.is_empty());
        return vec![if own { "a store that its own text undoes" } else { "a store that a later fault undoes" }];
    }
    let (stored, falls) = match job {
        Job::Expand => ("a store by the expander", "a used length that falls by the expander"),
        Job::Normalise => ("a store by the normaliser", "a used length that falls by the normaliser"),
        Job::Assign => ("a store in a value", "a used length that falls in a value"),
    };
    let all: Vec<&Vec<u8>> = texts.iter().flat_map(|met| &met.stored).collect();
    let each: usize = texts.iter().map(|met| met.stored.iter().collect::<BTreeSet<_>>().len()).sum();
    let other = texts.iter().any(|met| met.kinds.contains("another value of the same length"));
    let fell = answer.used < lent.used;
    let longest = texts.iter().map(|met| met.longest).max().unwrap_or_default();
    let mut found = vec![stored];
    found.extend(fell.then_some(falls));
    found.extend((answer.used > lent.used).then_some("a used length that rises"));
    found.extend((answer.used == lent.used && other).then_some("a used length that stays, with another value"));
    found.extend((longest > answer.used).then_some("an image that was longer for a while"));
    let behind = fell && lent.variables.len() > lent.used;
    found.extend(behind.then_some("bytes behind that are not of an unused buffer, and a fall"));
    let twice = each > all.iter().collect::<BTreeSet<_>>().len();
    found.extend(twice.then_some("a name that two texts store under"));
    let known = all.iter().any(|name| matches!(name.as_slice(), b"IFS" | b"HOME"));
    found.extend(known.then_some("a store of IFS or HOME"));
    let expanded = |name: &&Vec<u8>| !lent.line.windows(name.len()).any(|here| here == name.as_slice());
    found.extend(all.into_iter().any(|name| expanded(&name)).then_some("a name that comes from an expansion"));
    found
}

impl fmt::Display for Counted {
    fn fmt(&self, out: &mut fmt::Formatter) -> fmt::Result {
        writeln!(out, "accepted lines that store from arithmetic {}", self.accepted)?;
        for kind in KINDS {
            writeln!(out, "counting lines with {kind} {}", self.kinds.get(kind).copied().unwrap_or_default())?;
        }
        Ok(())
    }
}
