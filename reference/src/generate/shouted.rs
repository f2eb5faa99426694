//! What comes of lines with the switch on: where 25 comes from, what comes with the switch off, and what is exempt.

use std::collections::{BTreeMap, BTreeSet};
use std::fmt;

use super::walk::walked;
use super::{answered, walk::expander};
use crate::arithmetic::{read, Tree};
use crate::calls::Answer;
use crate::case::{Job, Lent};
use crate::image;
use crate::number::{Number, ACCEPTED};
use crate::operation::work_out;
use crate::seen::{Seen, SeenSum, SeenUnset};

/// What a line may have that came to be expanded with the switch on.
pub const KINDS: [&str; 31] = [
    "25 of the plain form",
    "25 of a length",
    "25 of %",
    "25 of %%",
    "25 of #",
    "25 of ##",
    "25 of a number",
    "25 of a name in arithmetic",
    "25 of an assignment that reads its name",
    "25 by the expander",
    "25 by the normaliser",
    "25 in an assignment line",
    "25 that undoes a store",
    "25 in a message",
    "25 and accepted with the switch off",
    "25 and 13 with the switch off",
    "25 and 15 with the switch off",
    "25 and 18 with the switch off",
    "25 and 19 with the switch off",
    "25 and 20 with the switch off",
    "another number before 25 can come",
    "- on an unset parameter",
    "= on an unset parameter",
    "+ on an unset parameter",
    "? on an unset parameter and 13",
    "a list of no parameters",
    "a tilde without HOME",
    "IFS unset and a field split",
    "an unset name in a side that is not needed",
    "an unset name to which arithmetic assigns",
    "a name that is asked for once it is stored",
];

#[derive(Debug, Default)]
pub struct Shouted {
    /// The lines with the switch on that came to be expanded, those accepted, and those refused with 25.
    pub on: usize,
    pub accepted: usize,
    pub shouted: usize,
    /// By kind, the lines that have it.
    pub kinds: BTreeMap<&'static str, usize>,
}

impl Shouted {
    /// Counts a line that came to be expanded.
    pub fn add(&mut self, job: Job, lent: &Lent, answer: &Answer) {
        if !lent.shout {
            return;
        }
        let off = answered(job, &Lent { shout: false, ..lent.clone() }).number;
        let mut found = BTreeSet::new();
        self.on += 1;
        match answer.number {
            ACCEPTED => {
                self.accepted += 1;
                spared(job, lent, &mut found);
            }
            number if number == Number::Unset as u8 => {
                self.shouted += 1;
                shouted(job, lent, off, &mut found);
            }
            number if number == Number::Missing as u8 => {
                found.extend(asks(&walked(job, lent).0, "?").then_some("? on an unset parameter and 13"));
            }
            _ => found.extend(has_unset(lent).then_some("another number before 25 can come")),
        }
        for kind in found {
            assert!(KINDS.contains(&kind), "{kind} is listed");
            *self.kinds.entry(kind).or_default() += 1;
        }
    }
}

/// Whether a form of this sign met an unset parameter.
fn asks(seen: &Seen, wanted: &str) -> bool {
    seen.unset.iter().any(|unset| matches!(unset, SeenUnset::Form { sign, .. } if *sign == wanted))
}

/// Whether the line mentions a name of `shouting` in a way that asks for it, and none of the two is set.
fn has_unset(lent: &Lent) -> bool {
    let variables = lent.variables.get(..lent.used).and_then(image::variables).unwrap_or_default();
    let set = variables.iter().any(|(name, _)| name == b"bsae" || name == b"u");
    !set && ["$u", "$bsae", "(bsae", "(u"]
        .iter()
        .any(|text| lent.line.windows(text.len()).any(|here| here == text.as_bytes()))
}

fn shouted(job: Job, lent: &Lent, off: u8, found: &mut BTreeSet<&'static str>) {
    let (seen, variables) = walked(job, lent);
    found.insert(match job {
        Job::Expand => "25 by the expander",
        Job::Normalise => "25 by the normaliser",
        Job::Assign => "25 in an assignment line",
    });
    match seen.unset.last() {
        Some(SeenUnset::Form { sign, numbered }) => {
            found.extend(KINDS.into_iter().find(|kind| *kind == format!("25 of {sign}")));
            found.extend(sign.is_empty().then_some("25 of the plain form"));
            found.extend((*sign == "length").then_some("25 of a length"));
            found.extend(numbered.then_some("25 of a number"));
        }
        Some(SeenUnset::Arithmetic) => {
            let reads = seen.sums.last().is_some_and(reads_its_name);
            found.insert(if reads { "25 of an assignment that reads its name" } else { "25 of a name in arithmetic" });
        }
        None => (),
    }
    let before = expander(lent, &[], &[]).variables;
    found.extend((variables != before).then_some("25 that undoes a store"));
    let message = seen.demands.first().is_some_and(|demand| demand.operand == Err(Number::Unset));
    found.extend(message.then_some("25 in a message"));
    found.extend(match off {
        ACCEPTED => Some("25 and accepted with the switch off"),
        _ => KINDS.into_iter().find(|kind| *kind == format!("25 and {off} with the switch off")),
    });
}

/// Whether a text is an assignment whose right side comes to a number, so that its name is why it is refused.
fn reads_its_name(sum: &SeenSum) -> bool {
    match read(&sum.text) {
        Ok(Tree::Assignment(_, _, right)) => work_out(&right, &mut sum.variables.clone()).is_ok(),
        _ => false,
    }
}

/// What is exempt in a line that is accepted.
fn spared(job: Job, lent: &Lent, found: &mut BTreeSet<&'static str>) {
    let (seen, variables) = walked(job, lent);
    let before = expander(lent, &[], &[]).variables;
    let none = image::fields(&lent.parameters).is_some_and(|parameters| parameters.is_empty());
    let has =
        |texts: &[&str]| texts.iter().any(|text| lent.line.windows(text.len()).any(|here| here == text.as_bytes()));
    let names = names(&lent.line);
    let stored = names.iter().any(|name| before.value(name).is_none() && variables.value(name).is_some());
    for (kind, holds) in [
        ("- on an unset parameter", asks(&seen, "-")),
        ("= on an unset parameter", asks(&seen, "=")),
        ("+ on an unset parameter", asks(&seen, "+")),
        ("a list of no parameters", none && has(&["$@", "$*", "${@}", "${*}"])),
        ("a tilde without HOME", before.value(b"HOME").is_none() && has(&["~ ", "~/"])),
        ("IFS unset and a field split", before.value(b"IFS").is_none() && has(&["$x", "${x}"])),
        ("a name that is asked for once it is stored", stored),
    ] {
        found.extend(holds.then_some(kind));
    }
    for sum in &seen.sums {
        sums(sum, found);
    }
}

/// The names that stand behind a `$`.
fn names(line: &[u8]) -> Vec<Vec<u8>> {
    let behind = line.split(|byte| *byte == b'$').skip(1);
    behind.map(|text| text.iter().copied().take_while(|&byte| image::continues_name(byte)).collect()).collect()
}

/// What an arithmetic text that came to a number has: the names that it left unset are in sides that are not needed.
fn sums(sum: &SeenSum, found: &mut BTreeSet<&'static str>) {
    let Ok(tree) = read(&sum.text) else {
        return;
    };
    let mut after = sum.variables.clone();
    if work_out(&tree, &mut after).is_err() {
        return;
    }
    let (mut read, mut assigned) = (Vec::new(), Vec::new());
    mentioned(&tree, &mut read, &mut assigned);
    let unset = |name: &&[u8]| sum.variables.value(name).is_none();
    let side = read.iter().any(|name| after.value(name).is_none());
    found.extend(side.then_some("an unset name in a side that is not needed"));
    let stored = assigned.iter().any(|name| unset(name) && after.value(name).is_some());
    found.extend(stored.then_some("an unset name to which arithmetic assigns"));
}

/// The names that a tree reads, and those that it assigns to by `=`.
fn mentioned<'a>(tree: &'a Tree, read: &mut Vec<&'a [u8]>, assigned: &mut Vec<&'a [u8]>) {
    match tree {
        Tree::Constant(_) => (),
        Tree::Name(name) => read.push(name),
        Tree::Unary(_, operand) => mentioned(operand, read, assigned),
        Tree::Binary(_, left, right) => [left, right].iter().for_each(|side| mentioned(side, read, assigned)),
        Tree::Conditional(condition, if_true, if_zero) => {
            [condition, if_true, if_zero].iter().for_each(|side| mentioned(side, read, assigned));
        }
        Tree::Assignment(sign, name, right) => {
            match *sign {
                "=" => assigned.push(name),
                _ => read.push(name),
            }
            mentioned(right, read, assigned);
        }
    }
}

impl fmt::Display for Shouted {
    fn fmt(&self, out: &mut fmt::Formatter) -> fmt::Result {
        let Shouted { on, accepted, shouted, kinds } = self;
        writeln!(out, "lines with the switch on {on}, accepted {accepted}, refused with 25 {shouted}")?;
        for kind in KINDS {
            writeln!(out, "shouts with {kind} {}", kinds.get(kind).copied().unwrap_or_default())?;
        }
        Ok(())
    }
}
