//! What patterns whose cost is asked for have, how much of the pairs they reach, and why they are refused.

use std::collections::{BTreeMap, BTreeSet};
use std::fmt;

use crate::bracket::{End, Fault};
use crate::case::LentPattern;
use crate::cost::{elements, leads_on, reached};
use crate::limits;
use crate::number::{Number, ACCEPTED};
use crate::pattern::{self, Element, Purpose};
use crate::row::{marked, Mark};

/// What a call may have.
pub const KINDS: [&str; 42] = [
    "no elements",
    "no bytes",
    "the start alone",
    "all pairs",
    "more than a thousand pairs",
    "a pair to which two lead",
    "a text that is matched whole",
    "a text that is matched in part",
    "stars side by side",
    "a star at the pattern's end",
    "64 elements",
    "256 bytes",
    "64 elements and 256 bytes",
    "more than 64 bytes of a pattern",
    "a ? that takes a slash",
    "a star that takes a slash",
    "a set that takes a slash",
    "a negated set",
    "a class",
    "a falling range",
    "an unclosed bracket",
    "a backslash",
    "a zero byte in the pattern",
    "a zero byte in the text",
    "a byte from 128 in both",
    "a leading dot that an element takes",
    "a work area above 65,536 bytes",
    "1 of 65,535 bytes",
    "1 before 19",
    "1 before 14",
    "19 of an unknown name",
    "19 of [.",
    "19 of [=",
    "19 of an end of a range",
    "19 before 14 of elements",
    "19 before 14 of bytes",
    "14 of 65 elements",
    "14 of more elements",
    "14 of 257 bytes",
    "14 of more bytes",
    "14 of elements alone",
    "14 of elements and bytes",
];

#[derive(Debug, Default)]
pub struct Costly {
    /// By kind, the calls that have it.
    pub kinds: BTreeMap<&'static str, usize>,
}

impl Costly {
    pub fn add(&mut self, lent: &LentPattern, number: u8) {
        let mut found = BTreeSet::new();
        match number {
            ACCEPTED => accepted(lent, &mut found),
            _ => refused(lent, number, &mut found),
        }
        for kind in found {
            assert!(KINDS.contains(&kind), "{kind} is listed");
            *self.kinds.entry(kind).or_default() += 1;
        }
    }
}

fn accepted(lent: &LentPattern, found: &mut BTreeSet<&'static str>) {
    let elements = elements(&lent.pattern).unwrap_or_default();
    shape(lent, &elements, found);
    pairs(&elements, &lent.text, found);
    let has = |bytes: &[u8], byte: u8| bytes.contains(&byte);
    let high = |bytes: &[u8]| bytes.iter().any(|byte| *byte > 127);
    let (pattern, text) = (&lent.pattern, &lent.text);
    for (kind, holds) in [
        ("a backslash", has(pattern, b'\\')),
        ("a zero byte in the pattern", has(pattern, 0)),
        ("a zero byte in the text", has(text, 0)),
        ("a byte from 128 in both", high(pattern) && high(text)),
        ("a work area above 65,536 bytes", lent.work > limits::WORK_AREA),
    ] {
        found.extend(holds.then_some(kind));
    }
}

/// How many elements and bytes there are, and of which kinds.
fn shape(lent: &LentPattern, elements: &[Element], found: &mut BTreeSet<&'static str>) {
    let (full, long) = (elements.len() == limits::COST_ELEMENTS, lent.text.len() == limits::COST_TEXT);
    let side_by_side = elements.windows(2).any(|two| two[0] == Element::Any && two[1] == Element::Any);
    let read = pattern::read(&marked(&lent.pattern, Mark::Literal), Purpose::Removal);
    let brackets = read.map(|pattern| pattern.brackets).unwrap_or_default();
    let text = |here: &[u8]| lent.pattern.windows(here.len()).any(|two| two == here);
    let falls = |set: &[bool; 256]| set.iter().all(|member| !member);
    for (kind, holds) in [
        ("no elements", elements.is_empty()),
        ("no bytes", lent.text.is_empty()),
        ("64 elements", full),
        ("256 bytes", long),
        ("64 elements and 256 bytes", full && long),
        ("more than 64 bytes of a pattern", lent.pattern.len() > limits::COST_ELEMENTS),
        ("stars side by side", side_by_side),
        ("a star at the pattern's end", elements.last() == Some(&Element::Any)),
        ("an unclosed bracket", brackets.iter().any(|bracket| bracket.end == End::Unclosed)),
        ("a negated set", brackets.iter().any(|bracket| bracket.negated && bracket.end == End::Closed)),
        ("a class", text(b"[:") && text(b":]")),
        ("a falling range", elements.iter().any(|element| matches!(element, Element::Set(set) if falls(set)))),
    ] {
        found.extend(holds.then_some(kind));
    }
}

/// Which pairs are reached.
fn pairs(elements: &[Element], text: &[u8], found: &mut BTreeSet<&'static str>) {
    let reached = reached(elements, text);
    let all = (elements.len() + 1) * (text.len() + 1);
    let whole = reached.contains(&(elements.len(), text.len()));
    let part = reached.iter().any(|(place, _)| *place == elements.len());
    let ways: usize = reached.iter().map(|pair| leads_on(elements, text, *pair).len()).sum();
    for (kind, holds) in [
        ("the start alone", reached.len() == 1),
        ("all pairs", reached.len() == all && all > 1),
        ("more than a thousand pairs", reached.len() > 1_000),
        ("a pair to which two lead", ways > reached.len() - 1),
        ("a text that is matched whole", whole),
        ("a text that is matched in part", part && !whole),
    ] {
        found.extend(holds.then_some(kind));
    }
    for &(place, at) in &reached {
        let takes = leads_on(elements, text, (place, at)).iter().any(|(_, next)| *next > at);
        if takes && text[at] == b'/' {
            found.extend(match elements[place] {
                Element::One => Some("a ? that takes a slash"),
                Element::Any => Some("a star that takes a slash"),
                Element::Set(_) => Some("a set that takes a slash"),
                Element::Byte(_) => None,
            });
        }
        let dot = takes && at == 0 && text[at] == b'.' && !matches!(elements[place], Element::Byte(_));
        found.extend(dot.then_some("a leading dot that an element takes"));
    }
}

fn refused(lent: &LentPattern, number: u8, found: &mut BTreeSet<&'static str>) {
    let read = pattern::read(&marked(&lent.pattern, Mark::Literal), Purpose::Removal);
    // Of a pattern with a bad class, the elements before it.
    let count = match &read {
        Ok(pattern) => pattern.elements.len(),
        Err(_) => before_fault(&lent.pattern),
    };
    let many = count > limits::COST_ELEMENTS;
    let long = lent.text.len() > limits::COST_TEXT;
    if number == Number::WorkArea as u8 {
        found.extend((lent.work == limits::WORK_AREA - 1).then_some("1 of 65,535 bytes"));
        found.extend(read.is_err().then_some("1 before 19"));
        found.extend((read.is_ok() && (many || long)).then_some("1 before 14"));
        return;
    }
    if let Err(fault) = read {
        found.insert(match fault {
            Fault::Name(_) => "19 of an unknown name",
            Fault::Collating => "19 of [.",
            Fault::Equivalence => "19 of [=",
            Fault::RangeEnd => "19 of an end of a range",
        });
        found.extend(many.then_some("19 before 14 of elements"));
        found.extend(long.then_some("19 before 14 of bytes"));
        return;
    }
    found.extend(many.then_some(match count {
        65 => "14 of 65 elements",
        _ => "14 of more elements",
    }));
    found.extend(long.then_some(match lent.text.len() {
        257 => "14 of 257 bytes",
        _ => "14 of more bytes",
    }));
    found.extend((many && !long).then_some("14 of elements alone"));
    found.extend((many && long).then_some("14 of elements and bytes"));
}

/// How many elements the longest beginning of the pattern has that can be read.
fn before_fault(bytes: &[u8]) -> usize {
    let lengths = (0..bytes.len()).rev();
    lengths.filter_map(|length| elements(&bytes[..length]).ok()).map(|read| read.len()).next().unwrap_or_default()
}

impl fmt::Display for Costly {
    fn fmt(&self, out: &mut fmt::Formatter) -> fmt::Result {
        for kind in KINDS {
            writeln!(out, "costs with {kind} {}", self.kinds.get(kind).copied().unwrap_or_default())?;
        }
        Ok(())
    }
}
