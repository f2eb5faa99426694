//! How dear a pattern is for a text: the number of pairs of a place in each that can be reached from the start, found by going wherever a pair leads.

use std::collections::BTreeSet;

use crate::limits;
use crate::number::{Number, ACCEPTED};
use crate::pattern::{self, Element, Purpose};
use crate::row::{marked, Mark};

/// What the call gives back; a refusal counts nothing.
#[derive(Clone, Copy, Debug, PartialEq, Eq)]
pub struct Cost {
    pub number: u8,
    pub place: usize,
    pub count: usize,
}

/// A place in the pattern, by its elements, and one in the text.
pub type Pair = (usize, usize);

/// Counts the pairs that can be reached; the work area is left zero.
pub fn cost(pattern: &[u8], text: &[u8], work: &mut [u8]) -> Cost {
    work.fill(0);
    match counted(pattern, text, work.len()) {
        Ok(count) => Cost { number: ACCEPTED, place: 0, count },
        Err(number) => Cost { number: number as u8, place: 0, count: 0 },
    }
}

fn counted(pattern: &[u8], text: &[u8], work: usize) -> Result<usize, Number> {
    if work < limits::WORK_AREA {
        return Err(Number::WorkArea);
    }
    let elements = elements(pattern)?;
    if elements.len() > limits::COST_ELEMENTS || text.len() > limits::COST_TEXT {
        return Err(Number::TooManyUnits);
    }
    Ok(reached(&elements, text).len())
}

/// The elements of a pattern in the removals' sense, all its bytes active.
pub fn elements(pattern: &[u8]) -> Result<Vec<Element>, Number> {
    Ok(pattern::read(&marked(pattern, Mark::Literal), Purpose::Removal)?.elements)
}

/// All pairs that the start leads to, itself included.
pub fn reached(elements: &[Element], text: &[u8]) -> BTreeSet<Pair> {
    let start = (0, 0);
    let mut reached = BTreeSet::from([start]);
    let mut open = vec![start];
    while let Some(pair) = open.pop() {
        for next in leads_on(elements, text, pair) {
            if reached.insert(next) {
                open.push(next);
            }
        }
    }
    reached
}

/// Where a pair leads: a star on to the next element, and to the next byte if there is one; another element that takes the byte on in both.
pub fn leads_on(elements: &[Element], text: &[u8], (place, at): Pair) -> Vec<Pair> {
    let byte = text.get(at);
    match elements.get(place) {
        None => Vec::new(),
        Some(Element::Any) if byte.is_none() => vec![(place + 1, at)],
        Some(Element::Any) => vec![(place + 1, at), (place, at + 1)],
        Some(element) if byte.is_some_and(|byte| takes(element, *byte)) => vec![(place + 1, at + 1)],
        Some(_) => Vec::new(),
    }
}

fn takes(element: &Element, byte: u8) -> bool {
    match element {
        Element::Byte(own) => *own == byte,
        Element::One | Element::Any => true,
        Element::Set(set) => set[usize::from(byte)],
    }
}
