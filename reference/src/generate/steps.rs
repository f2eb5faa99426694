//! What the patterns of a call cost a matcher that takes each prefix or suffix of a value by itself and goes back in it star by star,
//! so that most cases stay cheap for whatever is held against the reference.

use super::walk::walk;
use crate::case::{Job, Lent};
use crate::image;
use crate::pattern::{self, Element, Pattern};
use crate::seen::{HeldTo, SeenPattern};

/// The steps of all patterns that the call comes to read.
pub fn steps(job: Job, lent: &Lent) -> usize {
    let paths = image::paths(&lent.paths).unwrap_or_default();
    walk(job, lent).patterns.iter().map(|seen| pattern_steps(seen, &paths)).sum()
}

/// Those of one pattern over all texts that it is held to: for a value, each prefix or each suffix.
fn pattern_steps(seen: &SeenPattern, paths: &[Vec<u8>]) -> usize {
    let Ok(Pattern { elements, .. }) = pattern::read(&seen.units, seen.purpose()) else {
        return 0;
    };
    let runs: Vec<usize> = elements.split(|element| *element == Element::Any).map(<[Element]>::len).collect();
    match &seen.held_to {
        HeldTo::Paths if elements.iter().all(|element| matches!(element, Element::Byte(_))) => 0,
        HeldTo::Paths => paths.iter().map(|path| text_steps(&runs, path.len())).sum(),
        HeldTo::Value(value, _) => value.len() * text_steps(&runs, value.len()) / 2,
    }
}

/// At most so many for one text, given the runs of elements between stars: with stars, its bytes times the longest run.
fn text_steps(runs: &[usize], length: usize) -> usize {
    let longest = runs.iter().max().map_or(0, |run| *run.min(&length));
    match runs.len() {
        1 => longest,
        _ => length * (longest + 1),
    }
}

/// Takes stars away, all of them, if the patterns cost more than they may.
pub fn thin(job: Job, lent: &mut Lent, allowed: usize) {
    if steps(job, lent) > allowed {
        for at in 0..lent.line.len() {
            if lent.line[at] == b'*' && !is_list(&lent.line[..at]) {
                lent.line[at] = b'?';
            }
        }
        let bytes = lent.variables.iter_mut().chain(lent.homes.iter_mut()).chain(lent.parameters.iter_mut());
        bytes.filter(|byte| **byte == b'*').for_each(|byte| *byte = b'?');
    }
}

/// Whether a `*` behind these bytes is that of `$*`.
fn is_list(before: &[u8]) -> bool {
    before.ends_with(b"$") || before.ends_with(b"${")
}
