//! What comes of insertions and deletions: at which place of the list, beside which paths, with which room, and why they are refused.

use std::collections::{BTreeMap, BTreeSet};
use std::fmt;

use crate::calls::Answer;
use crate::case::{LentPaths, Update};
use crate::image::{self, LENGTH};
use crate::limits;
use crate::number::{Number, ACCEPTED};

/// What an insertion or a deletion may have.
pub const KINDS: [&str; 37] = [
    "an insertion into no paths",
    "an insertion before all paths",
    "an insertion between two paths",
    "an insertion behind all paths",
    "an insertion of the beginning of the next path",
    "an insertion of a path that the one before begins",
    "an insertion that signed bytes would put elsewhere",
    "an insertion among hundreds",
    "an insertion that fills the buffer",
    "an insertion that fills 32,768 bytes",
    "an insertion in a buffer above 32,768 bytes",
    "an insertion over bytes that are not of an unused buffer",
    "a deletion of the only path",
    "a deletion of the first path",
    "a deletion between two paths",
    "a deletion of the last path",
    "a deletion among hundreds",
    "a deletion with no byte behind the image",
    "a deletion before bytes that are not of an unused buffer",
    "24 of a path that is there",
    "24 of a path that is there, and no room",
    "24 of a path that is not there",
    "24 of a path that is not there and begins another",
    "24 of a path that is not there and another begins",
    "24 of a path above 65,535 bytes",
    "21 of a path above 65,535 bytes",
    "21 for want of one byte in the buffer",
    "21 for want of one byte in 32,768",
    "21 for want of more",
    "4 of an image",
    "4 of a used length that is not the image's",
    "4 of a used length beyond the buffer",
    "4 of an empty path",
    "4 of a path with a zero byte",
    "4 of a path that has no room",
    "4 of an image and of the path",
    "4 of an image for a path that has no room",
];

/// How many paths are hundreds.
const HUNDREDS: usize = 300;

#[derive(Debug, Default)]
pub struct Updated {
    /// By kind, the calls that have it.
    pub kinds: BTreeMap<&'static str, usize>,
}

impl Updated {
    pub fn add(&mut self, update: Update, lent: &LentPaths, answer: &Answer) {
        let found = if answer.number == ACCEPTED { accepted(update, lent) } else { refused(lent, answer.number) };
        for kind in found.into_iter().collect::<BTreeSet<_>>() {
            assert!(KINDS.contains(&kind), "{kind} is listed");
            *self.kinds.entry(kind).or_default() += 1;
        }
    }
}

/// The paths of a good image, those before the path and those behind it.
fn around(lent: &LentPaths) -> (Vec<Vec<u8>>, Vec<Vec<u8>>) {
    let paths = lent.paths.get(..lent.used).and_then(image::paths).unwrap_or_default();
    paths.into_iter().filter(|known| *known != lent.path).partition(|known| *known < lent.path)
}

fn accepted(update: Update, lent: &LentPaths) -> Vec<&'static str> {
    let (before, behind) = around(lent);
    let hundreds = before.len() + behind.len() >= HUNDREDS;
    let left = lent.paths.len() > lent.used;
    let mut found = Vec::new();
    match update {
        Update::Insert => {
            found.push(match (before.is_empty(), behind.is_empty()) {
                (true, true) => "an insertion into no paths",
                (true, false) => "an insertion before all paths",
                (false, false) => "an insertion between two paths",
                (false, true) => "an insertion behind all paths",
            });
            found.extend(hundreds.then_some("an insertion among hundreds"));
            found.extend(left.then_some("an insertion over bytes that are not of an unused buffer"));
            found.extend(neighbours(&before, &behind, &lent.path));
            found.extend(filled(lent));
        }
        Update::Delete => {
            found.push(match (before.is_empty(), behind.is_empty()) {
                (true, true) => "a deletion of the only path",
                (true, false) => "a deletion of the first path",
                (false, false) => "a deletion between two paths",
                (false, true) => "a deletion of the last path",
            });
            found.extend(hundreds.then_some("a deletion among hundreds"));
            found.extend(left.then_some("a deletion before bytes that are not of an unused buffer"));
            let full = lent.paths_buffer == lent.used;
            found.extend(full.then_some("a deletion with no byte behind the image"));
        }
    }
    found
}

fn neighbours(before: &[Vec<u8>], behind: &[Vec<u8>], path: &[u8]) -> Vec<&'static str> {
    let mut found = Vec::new();
    if behind.first().is_some_and(|next| next.starts_with(path)) {
        found.push("an insertion of the beginning of the next path");
    }
    if before.last().is_some_and(|last| path.starts_with(last)) {
        found.push("an insertion of a path that the one before begins");
    }
    let signed = |text: &[u8]| text.iter().map(|byte| byte.cast_signed()).collect::<Vec<_>>();
    let elsewhere = before.last().is_some_and(|last| signed(last) > signed(path))
        || behind.first().is_some_and(|next| signed(next) < signed(path));
    found.extend(elsewhere.then_some("an insertion that signed bytes would put elsewhere"));
    found
}

fn filled(lent: &LentPaths) -> Vec<&'static str> {
    let needed = lent.used + LENGTH + lent.path.len();
    let mut found = Vec::new();
    found.extend((needed == lent.paths_buffer).then_some("an insertion that fills the buffer"));
    found.extend((needed == limits::PATHS_IMAGE).then_some("an insertion that fills 32,768 bytes"));
    let above = lent.paths_buffer > limits::PATHS_IMAGE;
    found.extend(above.then_some("an insertion in a buffer above 32,768 bytes"));
    found
}

fn refused(lent: &LentPaths, number: u8) -> Vec<&'static str> {
    match number {
        _ if number == Number::Paths as u8 => malformed(lent),
        _ if number == Number::PathPresence as u8 => presence(lent),
        _ => vec![no_room(lent)],
    }
}

/// How many bytes an insertion lacks in the buffer, and in an image of 32,768.
fn lacking(lent: &LentPaths) -> (usize, usize) {
    let needed = lent.used.saturating_add(LENGTH + lent.path.len());
    (needed.saturating_sub(lent.paths_buffer), needed.saturating_sub(limits::PATHS_IMAGE))
}

fn malformed(lent: &LentPaths) -> Vec<&'static str> {
    let bad_path = lent.path.is_empty() || lent.path.contains(&0);
    let no_room = lacking(lent) != (0, 0);
    if lent.paths.get(..lent.used).and_then(image::paths).is_some() {
        let mut found = vec![if lent.path.is_empty() { "4 of an empty path" } else { "4 of a path with a zero byte" }];
        found.extend(no_room.then_some("4 of a path that has no room"));
        return found;
    }
    let mut found = vec![match lent.used {
        used if used > lent.paths_buffer => "4 of a used length beyond the buffer",
        used if used != lent.paths.len() => "4 of a used length that is not the image's",
        _ => "4 of an image",
    }];
    found.extend(bad_path.then_some("4 of an image and of the path"));
    found.extend(no_room.then_some("4 of an image for a path that has no room"));
    found
}

fn presence(lent: &LentPaths) -> Vec<&'static str> {
    let (before, behind) = around(lent);
    let known = image::paths(&lent.paths[..lent.used]).is_some_and(|paths| paths.contains(&lent.path));
    if known {
        let mut found = vec!["24 of a path that is there"];
        found.extend((lacking(lent) != (0, 0)).then_some("24 of a path that is there, and no room"));
        return found;
    }
    let mut found = vec!["24 of a path that is not there"];
    let begins = behind.iter().any(|other| other.starts_with(&lent.path));
    found.extend(begins.then_some("24 of a path that is not there and begins another"));
    let begun = before.iter().any(|other| lent.path.starts_with(other));
    found.extend(begun.then_some("24 of a path that is not there and another begins"));
    found.extend((lent.path.len() > usize::from(u16::MAX)).then_some("24 of a path above 65,535 bytes"));
    found
}

fn no_room(lent: &LentPaths) -> &'static str {
    match lacking(lent) {
        _ if lent.path.len() > usize::from(u16::MAX) => "21 of a path above 65,535 bytes",
        (1, _) => "21 for want of one byte in the buffer",
        (0, 1) => "21 for want of one byte in 32,768",
        _ => "21 for want of more",
    }
}

impl fmt::Display for Updated {
    fn fmt(&self, out: &mut fmt::Formatter) -> fmt::Result {
        for kind in KINDS {
            writeln!(out, "updates with {kind} {}", self.kinds.get(kind).copied().unwrap_or_default())?;
        }
        Ok(())
    }
}
