//! The calls that insert or delete one path: what they are given, and their answers.

use super::check_behind;
use crate::calls::Answer;
use crate::hex;
use crate::number::ACCEPTED;
use crate::updates::{delete, insert};

const PATHS_FILL: u8 = 0x3c;

#[derive(Clone, Copy, Debug, PartialEq, Eq)]
pub enum Update {
    Insert,
    Delete,
}

impl Update {
    pub const ALL: [Update; 2] = [Update::Insert, Update::Delete];

    pub fn name(self) -> &'static str {
        match self {
            Update::Insert => "insert",
            Update::Delete => "delete",
        }
    }
}

/// A buffer of paths, by what stands in it from its start, and the path that is to be inserted or deleted.
#[derive(Clone, Debug)]
pub struct LentPaths {
    pub paths: Vec<u8>,
    pub used: usize,
    pub paths_buffer: usize,
    pub path: Vec<u8>,
}

impl LentPaths {
    /// The words of the call behind its name.
    pub fn words(&self) -> String {
        let LentPaths { paths, used, paths_buffer, path } = self;
        format!("{} {used} {paths_buffer} {}", hex::write(paths), hex::write(path))
    }

    /// What such words lend, or `None` if they are not in the format.
    pub fn of_words(words: &[&str]) -> Option<LentPaths> {
        let &[paths, used, paths_buffer, path] = words else {
            return None;
        };
        Some(LentPaths {
            paths: hex::read(paths)?,
            used: used.parse().ok()?,
            paths_buffer: paths_buffer.parse().ok()?,
            path: hex::read(path)?,
        })
    }
}

/// The answer of an update and its words behind the `=`, or what was wrong in the buffer. A deletion leaves zeros behind the new image up to the used length
/// that was given.
pub fn answer(update: Update, lent: &LentPaths) -> Result<(Answer, String), String> {
    let mut paths = lent.paths.clone();
    paths.resize(lent.paths_buffer, PATHS_FILL);
    let mut wanted = paths.clone();
    let answer = match update {
        Update::Insert => insert(&mut paths, lent.used, &lent.path),
        Update::Delete => delete(&mut paths, lent.used, &lent.path),
    };
    let changed = if answer.number == ACCEPTED { answer.used } else { 0 };
    if answer.number == ACCEPTED && update == Update::Delete {
        wanted[changed..lent.used].fill(0);
    }
    check_behind(&paths, changed, &wanted)?;
    let Answer { number, place, used, .. } = answer;
    Ok((answer, format!("{number} {place} {used} {}", hex::write(&paths[..changed]))))
}
