//! Cases about insertion and deletion of one path: at every place of short lists and long ones, of paths next to those that are there, with just the room
//! that is needed or less, with bytes left behind the image, and with paths, images and used lengths that are none.

use std::collections::BTreeSet;

use super::about;
use super::random::Random;
use super::stars::card;
use super::tables::{self, Kind};
use crate::case::{Call, LentPaths, Update};
use crate::image::{of_texts, LENGTH};
use crate::limits;

/// Paths that are close together: each begins the next or differs from it in one byte, some by a byte that a signed order would put first.
const CLOSE: [&str; 22] = [
    "a", "a/", "a/a", "a/a/a", "a/b", "a0", "aa", "aaa", "aab", "ab", "a\x01", "a\x7f", "a\u{80}", "a\u{e9}", "b",
    "\x01", "\x7f", "\u{80}", "\u{ff}", ".a", "A", "_",
];
/// The longest path that a length can say.
const LONGEST: usize = 65_535;

/// The call of this case, about insertion or deletion alone; the same for the same seed and case.
pub fn call(seed: u64, case: u64) -> Call {
    made(&mut Random::new(seed, case))
}

/// An insertion or a deletion; a deletion mostly of a path that is there.
pub fn made(random: &mut Random) -> Call {
    if random.once_in(100) {
        return full(random);
    }
    let update = *random.pick(&Update::ALL);
    let list = list(random);
    let there = if update == Update::Delete { !random.once_in(3) } else { random.once_in(6) };
    let path = if there && !list.is_empty() { there_path(random, &list) } else { path(random, &list) };
    let image = of_texts(&list);
    let mut lent = LentPaths { used: image.len(), paths_buffer: image.len(), paths: image, path };
    lend_room(random, &mut lent);
    if random.once_in(9) {
        spoil(random, &mut lent);
    }
    if random.once_in(3) {
        leave_behind(random, &mut lent);
    }
    Call::Paths(update, lent)
}

/// An insertion that makes an image of about 32,768 bytes, in a buffer of about as many.
fn full(random: &mut Random) -> Call {
    let path = random.text(&["a", "x", "xx", "y", "xxxxx", "z/z"]);
    let rest = limits::PATHS_IMAGE - LENGTH - path.len();
    let image = tables::filled(Kind::Paths, about(random, rest));
    let paths_buffer = limits::PATHS_IMAGE + random.below(4) - usize::from(random.once_in(4));
    let mut lent = LentPaths { used: image.len(), paths_buffer: paths_buffer.max(image.len()), paths: image, path };
    leave_behind(random, &mut lent);
    Call::Paths(Update::Insert, lent)
}

/// None, a few of any kind, a few that are close together, seldom hundreds.
fn list(random: &mut Random) -> Vec<Vec<u8>> {
    match random.below(60) {
        0 if random.once_in(2) => card(random),
        0..=5 => Vec::new(),
        6..=8 => vec![random.text(&CLOSE)],
        9..=30 => tables::paths(random),
        _ => close(random),
    }
}

fn close(random: &mut Random) -> Vec<Vec<u8>> {
    let list: BTreeSet<Vec<u8>> = (0..random.between(1, 12)).map(|_| random.text(&CLOSE)).collect();
    list.into_iter().collect()
}

/// One of the list, its first and its last more often than the others.
fn there_path(random: &mut Random, list: &[Vec<u8>]) -> Vec<u8> {
    match random.below(5) {
        0 => list[0].clone(),
        1 => list[list.len() - 1].clone(),
        _ => random.pick(list).clone(),
    }
}

/// Any path: one next to those of the list, one that just fits an image of 32,768 bytes or not, one that no length can say, or one that is none.
fn path(random: &mut Random, list: &[Vec<u8>]) -> Vec<u8> {
    match random.below(200) {
        0..=3 => vec![b'y'; LONGEST + random.below(3)],
        4 => {
            let left = limits::PATHS_IMAGE.saturating_sub(of_texts(list).len() + LENGTH);
            vec![b'z'; (left + 2).saturating_sub(random.below(4))]
        }
        5..=10 => Vec::new(),
        11..=20 => with_zero(random),
        21..=60 => random.text(&CLOSE),
        61..=80 => (0..random.between(1, 9)).map(|_| random.byte().max(1)).collect(),
        _ if list.is_empty() => random.text(&CLOSE),
        _ => near(random, list),
    }
}

fn with_zero(random: &mut Random) -> Vec<u8> {
    let mut path = random.text(&CLOSE);
    path.insert(random.below(path.len() + 1), 0);
    path
}

/// A path of the list with a byte more, a byte less or another last byte.
fn near(random: &mut Random, list: &[Vec<u8>]) -> Vec<u8> {
    let mut path = there_path(random, list);
    let last = path.len() - 1;
    match random.below(6) {
        0 => path.push(*random.pick(b"\x01a/\xff")),
        1 => drop(path.pop()),
        2 => path[last] = path[last].wrapping_add(1).max(1),
        3 => path[last] = path[last].wrapping_sub(1).max(1),
        4 => path[last] ^= 0x80,
        _ => path.insert(0, *random.pick(b"\x01./a\xff")),
    }
    path.iter_mut().filter(|byte| **byte == 0).for_each(|byte| *byte = 1);
    path
}

/// A buffer with just the room that the path needs, a byte less or more, none beside the image, or plenty, up to more than an image may have.
fn lend_room(random: &mut Random, lent: &mut LentPaths) {
    let needed = lent.used + LENGTH + lent.path.len();
    let buffer = match random.below(9) {
        0 => lent.used,
        1..=2 => about(random, needed),
        3 => limits::PATHS_IMAGE + random.below(3),
        4 => needed.max(limits::PATHS_IMAGE) + random.below(100),
        _ => lent.used + random.below(200),
    };
    lent.paths_buffer = buffer.max(lent.used);
}

/// An image that is none, or a used length that is not the image's, mostly beyond the buffer.
fn spoil(random: &mut Random, lent: &mut LentPaths) {
    if random.once_in(2) {
        lent.paths = tables::malformed(random, Kind::Paths);
        lent.used = lent.paths.len();
        lent.paths_buffer = lent.used + random.below(60);
        return;
    }
    lent.used = match random.below(6) {
        0 => 0,
        1 => random.below(lent.used + 1),
        2 => lent.used + 1,
        3 => lent.paths_buffer + 1,
        4 => usize::MAX,
        _ => lent.paths_buffer + random.below(40_000),
    };
}

/// Bytes behind the image that are not those of an unused buffer.
fn leave_behind(random: &mut Random, lent: &mut LentPaths) {
    let room = lent.paths_buffer - lent.paths.len();
    if room > 0 && lent.used == lent.paths.len() {
        let count = random.between(1, room.min(40));
        lent.paths.extend((0..count).map(|_| random.byte()));
    }
}
