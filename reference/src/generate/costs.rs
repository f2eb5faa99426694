//! Cases about the cost of a pattern: stars and sets over texts that they reach far into or hardly, patterns and texts about their limits, and such as are
//! refused for one reason or several.

use super::random::Random;
use crate::case::{Call, LentPattern};
use crate::limits;

const ELEMENTS: [&str; 34] = [
    "*", "*", "*", "*", "?", "?", "a", "a", "b", "ab", "[ab]", "[!a]", "[a-c]", "[!b-d]", "[c-a]", "[]a]", "[!]]",
    "[a-]", "[[:alpha:]]", "[[:digit:]-]", "[![:space:]]", "[", "[a", "[!", "[[:alpha:]", "]", "-", ".", "/", "\\",
    "\\*", "\0", "\u{e9}", "[/.]",
];
const REFUSED: [&str; 12] = [
    "[[:x:]]", "[[:Alpha:]]", "[[:", "[[.a.]]", "[a[.", "[[=a=]]", "[![=", "[a-[:digit:]]", "[[:alpha:]-z]", "[[::]]",
    "[[:digit", "[--[:upper:]]",
];
const TEXT: &[u8] = b"aaaabbbc..//-]1[\\*\xe9\0\n";

/// The call of this case, about the cost of a pattern alone; the same for the same seed and case.
pub fn call(seed: u64, case: u64) -> Call {
    made(&mut Random::new(seed, case))
}

pub fn made(random: &mut Random) -> Call {
    let long = random.once_in(5);
    let text = if random.once_in(if long { 2 } else { 4 }) { run(random) } else { text(random) };
    let mut pattern = match random.below(3) {
        _ if long => long_pattern(random),
        0 => like(random, &text),
        _ => pattern(random),
    };
    if random.once_in(8) {
        let at = if random.once_in(3) { 0 } else { pattern.len() };
        pattern.splice(at..at, random.text(&REFUSED));
    }
    let work = match random.below(10) {
        0 => *random.pick(&[0, 1, 65_535, 65_535, 65_537, 70_000]),
        _ => limits::WORK_AREA,
    };
    Call::Cost(LentPattern { pattern, text, work })
}

fn pattern(random: &mut Random) -> Vec<u8> {
    let most = *random.pick(&[0, 3, 6, 6, 12, 12, 30]);
    (0..random.below(most + 1)).flat_map(|_| random.text(&ELEMENTS)).collect()
}

fn text(random: &mut Random) -> Vec<u8> {
    let most = *random.pick(&[0, 3, 10, 10, 40]);
    (0..random.below(most + 1)).map(|_| *random.pick(TEXT)).collect()
}

/// One byte again and again, now and then another, often as many as there may be or about so.
fn run(random: &mut Random) -> Vec<u8> {
    let most = limits::COST_TEXT + 1;
    let length = if random.once_in(2) { most - random.below(3) } else { random.below(most + 30) };
    let rare = *random.pick(&[3, 20, 1_000]);
    let byte = |random: &mut Random| if random.once_in(rare) { *random.pick(TEXT) } else { b'a' };
    (0..length).map(|_| byte(random)).collect()
}

/// Just about as many elements as there may be, of one piece or two, bytes or brackets; behind an unclosed one every byte is an element.
fn long_pattern(random: &mut Random) -> Vec<u8> {
    let first = random.text(&["*", "*", "**a", "?", "a", "*a", "[ab]", "[[:alpha:]]", "*[!b]", "a*b"]);
    let second = random.text(&["*", "*", "a", "?", "[!c]"]);
    let mut pattern = Vec::new();
    let mut elements = 0;
    let wanted = limits::COST_ELEMENTS + 2 - random.below(4);
    while elements < wanted {
        let piece = if random.once_in(5) { &second } else { &first };
        let stands_for = if piece.starts_with(b"[") { 1 } else { piece.len().min(2) };
        elements += stands_for;
        pattern.extend(piece);
    }
    if random.once_in(5) {
        pattern.push(b'[');
    }
    pattern
}

/// A pattern that the text likely matches: each byte itself, `?`, a set, or a star for some of them.
fn like(random: &mut Random, text: &[u8]) -> Vec<u8> {
    let mut pattern = Vec::new();
    let mut rest = text;
    let most = *random.pick(&[2, 5, 40]);
    while let [byte, behind @ ..] = rest {
        rest = behind;
        match random.below(9) {
            0..=2 => {
                pattern.push(b'*');
                rest = &rest[random.below(most).min(rest.len())..];
            }
            3 => pattern.push(b'?'),
            4 => pattern.extend([b'[', *byte, b'z', b']']),
            5 => pattern.extend(b"[!z]"),
            _ => pattern.push(*byte),
        }
    }
    pattern
}
