//! Cases about one stage: patterns against values and paths of the same few bytes, and splitting by any IFS.

use std::collections::BTreeSet;

use super::random::Random;
use super::tables::{image, Table};
use crate::case::Lent;
use crate::image::of_texts;

const PATTERN: [&str; 42] = [
    "*", "?", "[", "[", "]", "]", "!", "-", "-", "a", "b", "c", ".", "/", ":", "=", "^", "''", "'-'", "\\]", "\"!\"",
    "[!", "[a-", "-c]", "[]", "'['", "[.", "[a", "b]", "'.'", "[a'-'c]", "[a\\-c]", "[a'/']", "[\"/\"b]", "*.", "?.",
    "/.", "[!a].", "[:alpha:]", "[[:alpha:]", "[[:punct:]", "[![:lower:]]",
];
const MATCHED: &[u8] = b"aaabbbccc.../--][!^:=*";
const SPLIT: &[u8] = b"  ::\t\n,ab0-\x0b\r";

/// A pattern as a word of the line or as the operand of a removal.
pub fn patterns(random: &mut Random, lent: &mut Lent) {
    let value = bytes(random, MATCHED, 9);
    let paths: BTreeSet<Vec<u8>> = (0..random.below(12)).map(|_| bytes(random, MATCHED, 5)).collect();
    let paths: Vec<Vec<u8>> = paths.into_iter().filter(|path| !path.is_empty()).collect();
    lent.line = match random.below(8) {
        0 => pattern(random),
        1 => [b"a${u-".to_vec(), pattern(random), b"}".to_vec()].concat(),
        2 if !paths.is_empty() => like(random, &paths[0]),
        3..=4 if !paths.is_empty() => {
            let path = random.pick(&paths);
            like(random, path)
        }
        _ => removal(random, &value),
    };
    lend(lent, &Table::from([(b"x".to_vec(), value)]));
    lent.paths = of_texts(&paths);
}

fn pattern(random: &mut Random) -> Vec<u8> {
    (0..random.between(1, 7)).flat_map(|_| random.text(&PATTERN)).collect()
}

/// A removal whose pattern is any, or like one end of the value, perhaps with a star.
fn removal(random: &mut Random, value: &[u8]) -> Vec<u8> {
    let cut = random.below(value.len() + 1);
    let form = random.text(&["%", "%%", "#", "##"]);
    let operand = match (random.below(3), form[0]) {
        (0, _) => pattern(random),
        (_, b'%') => like(random, &value[cut..]),
        _ => like(random, &value[..cut]),
    };
    let removal = [b"${x".to_vec(), form, operand, b"}".to_vec()].concat();
    match random.below(4) {
        0 => [b"\"".to_vec(), removal, b"\"".to_vec()].concat(),
        _ => removal,
    }
}

/// A pattern that the text likely matches: each byte itself, quoted, `?`, a bracket or a star.
fn like(random: &mut Random, text: &[u8]) -> Vec<u8> {
    let mut pattern = Vec::new();
    for &byte in text {
        pattern.extend(match random.below(18) {
            0 => b"?".to_vec(),
            1 => b"*".to_vec(),
            2 => vec![b'*', byte],
            3 => b"[a-c]".to_vec(),
            4 => b"[!z]".to_vec(),
            5 => vec![b'[', byte, b'-', byte, b']'],
            6 => vec![b'[', byte, b']'],
            7 => vec![b'"', byte, b'"'],
            8 => quoted_member(random, byte),
            _ => vec![b'\\', byte],
        });
    }
    pattern
}

/// A bracket with the byte as a member, in which a byte that would mean something is quoted.
fn quoted_member(random: &mut Random, byte: u8) -> Vec<u8> {
    let (open, close) = *random.pick(&[
        ("[\\!", "]"),
        ("[\\]", "]"),
        ("[[\\:", "]"),
        ("[\\[:", "]"),
        ("[", "'/']"),
        ("[^", "]"),
        ("['a'-", "]"),
        ("[+\\-", "]"),
    ]);
    [open.as_bytes(), &[byte], close.as_bytes()].concat()
}

/// A row of bare, quoted and expanded bytes, split by an IFS of the same bytes.
pub fn splitting(random: &mut Random, lent: &mut Lent) {
    let mut table = Table::new();
    for name in ["x", "y"] {
        table.insert(name.into(), bytes(random, SPLIT, 8));
    }
    if !random.once_in(6) {
        table.insert(b"IFS".to_vec(), bytes(random, SPLIT, 4));
    }
    lend(lent, &table);
    let pieces = [
        "$x", "$y", "${x}", "\"$x\"", "''", "\"\"", "a", ":", "${u-: a :}", "${u-' '}", "${u- }", "\\:", "${IFS=:}",
        "${w:=a b}", "$((10-20))", "${#x}", "${u-''}", " ",
    ];
    lent.line = (0..random.between(1, 6)).flat_map(|_| random.text(&pieces)).collect();
}

/// At most so many bytes out of these.
fn bytes(random: &mut Random, alphabet: &[u8], most: usize) -> Vec<u8> {
    (0..random.below(most + 1)).map(|_| *random.pick(alphabet)).collect()
}

pub fn lend(lent: &mut Lent, table: &Table) {
    lent.variables = image(table);
    lent.used = lent.variables.len();
    lent.variables_buffer = lent.used + 100;
}
