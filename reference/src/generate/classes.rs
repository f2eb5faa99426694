//! Cases about character classes: brackets that hold them, in every company and spelling, over texts whose bytes stand on both sides of each class.

use std::collections::BTreeSet;

use super::random::Random;
use super::tables::{image, Table};
use crate::case::Lent;
use crate::class::{Class, CLASSES};
use crate::image::of_texts;

/// The first and the last byte of each run of bytes that are in the same classes.
pub const BORDERS: &[u8] = b"\x01\x08\t\n\r\x0e\x1f !/09:@AFGZ[`afgz{~\x7f\x80\xff";
const COMMON: &[u8] = b"--]].[:=_//1aZ\x0b\x0c\xe9";

const UNKNOWN: [&str; 20] = [
    "", "Digit", "DIGIT", "Alpha", "Digit", "sPACE", "Xdigit", "digi", "digits", "d", "alphanum", "word", "ascii",
    "digit:", ":digit", "di/git", "/", "al]pha", "^space", "xdigi",
];
const OTHERS: [&str; 14] = [
    "[.-.]", "[.a.]", "[.", "[.space.]", "[=a=]", "[=0=]", "[=", "[=]", "[=a.]", "[:digit", "[:alpha", "[:digit:",
    "[:", "[:]",
];
/// A class as an end of a range, and what looks like it and is none.
const WITH_RANGES: [&str; 14] = [
    "a-[:digit:]", "[:digit:]-z", "--[:digit:]", "[:digit:]--", "[:lower:]-[:upper:]", "[:digit:]-'a'", "[:alpha:]-[",
    "a-c-[:digit:]", "a-c-[:digit:]", "[:digit:]'-'z", "[:digit:]\\-z", "'a'-'c'-[:upper:]", "[:digit:]-/x",
    "]-[:digit:]",
];
const MEMBERS: [&str; 25] = [
    "a", "z", "0", "_", "-", ".", ":", "=", "^", "!", "[", "a-c", "0-5", "A-F", "c-a", "--a", "'-'", "\\]", "\"!\"",
    "''", "/", "'/'", "!-/", "\\\\", "a-",
];
const IFS: [&str; 6] = ["", "", ":", " ", "[", "g"];

/// Patterns with classes, as words or as operands of removals, and values and paths that about half of them match.
pub fn case(random: &mut Random, lent: &mut Lent) {
    let value = match random.below(15) {
        0 => vec![byte(random); random.between(20, 160)],
        1..=2 => [b"/".to_vec(), text(random, 3), b"/".to_vec()].concat(),
        _ => text(random, 6),
    };
    let paths = paths(random);
    let mut table = Table::from([(b"e".to_vec(), vec![]), (b"x".to_vec(), value.clone())]);
    table.insert(b"p".to_vec(), [b"[".to_vec(), class(random), b"]".to_vec()].concat());
    table.insert(b"c".to_vec(), name(random));
    if random.once_in(2) {
        table.insert(b"IFS".to_vec(), random.text(&IFS));
    }
    let words: Vec<Vec<u8>> = (0..*random.pick(&[1, 1, 2])).map(|_| word(random, &value, &paths)).collect();
    lent.line = words.join(&b' ');
    lent.paths = of_texts(&paths);
    lent.variables = image(&table);
    lent.used = lent.variables.len();
    lent.variables_buffer = lent.used + 100;
}

fn text(random: &mut Random, most: usize) -> Vec<u8> {
    (0..random.between(1, most)).map(|_| byte(random)).collect()
}

fn byte(random: &mut Random) -> u8 {
    match random.below(12) {
        0..=2 => *random.pick(COMMON),
        3..=5 => random.byte().max(1),
        _ => *random.pick(BORDERS),
    }
}

/// Many of one byte, and longer ones.
fn paths(random: &mut Random) -> Vec<Vec<u8>> {
    let most = random.between(1, 3);
    let paths: BTreeSet<Vec<u8>> = (0..random.between(1, 40)).map(|_| text(random, most)).collect();
    paths.into_iter().collect()
}

fn word(random: &mut Random, value: &[u8], paths: &[Vec<u8>]) -> Vec<u8> {
    match random.below(20) {
        0..=5 => {
            let parts = random.pick(paths).split(|&byte| byte == b'/');
            parts.map(|part| like(random, part)).collect::<Vec<_>>().join(&b'/')
        }
        6..=7 => [random.text(&["", "*", "?", "a"]), bracket(random), random.text(&["", "*", "?", "]"])].concat(),
        8 => {
            random.text(&["$p", "\"$p\"", "$p*", "[[:$c:]]", "[[:\"$c\":]]", "[[:$c:]-z]", "${u-$p}", "[[$c]", "[$p]"])
        }
        9 => [b"${u-".to_vec(), bracket(random), b"}".to_vec()].concat(),
        10 => long(random, value),
        _ => removal(random, value),
    }
}

/// A removal whose pattern is like one end of the value, or any.
fn removal(random: &mut Random, value: &[u8]) -> Vec<u8> {
    let cut = random.below(value.len() + 1);
    let form = random.text(&["%", "%%", "#", "##"]);
    let operand = match (random.below(9), form[0]) {
        (0..=2, _) => [random.text(&["", "*", "?"]), bracket(random), random.text(&["", "*", "]"])].concat(),
        (3, _) => random.text(&["$p", "\"$p\"", "*$p", "$p*", "[[:$c:]]", "[![:$c:]]*", "[[:'$c':]]", "${u-$p}"]),
        (_, b'%') => like(random, &value[cut..]),
        _ => like(random, &value[..cut]),
    };
    let removal = [b"${x".to_vec(), form, operand, b"}".to_vec()].concat();
    match random.below(4) {
        0 => removal,
        _ => [b"\"".to_vec(), removal, b"\"".to_vec()].concat(),
    }
}

/// A pattern that the text likely matches: for most bytes a class, or all others of one.
fn like(random: &mut Random, text: &[u8]) -> Vec<u8> {
    text.iter()
        .flat_map(|&byte| match random.below(12) {
            0 => b"?".to_vec(),
            1 => b"*".to_vec(),
            2..=3 => quoted(byte),
            _ => deciding(random, byte),
        })
        .collect()
}

/// A bracket of one class that takes the byte, but once in eight the other way round; now and then with a member beside it.
fn deciding(random: &mut Random, byte: u8) -> Vec<u8> {
    let class = random.pick(&CLASSES);
    let sign = if class.holds(byte) != random.once_in(8) { "" } else { "!" };
    let beside = if random.once_in(5) { member(random) } else { Vec::new() };
    [format!("[{sign}").into_bytes(), spelled(random, class), beside, b"]".to_vec()].concat()
}

/// The byte as a plain one.
fn quoted(byte: u8) -> Vec<u8> {
    match byte {
        b'\'' => b"\\'".to_vec(),
        _ => vec![b'\'', byte, b'\''],
    }
}

/// A bracket of classes and other members, of which one may be first that means something there; not always closed.
fn bracket(random: &mut Random) -> Vec<u8> {
    let mut bracket = random.text(&["[", "[", "[", "[!", "[]", "[!]", "[-", "[^"]);
    for _ in 0..random.between(1, 3) {
        bracket.extend(match random.below(8) {
            0..=4 => class(random),
            5 => random.text(&WITH_RANGES),
            _ => member(random),
        });
    }
    bracket.extend(random.text(&["]", "]", "]", "]", "-]", "]]", "", "", "/]"]));
    bracket
}

fn member(random: &mut Random) -> Vec<u8> {
    random.text(&MEMBERS)
}

/// A class, mostly a served one.
fn class(random: &mut Random) -> Vec<u8> {
    match random.below(10) {
        0 => random.text(&OTHERS),
        1 => [b"[:".to_vec(), random.text(&UNKNOWN), b":]".to_vec()].concat(),
        _ => {
            let class = random.pick(&CLASSES);
            spelled(random, class)
        }
    }
}

fn name(random: &mut Random) -> Vec<u8> {
    match random.below(4) {
        0 => random.text(&UNKNOWN),
        _ => random.pick(&CLASSES).name.into(),
    }
}

/// A served class as it stands in a line, now and then with an N in it or with one of its bytes quoted.
fn spelled(random: &mut Random, class: &Class) -> Vec<u8> {
    let mut class = format!("[:{}:]", class.name).into_bytes();
    let at = random.below(class.len());
    match random.below(16) {
        0 => drop(class.splice(at..at, random.text(&["''", "\"\"", "\"$e\""]))),
        1 => drop(class.splice(at..=at, quoted(class[at]))),
        2 if random.once_in(2) => class.insert(at, b'\\'),
        _ => (),
    }
    class
}

/// Many classes in one bracket, or as many brackets as the value has bytes.
fn long(random: &mut Random, value: &[u8]) -> Vec<u8> {
    let class = random.pick(&CLASSES).name;
    let many = |count: usize| format!("[:{class}:]").repeat(count);
    match random.below(4) {
        0 => format!("[{}]", many(random.between(20, 160))).into_bytes(),
        1 => format!("${{x#[{}_]}}", many(random.between(20, 160))).into_bytes(),
        2 => format!("[{}", many(random.between(5, 40))).into_bytes(),
        _ => format!("\"${{x%{}}}\"", format!("[[:{class}:]]").repeat(value.len())).into_bytes(),
    }
}
