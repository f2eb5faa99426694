//! Arithmetic texts: random expressions over edge numbers, names and inner expansions, now and then a fault.

use super::grammar;
use super::random::Random;

const NUMBERS: [&str; 26] = [
    "0", "1", "2", "3", "7", "10", "010", "00", "0x1F", "0XfF", "100", "2147483648", "3037000500",
    "4611686018427387904", "4294967296", "9223372036854775806", "9223372036854775807", "0x7fffffffffffffff",
    "0777777777777777777777", "1", "5", "4", "12", "1000000007", "0x10", "6",
];

const BAD_NUMBERS: [&str; 9] = [
    "08", "0x", "1a", "9_", "0b1", "9223372036854775808", "0x8000000000000000", "01000000000000000000000",
    "99999999999999999999",
];

/// Where 64 bits end.
const EDGES: [&str; 18] = [
    "(-9223372036854775807-1)%-1", "(-9223372036854775807-1)/-1", "(-9223372036854775807-1)%1",
    "(-9223372036854775807-1)/0", "-(-9223372036854775807-1)", "-9223372036854775807-1", "-9223372036854775807-2",
    "-9223372036854775808", "9223372036854775807+1", "9223372036854775807*-1-1", "4611686018427387904*-2",
    "4611686018427387904*2", "3037000500*3037000500", "-1<<63", "1<<63", "-1>>63", "0<<64", "~9223372036854775807",
];
const OPERATORS: [&str; 18] =
    ["*", "/", "%", "+", "-", "<", "<=", ">", ">=", "==", "!=", "<<", ">>", "&", "^", "|", "&&", "||"];
const BAD_OPERATORS: [&str; 17] =
    ["=", "!", "&&&", "|||", "**", "<<=", "?", ":", ",", "", "@", "~", "===", "\\", "'", "\"", "$'"];
const ASSIGNMENTS: [&str; 8] = ["=", "=", "=", "+=", "-=", "*=", "/=", "%="];
const BLANKS: [&str; 8] = ["", "", "", "", " ", "  ", "\t", "\n"];

/// A text for `$((...))`, at this depth of open expansions.
pub fn text(random: &mut Random, depth: usize) -> Vec<u8> {
    match random.below(60) {
        0 => Vec::new(),
        1 => nested(random, b"(", b")"),
        2 => nested(random, b"-", b""),
        8 => nested(random, b"!", b""),
        9 => nested(random, b"~", b""),
        10..=12 => conditional(random, depth),
        3 => nested(random, b"+(", b")"),
        4 => many(random),
        7 => resumed(random),
        5..=6 => random.text(&EDGES),
        13..=16 => assignment(random, depth, 3),
        _ => sum(random, depth, 3),
    }
}

/// Signs or parentheses about the limit of 32.
fn nested(random: &mut Random, open: &[u8], close: &[u8]) -> Vec<u8> {
    let count = random.between(31, 34) / open.len();
    let inside = random.text(&["1", "08", "x", "", "1 1"]);
    [open.repeat(count), inside, close.repeat(count)].concat()
}

/// Parentheses about the limit of 32, with a sign open and complete between them.
fn resumed(random: &mut Random) -> Vec<u8> {
    let outer = random.between(1, 20);
    let inner = random.between(31, 34) - outer;
    let open = [b"(".repeat(outer), random.text(&["-1+", "(1)-"]), b"(".repeat(inner)].concat();
    [open, b"1".to_vec(), b")".repeat(outer + inner)].concat()
}

/// More signs or parentheses than may be open at once, but one after the other.
fn many(random: &mut Random) -> Vec<u8> {
    let part = random.text(&["-1+", "(1)-", "+2*"]);
    [part.repeat(random.between(31, 40)), b"1".to_vec()].concat()
}

/// A sum, and one of two more by what it comes to.
fn conditional(random: &mut Random, depth: usize) -> Vec<u8> {
    let [condition, first, last] = [1, 2, 2].map(|size| sum(random, depth, size));
    [condition, b"?".to_vec(), first, b":".to_vec(), last].concat()
}

/// A name that is assigned to.
fn assignment(random: &mut Random, depth: usize, size: usize) -> Vec<u8> {
    let sign = [random.text(&BLANKS), random.text(&ASSIGNMENTS), random.text(&BLANKS)].concat();
    [grammar::name(random), sign, sum(random, depth, size)].concat()
}

fn sum(random: &mut Random, depth: usize, size: usize) -> Vec<u8> {
    let mut text = operand(random, depth, size);
    for _ in 0..random.below(size + 1) {
        text.extend(random.text(&BLANKS));
        text.extend(if random.once_in(70) { random.text(&BAD_OPERATORS) } else { random.text(&OPERATORS) });
        text.extend(random.text(&BLANKS));
        text.extend(operand(random, depth, size));
    }
    text
}

fn operand(random: &mut Random, depth: usize, size: usize) -> Vec<u8> {
    match random.below(20) {
        0..=1 => [random.text(&["-", "+", "- ", "--", "!", "~"]), operand(random, depth, size)].concat(),
        2..=4 if size > 0 && random.once_in(8) => {
            [b"(".to_vec(), assignment(random, depth, size - 1), b")".to_vec()].concat()
        }
        2..=4 if size > 0 => [b"(".to_vec(), sum(random, depth, size - 1), b")".to_vec()].concat(),
        5..=7 => grammar::name(random),
        8 => [b"$".to_vec(), grammar::name(random)].concat(),
        9 if depth < 3 => grammar::brace(random, depth + 1, true),
        10 if depth < 3 && size > 0 => [b"$((".to_vec(), sum(random, depth + 1, size - 1), b"))".to_vec()].concat(),
        11 if random.once_in(4) => random.text(&BAD_NUMBERS),
        _ => random.text(&NUMBERS),
    }
}
