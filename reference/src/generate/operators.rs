//! Cases about the operators of arithmetic: expressions of all of them, sides that are not needed and have faults, shifts at the edges, signs about the
//! limit of 32, chains as long as a line or a row, and tokens in any order.

use super::random::Random;
use super::tables::{image, Table};
use crate::arithmetic::{LEVELS, UNARY};
use crate::case::Lent;

const NAMES: [&str; 6] = ["x", "y", "z", "n", "e", "v"];
const VALUES: [&str; 26] = [
    "", "0", "0", "1", "1", "-1", "2", "-7", "+7", "62", "63", "64", "0x3f", "010", "4611686018427387904",
    "-4611686018427387905", "9223372036854775807", "-9223372036854775808", "-0x8000000000000000",
    "9223372036854775808", "-9223372036854775809", "08", "1+1", " 1", "--1", "a",
];
const NUMBERS: [&str; 24] = [
    "0", "0", "0", "1", "1", "1", "2", "3", "4", "5", "7", "10", "31", "62", "63", "64", "0x1F", "010", "255",
    "2147483648", "4611686018427387904", "9223372036854775807", "0x7fffffffffffffff", "4294967295",
];
const BLANKS: [&str; 8] = ["", "", "", "", "", " ", "  ", "\t"];

/// What would stand at `F`: where it is not needed, where that hangs on a name, and where it is.
const SIDES: [&str; 38] = [
    "0&&F", "1||F", "1?2:F", "0?F:3", "0&&F", "1||F", "-1?2:F", "0?F:3", "0&&F||4", "1||F&&0", "1?0?F:5:6",
    "0?1:1?7:F", "0&&(1?F:2)", "(1||F)+1", "!(0&&F)", "~(0?F:1)", "0&&1&&F", "1||0||F", "0?F:0?F:9", "1?2:F?F:F",
    "0&&F+F", "1||F==F", "0&&F?F:8", "x&&F", "x||F", "x?1:F", "x?F:2", "n<0?F:8", "1&&F", "0||F", "1?F:2", "0?1:F",
    "0&F", "1|F", "F&&0", "F||1", "F?1:2", "0?F:F",
];
/// Faults of working out, and good texts.
const FAULTS: [&str; 20] = [
    "1/0", "1%0", "(1/0)", "1/e", "9223372036854775807+1", "1<<64", "1<<63", "1>>-1", "0<<64", "-2<<63",
    "-(-9223372036854775807-1)", "-9223372036854775807-2", "4611686018427387904*2", "v", "y", "-v", "!v", "~y", "3",
    "x",
];
/// Faults of reading, and expansions, which are made whatever becomes of the text.
const WRONG: [&str; 22] = [
    "08", "0x", "1a", "9_", "9223372036854775808", "0x8000000000000000", "01000000000000000000000", "1+", "", "1 1",
    ")", "(", "?", "1?2", "1:2", "!", "=", "$((1/0))", "${u?}", "${u=5}", "$v", "1 08",
];
/// Numbers and counts about which a shift is refused.
const SHIFTED: [i128; 16] = [
    0,
    1,
    -1,
    2,
    -2,
    3,
    -3,
    -7,
    (1 << 31) - 1,
    1 << 32,
    (1 << 62) - 1,
    1 << 62,
    -(1 << 62),
    -(1 << 62) - 1,
    (1 << 63) - 1,
    -(1 << 63),
];
const COUNTS: [i128; 16] = [-1, 0, 1, 2, 31, 32, 33, 61, 62, 63, 64, 65, 128, 1 << 32, (1 << 63) - 1, -(1 << 63)];

/// What is repeated, and what stands behind it; then what closes it, as often as it was repeated.
const CHAINS: [(&str, &str, &str); 24] = [
    ("1||", "0", ""),
    ("0||", "1", ""),
    ("1||", "1/0", ""),
    ("1&&", "2", ""),
    ("0&&", "1/0", ""),
    ("0||1&&", "v", ""),
    ("0?1:", "2", ""),
    ("1?2:", "3", ""),
    ("1?2:", "1/0", ""),
    ("0?v:", "08", ""),
    ("1?", "2", ":0"),
    ("0?", "2", ":1"),
    ("1?0?", "2", ":3:4"),
    ("0?", "0", ""),
    ("1?", "1:2", ""),
    ("1?n=", "2", ""),
    ("n=1?", "2", ""),
    ("1|", "2", ""),
    ("3&", "1", ""),
    ("1^", "1", ""),
    ("0<<1>>", "0", ""),
    ("!0&&", "1", ""),
    ("~0|", "1", ""),
    ("1==1||", "0", ""),
];
const TOKENS: [&str; 34] = [
    "1", "1", "1", "0", "2", "x", "x", "(", ")", "?", "?", ":", ":", "!", "~", "&", "|", "^", "&&", "||", "<<", ">>",
    "<", ">", "=", "!=", "==", "-", "+", "*", " ", "<<=", ",", "%",
];

/// A text in a line of its own, in quotes, in an operand, in another text, or from a variable, where its parentheses need not balance.
pub fn case(random: &mut Random, lent: &mut Lent) {
    let text = text(random);
    let mut table = variables(random);
    let (open, close) = *random.pick(&[
        ("$((", "))"),
        ("$((", "))"),
        ("$((", "))"),
        ("\"$((", "))\""),
        ("a ${u-$((", "))}"),
        ("$((1||$((", "))))"),
        ("b $((", ")) c"),
    ]);
    lent.line = match random.below(3) {
        0 => {
            table.insert(b"t".to_vec(), text);
            [open, "$t", close].concat().into_bytes()
        }
        _ => [open.as_bytes(), &text, close.as_bytes()].concat(),
    };
    lent.variables = image(&table);
    lent.used = lent.variables.len();
    lent.variables_buffer = lent.used + random.pick(&[4, 10, 100]);
}

/// A number, or what is none, under most of the names.
pub fn variables(random: &mut Random) -> Table {
    let named = NAMES.iter().filter(|_| !random.once_in(4)).collect::<Vec<_>>();
    named.iter().map(|name| (name.as_bytes().to_vec(), random.text(&VALUES))).collect()
}

pub fn text(random: &mut Random) -> Vec<u8> {
    match random.below(40) {
        0..=12 => expression(random, 4),
        13..=20 => sides(random),
        21..=25 => shift(random),
        26..=30 => signs(random),
        31..=35 => chain(random),
        _ => (0..random.between(1, 9)).flat_map(|_| random.text(&TOKENS)).collect(),
    }
}

fn expression(random: &mut Random, size: usize) -> Vec<u8> {
    if size == 0 || !random.once_in(3) {
        return operation(random, size);
    }
    let condition = operation(random, size - 1);
    let (first, last) = (expression(random, size - 1), expression(random, size - 1));
    [condition, b"?".to_vec(), first, b":".to_vec(), last].concat()
}

fn operation(random: &mut Random, size: usize) -> Vec<u8> {
    let mut text = operand(random, size);
    for _ in 0..random.below(4) {
        let level = *random.pick(&LEVELS);
        text.extend(random.text(&BLANKS));
        text.extend(random.text(level));
        text.extend(random.text(&BLANKS));
        text.extend(operand(random, size));
    }
    text
}

fn operand(random: &mut Random, size: usize) -> Vec<u8> {
    match random.below(12) {
        0..=1 => [random.text(&UNARY), random.text(&BLANKS), operand(random, size)].concat(),
        2..=3 if size > 0 => [b"(".to_vec(), expression(random, size - 1), b")".to_vec()].concat(),
        4..=5 => random.text(&NAMES),
        6 if random.once_in(6) => random.text(&WRONG),
        7..=8 => random.text(&NUMBERS),
        _ => random.text(&["0", "1", "2", "3", "6"]),
    }
}

/// A side with a fault, mostly one of working out.
fn sides(random: &mut Random) -> Vec<u8> {
    let mut text = Vec::new();
    for byte in random.text(&SIDES) {
        match byte {
            b'F' if random.once_in(5) => text.extend(random.text(&WRONG)),
            b'F' if random.once_in(8) => text.extend([b"(".to_vec(), sides(random), b")".to_vec()].concat()),
            b'F' => text.extend(random.text(&FAULTS)),
            _ => text.push(byte),
        }
    }
    text
}

/// Any edge by any count, or a number whose product is about the edge.
fn shift(random: &mut Random) -> Vec<u8> {
    let (number, count) = if random.once_in(2) {
        (*random.pick(&SHIFTED), *random.pick(&COUNTS))
    } else {
        let count = random.below(64);
        let about = i128::try_from(random.below(3)).expect("a small number") - 1;
        let size = (1i128 << (63 - count)) + about;
        let number = if random.once_in(2) { size } else { -size };
        (number, i128::try_from(count).expect("a count"))
    };
    let sign = random.text(&["<<", "<<", ">>"]);
    let behind = random.text(&["", "", "", ">>1", "<<1", "+0", "?1:2", "&&1"]);
    [written(number), sign, written(count), behind].concat()
}

/// A number as arithmetic has it, the smallest one too.
fn written(number: i128) -> Vec<u8> {
    let text = if number == i128::from(i64::MIN) { "(-9223372036854775807-1)".to_string() } else { number.to_string() };
    text.into_bytes()
}

/// Signs and parentheses about the limit, perhaps behind some that are complete, or in a side that is not needed.
fn signs(random: &mut Random) -> Vec<u8> {
    let mut text = random.text(&["", "", "", "!1+", "~(1)*", "0&&", "1?2:", "!0||"]);
    let mut close = Vec::new();
    for _ in 0..random.between(31, 34) {
        let sign = *random.pick(b"!!!~~~-+(");
        text.push(sign);
        if sign == b'(' {
            close.push(b')');
        }
    }
    [text, random.text(&["1", "0", "7", "x", "08", "", "1 1", "1?2:3"]), close].concat()
}

/// As long as a line or a row may be, or nearly so; blanks fill what is left.
fn chain(random: &mut Random) -> Vec<u8> {
    let (part, last, closing) = *random.pick(&CHAINS);
    let length = if random.once_in(4) { random.between(100, 1_000) } else { random.between(2_030, 2_050) };
    let count = (length - last.len()) / (part.len() + closing.len());
    let mut text = [part.repeat(count), last.to_string(), closing.repeat(count)].concat().into_bytes();
    text.resize(length, b' ');
    text
}
