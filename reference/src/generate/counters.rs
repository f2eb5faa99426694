//! Arithmetic texts with assignments: what crews write, expressions of any shape, chains, sides, faults of each step, wrong left sides, and what cannot be read.

use super::random::Random;
use crate::arithmetic::{ASSIGNMENTS, LEVELS, UNARY};

/// Names that stand in the texts; some are always unset before.
pub const NAMES: [&str; 13] = ["n", "n", "n", "n", "n", "x", "x", "y", "A1", "e", "u", "w", "name_9"];
const NUMBERS: [&str; 16] =
    ["0", "1", "1", "2", "3", "5", "7", "9", "10", "12", "100", "010", "0x1F", "99999", "4611686018427387904", "8"];
const BLANKS: [&str; 8] = ["", "", "", "", "", " ", "\t", "\n"];

/// What crews write.
const COUNTERS: [&str; 30] = [
    "n=n+1", "n+=1", "n-=1", "n*=2", "n/=2", "n%=5", "n = n + 1", "n=0", "n+=n", "n-=n", "x=n", "x=-n", "n=-1",
    "x=y=n", "n=n<9?n+1:0", "n=!n", "u+=1", "e+=1", "u=u", "n=x=y=0", "n+=x*2", "(n+=1)%3", "n=(x=2)+(y=3)", "n+(n=5)",
    "(n=5)+n", "n+=n=5", "n*(n=n+1)+n", "n=n+(n=2)", "n-=n-=2", "w=-4611686018427387904*2",
];
/// Where an assignment `A` is needed or not.
const SIDES: [&str; 28] = [
    "0&&(A)", "1||(A)", "1?2:(A)", "0?A:3", "0?(A):3", "0&&(A)||4", "1||(A)&&0", "1?0?A:5:(A)", "0?A:1?6:(A)",
    "0&&(1?A:2)", "(1||(A))+n", "!(0&&(A))", "x&&(A)", "x||(A)", "x?A:(A)", "n<0?A:8", "1&&(A)", "0||(A)", "1?A:2",
    "0?1:(A)", "(A)&&(A)", "(A)||(A)", "(A)?A:(A)", "n=0?A:(A)", "0&(A)", "y=1?A:0", "0&&(A)+(A)", "e||1||(A)",
];
const FAULTY: [&str; 12] = [
    "v+=1", "v=1", "n/=0", "n%=e", "n=1/0", "w=9223372036854775807+1", "n=v", "y*=1<<64", "u/=u", "new_9=12345", "w=1",
    "n=x=u=1",
];
/// Faults of each step, some of two at once, and what is none although it looks like one.
const STEPS: [&str; 44] = [
    "v+=1", "v-=1", "v*=0", "v/=0", "v%=0", "v=1", "v=v", "v+=v=3", "v+=1/0", "v/=1%0", "v+=9223372036854775807+1",
    "over+=1", "over/=0", "over=2", "over-=1/0", "over*=over=2", "most+=1", "most*=2", "most-=-1", "most=most",
    "least-=1", "least/=-1", "least%=-1", "least*=-1", "least=least", "least/=1", "n-=least", "n/=0", "n%=0", "n/=e",
    "n/=n-n", "n%=u", "n=1/0", "n=v", "n=most+1", "(n=5)+1/0", "1/0+(n=5)", "(n=5)+v", "v+(n=5)", "(v=3)+v", "v+(v=3)",
    "n/=x=0", "n=least", "n=-most-1",
];
/// What may not stand before a sign; at `S` one of them stands.
const WRONG: [&str; 62] = [
    "S1", "(n)S1", "(n)S1", "((n))S1", "-nS1", "+nS2", "!nS1", "~nS1", "1+nS1", "n+nS1", "2*nS3", "n-xS1", "n<<nS1",
    "n==nS1", "n<xS1", "n|xS1", "n^xS2", "n&xS1", "a&&nS1", "0&&nS1", "0||nS1", "1||nS1", "1?n:xS2", "0?1:nS2",
    "1?2:nS3", "0?1:0?2:nS4", "5S1", "0x1FS1", "(1)S2", "(n=1)S2", "n=1S2", "n=(x)S1", "n=-xS1", "n=2*xS1", "n= S1",
    "n=S1", "n+= S1", "n<<=1", "n<<=x", "n>>=1", "n>>=n", "n&=1", "n&= n", "n^=1", "n^=x", "n|=1", "n|=8", "n&&S1",
    "n**S2", "n!S1", "n~S1", "n?S1:2", "n+ S1", "1?(n)S1:2", "1?-nS1:2", "n xS1", "n 1S1", "()S1", "$((n))S1",
    "${n}S1", "${#n}S1", "n,xS1",
];
/// Reading faults behind an assignment, and wants of a right side.
const UNREAD: [&str; 34] = [
    "n=", "n+=", "n= ", "n=x=", "n=)", "(n=", "(n=1", "n=1)", "n=*1", "n=08", "n+=0x", "n=x=1a", "n=1 08", "n=1 1 08",
    "n=9223372036854775808", "n-=-9223372036854775808", "n=x=0x8000000000000000", "v+=9223372036854775808",
    "n=01000000000000000000000", "0&&(n=9223372036854775808)", "n 08=1", "08=1", "(n)=08", "1=08", "-n=08", "=08",
    "n=1/0+9_", "1?n=1", "1?n=:2", "1?n=08:2", "n=1,2", "n=@", "1?n=1:", "0&&(n=08)",
];
const TOKENS: [&str; 26] = [
    "n", "n", "n", "x", "1", "1", "0", "=", "=", "=", "+=", "-=", "*=", "/=", "%=", "==", "<<=", "(", ")", "?", ":",
    "+", "-", "&&", "||", " ",
];

pub fn text(random: &mut Random) -> Vec<u8> {
    match random.below(52) {
        0..=9 => random.text(&COUNTERS),
        10..=19 => expression(random, 3),
        20..=24 => chain(random),
        25..=33 => sides(random),
        34..=38 => random.text(&STEPS),
        39..=46 => wrong(random),
        47..=48 => random.text(&UNREAD),
        49 => deep(random),
        _ => (0..random.between(2, 8)).flat_map(|_| random.text(&TOKENS)).collect(),
    }
}

fn expression(random: &mut Random, size: usize) -> Vec<u8> {
    match random.below(6) {
        0..=2 if size > 0 => assignment(random, size),
        3 if size > 0 => {
            let condition = operation(random, size - 1);
            let (first, last) = (expression(random, size - 1), operation(random, size - 1));
            [condition, b"?".to_vec(), first, b":".to_vec(), last].concat()
        }
        _ => operation(random, size),
    }
}

fn assignment(random: &mut Random, size: usize) -> Vec<u8> {
    let right = expression(random, size - 1);
    [random.text(&NAMES), random.text(&BLANKS), random.text(&ASSIGNMENTS), random.text(&BLANKS), right].concat()
}

fn operation(random: &mut Random, size: usize) -> Vec<u8> {
    let mut text = operand(random, size);
    for _ in 0..random.below(3) {
        let level = *random.pick(&LEVELS);
        text.extend([random.text(&BLANKS), random.text(level), random.text(&BLANKS), operand(random, size)].concat());
    }
    text
}

fn operand(random: &mut Random, size: usize) -> Vec<u8> {
    match random.below(12) {
        0 => [random.text(&UNARY), operand(random, size)].concat(),
        1..=5 if size > 0 => [b"(".to_vec(), expression(random, size), b")".to_vec()].concat(),
        6..=8 => random.text(&NAMES),
        _ => random.text(&NUMBERS),
    }
}

/// Names and signs, then an operand.
fn chain(random: &mut Random) -> Vec<u8> {
    let mut text = Vec::new();
    for _ in 0..random.between(2, 5) {
        let sign = if random.once_in(2) { b"=".to_vec() } else { random.text(&ASSIGNMENTS) };
        text.extend([random.text(&NAMES), sign].concat());
    }
    [text, random.text(&["1", "3", "n", "-7", "0", "n+1", "(n)", "12", "0?1:2", "x", "2", "1/0", "v", "08"])].concat()
}

/// A side with an assignment, or a fault in one.
fn sides(random: &mut Random) -> Vec<u8> {
    let mut text = Vec::new();
    for byte in random.text(&SIDES) {
        match byte {
            b'A' if random.once_in(3) => text.extend(random.text(&FAULTY)),
            b'A' if random.once_in(4) => text.extend(chain(random)),
            b'A' => text.extend(assignment(random, 1)),
            _ => text.push(byte),
        }
    }
    text
}

/// A wrong left side before any of the signs, by itself or within something good.
fn wrong(random: &mut Random) -> Vec<u8> {
    let text = random.text(&WRONG);
    let sign = if random.once_in(2) { b"=".to_vec() } else { random.text(&ASSIGNMENTS) };
    let text: Vec<u8> = text.iter().flat_map(|&byte| if byte == b'S' { sign.clone() } else { vec![byte] }).collect();
    let (open, close) =
        *random.pick(&[("", ""), ("", ""), ("", ""), ("x=", ""), ("(", ")"), ("0&&(", ")"), ("", "8"), ("n+(", ")")]);
    [open.as_bytes(), &text, close.as_bytes()].concat()
}

/// A chain as long as a line or a row may be, or nearly so; blanks fill what is left.
pub fn long(random: &mut Random) -> Vec<u8> {
    let part = random.text(&["n=", "n=", "x=y=", "n-=", "n+=0*", "u%=", "n=0?", "n=(1)?"]);
    let (last, close) = match part.last() {
        Some(b'?') => ("1", ":2"),
        _ => (*random.pick(&["1", "1", "n", "12", "0", "1/0", "08", "", "(n)=1"]), ""),
    };
    let length = if random.once_in(4) { random.between(60, 1_000) } else { random.between(2_036, 2_049) };
    let count = (length - last.len()) / (part.len() + close.len());
    let mut text = [part.repeat(count), last.into(), close.repeat(count).into_bytes()].concat();
    text.resize(length, b' ');
    text
}

/// Parentheses and signs about the limit of 32, assignments between them.
fn deep(random: &mut Random) -> Vec<u8> {
    let (mut text, mut close) = (Vec::new(), Vec::new());
    let mut open = random.between(31, 34);
    while open > 0 {
        match random.below(4) {
            0 => text.extend(b"-("),
            1 => text.extend(b"n=("),
            2 => text.extend(b"x+=("),
            _ => text.extend(b"("),
        }
        let signs = 1 + usize::from(text.ends_with(b"-("));
        open = open.saturating_sub(signs);
        close.push(b')');
    }
    [text, random.text(&["1", "n=1", "n", "08", "(n)=1", "-1"]), close].concat()
}
