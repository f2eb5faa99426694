//! Cases about brackets in quantity: unclosed ones by the hundred, with slashes between them or not, and closed ones of every make,
//! more than 16 and more than 600 in one pattern.

use std::collections::BTreeSet;

use super::focus::lend;
use super::random::Random;
use super::tables::Table;
use crate::case::Lent;
use crate::image::of_texts;

/// Pieces of a pattern, each with a text that it matches as long as no bracket is closed behind it.
const UNCLOSED: [(&str, &str); 12] = [
    ("[", "["),
    ("[", "["),
    ("[!", "[!"),
    ("[a-", "[a-"),
    ("[a", "[a"),
    ("[-", "[-"),
    ("[^", "[^"),
    ("[\u{e9}-", "[\u{e9}-"),
    ("[a-[", "[a-["),
    ("?", "x"),
    ("a", "a"),
    ("[!-", "[!-"),
];
/// Such as hold a `]`, which closes what is open before it.
const CLOSING: [(&str, &str); 7] = [
    ("[]", "[]"),
    ("[!]", "[!]"),
    ("[[:alpha:]", "[h"),
    ("[[:digit:]-", "[t-"),
    ("]", "]"),
    ("[]-", "[]-"),
    ("[[]", "["),
];
const REFUSED: [&str; 6] = ["[[:alpha:", "[[:", "[a[.", "[![=", "[[:alpha:]-a", "[[:Alpha:]"];
const OTHERS: &[u8] = b"abcxyz019_[:-\xe9\xff";

/// How many brackets stand in a pattern, how long a text is.
const COUNTS: [(usize, usize); 5] = [(1, 8), (1, 8), (17, 40), (17, 160), (601, 680)];

/// A pattern of many brackets, as a word or as the operand of a removal, from the line or from a variable, over texts that it matches or nearly.
pub fn case(random: &mut Random, lent: &mut Lent) {
    let (first, last) = *random.pick(&COUNTS);
    let count = random.between(first, last);
    let (mut pattern, text) = if random.once_in(2) { unclosed(random, count) } else { closed(random, count) };
    if count < 100 && random.once_in(3) {
        pattern.insert(random.below(2) * pattern.len(), b'*');
    }
    pattern.truncate(2_040);
    let carried = pattern.len() > 1_900 || random.once_in(2);
    let written = if carried { b"$p".to_vec() } else { pattern.clone() };
    let form = random.text(&["%", "%%", "#", "##"]);
    lent.line = match random.below(5) {
        0..=1 => written,
        2 => [b"${x".to_vec(), form, written, b"}".to_vec()].concat(),
        _ => [b"\"${x".to_vec(), form, written, b"}\"".to_vec()].concat(),
    };
    lent.paths = of_texts(&near(random, &text).into_iter().collect::<Vec<_>>());
    let value = [random.text(&["", "", "[", "ab"]), text, random.text(&["", "", "]", "ba"])].concat();
    let mut table = Table::from([(b"x".to_vec(), value), (b"p".to_vec(), pattern)]);
    if random.once_in(3) {
        table.insert(b"IFS".to_vec(), random.text(&["", "a", "!"]));
    }
    lend(lent, &table);
}

/// The text, and others that differ in one byte or in their length.
fn near(random: &mut Random, text: &[u8]) -> BTreeSet<Vec<u8>> {
    let mut texts = BTreeSet::from([text.to_vec(), b"a".to_vec()]);
    for _ in 0..random.below(6) {
        let mut other = text.to_vec();
        let at = random.below(text.len());
        match random.below(4) {
            0 => other.truncate(at.max(1)),
            1 => other.insert(at, *random.pick(OTHERS)),
            _ => other[at] = *random.pick(OTHERS),
        }
        texts.insert(other);
    }
    texts
}

/// Pieces of unclosed brackets and a text that they match, if nothing is closed.
fn unclosed(random: &mut Random, count: usize) -> (Vec<u8>, Vec<u8>) {
    let pieces = if random.once_in(2) { UNCLOSED.to_vec() } else { [UNCLOSED.as_slice(), &CLOSING].concat() };
    let slashes = *random.pick(&[1, 2, 5, 1_000]);
    let (mut pattern, mut text) = (Vec::new(), Vec::new());
    for _ in 0..count {
        let (piece, matched) = *random.pick(&pieces);
        let slash = if slashes < 1_000 && random.once_in(slashes) { b"/".as_slice() } else { b"" };
        pattern.extend([piece.as_bytes(), slash].concat());
        text.extend([matched.as_bytes(), slash].concat());
    }
    if random.once_in(10) {
        pattern.extend(random.text(&REFUSED));
    }
    (pattern, text)
}

/// As many closed brackets as the text has bytes, each of which takes its byte but for one in a hundred.
fn closed(random: &mut Random, count: usize) -> (Vec<u8>, Vec<u8>) {
    let short = if count > 600 { 40 } else { 1 };
    let text: Vec<u8> = (0..count).map(|_| *random.pick(OTHERS)).collect();
    let bracket = |random: &mut Random, byte: u8| {
        let byte = if random.once_in(100) { *random.pick(OTHERS) } else { byte };
        if random.once_in(short) && byte.is_ascii_alphanumeric() {
            taking(random, byte)
        } else {
            vec![b'[', byte, b']']
        }
    };
    (text.iter().flat_map(|&byte| bracket(random, byte)).collect(), text)
}

/// A bracket that takes the letter or digit.
fn taking(random: &mut Random, byte: u8) -> Vec<u8> {
    let (open, close): (&[u8], &[u8]) = match random.below(12) {
        0 => (b"[!-", b"\xff]"),
        1 => (b"[]", b"]"),
        2 => (b"[0-", b"]"),
        3 => (b"[", b"-\xff]"),
        4 => (b"[\x80-\xff", b"]"),
        5 => (b"[c-a", b"]"),
        6 => (b"[[:punct:]", b"]"),
        7 => return b"[[:alnum:]]".to_vec(),
        8 => return b"[!]\xe9]".to_vec(),
        9 => return b"[!\x80-\xff]".to_vec(),
        10 => return b"[!c-a]".to_vec(),
        _ => (b"[-", b"[]"),
    };
    [open, &[byte], close].concat()
}
