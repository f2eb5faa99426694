//! Lines made by document 01's grammar: words of pieces, with operands, quotes, patterns and arithmetic inside.

use super::expression;
use super::lists;
use super::random::Random;
use super::tables::NAMES;
use super::tildes::tilde;

const LITERALS: [&str; 24] = [
    "a", "b", "c", "x", "1", ".", "/", "-", "=", ":", "~", "!", "^", "]", "}", "{", ",", "%", "@", "abc", "a/b",
    ".hid", "\u{e9}", "+",
];
const WILD: [&str; 16] = [
    "*", "?", "[a-c]", "[!a]", "[abc]", "[]a]", "[a-]", "[c-a]", "[a", "[!", "*.b", "a?", "[a/b]", "[--a]", "*/*",
    "[a-c-e]",
];
const CLASSES: [&str; 16] = [
    "[[:a]", "[[:alpha:]]", "[a[.x]", "[[=", "[![:", "[a/[:x]", "[[:digit:]]", "[![:alnum:]]", "[[:punct:]b]*",
    "[[:lower:][:digit:]]", "[[:alpha:]", "[[:alpha:]-]", "[a-[:digit:]]", "[[:Alpha:]]", "[[:space:]/]",
    "*[[:print:]]",
];
const OPERAND_ONLY: [&str; 10] = [" ", "  ", "\t", "\n", "|", ";", "(", ")", "#", "<&>"];
const QUOTED: [&str; 14] = ["", "a", " ", "a b", "*", "?", "[a]", "\\", ":", "|", "#", "\n", "~", "}"];
const ESCAPES: [&str; 10] = ["\\a", "\\$", "\\`", "\\\"", "\\\\", "\\}", "\\*", "\\ ", "\\'", "\\~"];
const SPICE: [&str; 22] = [
    "$((1)`", "${x`", "${#x`", "${x:`", "`", "$0", "${@:", "$'a'", "$(", "$$", "|", "&", "(", "${", "${x.}", "${#x-}",
    "${}", "\\\n", "$((1)", "\"", "'", "${x:",
];
const FORMS: [&str; 13] = ["-", ":-", "=", ":=", "?", ":?", "+", ":+", "%", "%%", "#", "##", ":-"];

/// Where pieces stand: which bytes are bare there, and which quotes may open.
#[derive(Clone, Copy, PartialEq, Eq)]
pub enum Setting {
    Word,
    BareOperand,
    Double,
    DoubleOperand,
}

pub fn line(random: &mut Random) -> Vec<u8> {
    let words = *random.pick(&[1, 1, 1, 2, 2, 3, 4]);
    let mut line = Vec::new();
    for _ in 0..words {
        line.extend(if random.once_in(14) { deep(random) } else { word(random) });
        line.extend(random.text(&[" ", " ", " ", "  ", "\t", "\n", ""]));
    }
    line
}

pub fn word(random: &mut Random) -> Vec<u8> {
    let mut word = Vec::new();
    if random.once_in(9) {
        word.extend(tilde(random, false));
    }
    word.extend(pieces(random, 0, Setting::Word));
    word
}

pub fn name(random: &mut Random) -> Vec<u8> {
    match random.below(5) {
        0 => random.text(&["u", "w", "q_1"]),
        _ => random.text(&NAMES),
    }
}

/// An expansion nested 7, 8 or 9 deep, each level of any kind.
pub fn deep(random: &mut Random) -> Vec<u8> {
    let depth = random.between(7, 9);
    let (mut open, mut close) = (Vec::new(), Vec::new());
    for _ in 0..depth {
        let (opening, closing) = *random.pick(&[
            ("${u-", "}"),
            ("${u:-a", "}"),
            ("${w=", "b}"),
            ("${x%", "}"),
            ("$((1+", "))"),
            ("${e+", "}"),
            ("${u-\"", "\"}"),
        ]);
        open.extend_from_slice(opening.as_bytes());
        close.splice(0..0, closing.bytes());
    }
    let inside = random.text(&["", "a", "1", "$x", "'b'", "*"]);
    [open, inside, close].concat()
}

pub fn pieces(random: &mut Random, depth: usize, setting: Setting) -> Vec<u8> {
    let most = if depth == 0 { 4 } else { 3 };
    let count = random.below(most + 1);
    let mut text = Vec::new();
    for _ in 0..count {
        text.extend(piece(random, depth, setting));
    }
    text
}

fn piece(random: &mut Random, depth: usize, setting: Setting) -> Vec<u8> {
    let quoted = matches!(setting, Setting::Double | Setting::DoubleOperand);
    match random.below(29) {
        0..=5 => literal(random, setting),
        6..=8 if !quoted => random.text(&WILD),
        9..=10 if !quoted => quotes(random, depth),
        11 => random.text(&ESCAPES),
        12..=16 => [b"$".to_vec(), name(random)].concat(),
        17..=23 if depth < 4 => brace(random, depth + 1, quoted),
        24 if depth < 4 => [b"$((".to_vec(), expression::text(random, depth + 1), b"))".to_vec()].concat(),
        25 if random.once_in(5) => random.text(&SPICE),
        27 => lists::any(random, depth, quoted),
        26 if !quoted && random.once_in(2) => random.text(&CLASSES),
        _ => literal(random, setting),
    }
}

fn literal(random: &mut Random, setting: Setting) -> Vec<u8> {
    let literal = match setting {
        Setting::Word => random.text(&LITERALS),
        Setting::BareOperand if random.once_in(3) => random.text(&OPERAND_ONLY),
        Setting::BareOperand => random.text(&LITERALS),
        Setting::Double | Setting::DoubleOperand if random.once_in(3) => random.text(&["'", " ", "\\a", "*", "|", "$"]),
        Setting::Double | Setting::DoubleOperand => random.text(&LITERALS),
    };
    let operand = matches!(setting, Setting::BareOperand | Setting::DoubleOperand);
    if operand && literal == b"}" {
        return b"\\}".to_vec();
    }
    literal
}

fn quotes(random: &mut Random, depth: usize) -> Vec<u8> {
    if random.once_in(2) {
        return [b"'".to_vec(), random.text(&QUOTED), b"'".to_vec()].concat();
    }
    [b"\"".to_vec(), pieces(random, depth, Setting::Double), b"\"".to_vec()].concat()
}

/// `${...}`, whose operand is read as the setting around it asks.
pub fn brace(random: &mut Random, depth: usize, quoted: bool) -> Vec<u8> {
    let name = name(random);
    if random.once_in(8) {
        return [b"${#".to_vec(), name, b"}".to_vec()].concat();
    }
    if random.once_in(7) {
        return [b"${".to_vec(), name, b"}".to_vec()].concat();
    }
    let form = random.text(&FORMS);
    let removal = matches!(form[0], b'%' | b'#');
    let setting = if quoted && !removal { Setting::DoubleOperand } else { Setting::BareOperand };
    let operand = match random.below(12) {
        0 => tilde(random, true),
        1 => [tilde(random, true), pieces(random, depth, setting)].concat(),
        _ => pieces(random, depth, setting),
    };
    [b"${".to_vec(), name, form, operand, b"}".to_vec()].concat()
}
