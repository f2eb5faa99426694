//! What stands in the texts of `$'...'`: each escape, how their digits end, bytes that mean something elsewhere, where the texts stand, and why they are refused.

use std::collections::{BTreeMap, BTreeSet};
use std::fmt;

use crate::case::{Job, Lent};
use crate::escape::LETTERS;
use crate::number::{Number, Refusal};
use crate::read::{Reader, SeenEscaped};

/// What a line may have that came to be read.
pub const KINDS: [&str; 42] = [
    "\\\"",
    "\\'",
    "\\\\",
    "\\a",
    "\\b",
    "\\e",
    "\\f",
    "\\n",
    "\\r",
    "\\t",
    "\\v",
    "one hexadecimal digit",
    "two hexadecimal digits",
    "two hexadecimal digits and one that is not theirs",
    "one octal digit",
    "two octal digits",
    "three octal digits",
    "three octal digits and one that is not theirs",
    "octal digits before an 8 or 9",
    "a byte from 128 by its number",
    "no bytes",
    "a byte from 128 as it is",
    "a control byte as it is",
    "a backquote",
    "a $",
    "a \"",
    "a }",
    "a * or ?",
    "a blank or an operator",
    "a text in a word",
    "a text in an operand",
    "a text under two open expansions",
    "a text in a value",
    "a $' that begins no text",
    "11 of a zero byte",
    "11 of an octal value above 255",
    "11 of \\x without a digit",
    "11 of an 8 or 9",
    "11 of another escape",
    "7 in a text",
    "7 behind a backslash",
    "7 behind \\x",
];

#[derive(Debug, Default)]
pub struct Escaped {
    /// The lines that have such a text, and those of them that can be read.
    pub lines: usize,
    pub read: usize,
    /// By kind, the lines that have it.
    pub kinds: BTreeMap<&'static str, usize>,
}

impl Escaped {
    /// Counts a line that came to be read.
    pub fn add(&mut self, job: Job, lent: &Lent) {
        let mut reader = Reader::new(&lent.line, job != Job::Assign);
        let read = match job {
            Job::Assign => reader.assignments().map(drop),
            _ => reader.words().map(drop),
        };
        let seen = reader.escaped;
        let mut found = BTreeSet::new();
        let dollars = lent.line.windows(2).filter(|two| two == b"$'").count();
        found.extend((dollars > seen.len()).then_some("a $' that begins no text"));
        for (at, text) in seen.iter().enumerate() {
            places(text, job, &mut found);
            let refusal = read.as_ref().err().filter(|_| at + 1 == seen.len());
            pieces(&lent.line[text.place + 2..], refusal, &mut found);
        }
        self.lines += usize::from(!seen.is_empty());
        self.read += usize::from(!seen.is_empty() && read.is_ok());
        for kind in found {
            assert!(KINDS.contains(&kind), "{kind} is listed");
            *self.kinds.entry(kind).or_default() += 1;
        }
    }
}

fn places(text: &SeenEscaped, job: Job, found: &mut BTreeSet<&'static str>) {
    found.insert(if text.open == 0 { "a text in a word" } else { "a text in an operand" });
    found.extend((text.open > 1).then_some("a text under two open expansions"));
    found.extend((job == Job::Assign).then_some("a text in a value"));
}

/// What a text has, which goes on behind this, up to its end or its fault; the last one of a line that is refused may be why.
fn pieces(mut rest: &[u8], refusal: Option<&Refusal>, found: &mut BTreeSet<&'static str>) {
    found.extend(rest.starts_with(b"'").then_some("no bytes"));
    let ends = refusal.is_some_and(|refusal| refusal.number == Number::LineEnds);
    loop {
        rest = match rest {
            [] => {
                found.extend(ends.then_some("7 in a text"));
                return;
            }
            [b'\'', ..] => return,
            [b'\\'] => {
                found.insert("7 behind a backslash");
                return;
            }
            [b'\\', behind @ ..] => match escape(behind, found) {
                Some(length) => &behind[length..],
                None => return,
            },
            [byte, behind @ ..] => {
                found.extend(plain(*byte));
                behind
            }
        }
    }
}

/// How long the escape behind a backslash is, unless it is refused.
fn escape(behind: &[u8], found: &mut BTreeSet<&'static str>) -> Option<usize> {
    let listed = LETTERS.iter().position(|(letter, _)| *letter == behind[0]);
    if let Some(at) = listed {
        found.insert(KINDS[at]);
        return Some(1);
    }
    match behind {
        [b'x'] => {
            found.insert("7 behind \\x");
            None
        }
        [b'x', digits @ ..] => Some(1 + number(digits, 16, 2, found)?),
        [b'0'..=b'7', ..] => number(behind, 8, 3, found),
        _ => {
            found.insert(if behind[0].is_ascii_digit() { "11 of an 8 or 9" } else { "11 of another escape" });
            None
        }
    }
}

/// How many digits stand here, unless they are refused.
fn number(text: &[u8], base: u32, most: usize, found: &mut BTreeSet<&'static str>) -> Option<usize> {
    let all = text.iter().map_while(|byte| char::from(*byte).to_digit(base)).collect::<Vec<_>>();
    let count = all.len().min(most);
    let value = all[..count].iter().fold(0, |value, digit| value * base + digit);
    let kind = match (value, base, count) {
        (_, _, 0) => "11 of \\x without a digit",
        (0, ..) => "11 of a zero byte",
        (256.., ..) => "11 of an octal value above 255",
        (_, 16, 1) => "one hexadecimal digit",
        (_, 16, _) => "two hexadecimal digits",
        (_, _, 1) => "one octal digit",
        (_, _, 2) => "two octal digits",
        _ => "three octal digits",
    };
    found.insert(kind);
    if kind.starts_with("11") {
        return None;
    }
    found.extend((value > 127).then_some("a byte from 128 by its number"));
    if all.len() > most {
        found.insert(match base {
            16 => "two hexadecimal digits and one that is not theirs",
            _ => "three octal digits and one that is not theirs",
        });
    }
    let eight = base == 8 && count < most && matches!(text.get(count), Some(b'8' | b'9'));
    found.extend(eight.then_some("octal digits before an 8 or 9"));
    Some(count)
}

fn plain(byte: u8) -> Option<&'static str> {
    match byte {
        128.. => Some("a byte from 128 as it is"),
        0..=31 | 127 => Some("a control byte as it is"),
        b'`' => Some("a backquote"),
        b'$' => Some("a $"),
        b'"' => Some("a \""),
        b'}' => Some("a }"),
        b'*' | b'?' => Some("a * or ?"),
        b' ' | b'|' | b'#' | b'(' | b')' => Some("a blank or an operator"),
        _ => None,
    }
}

impl fmt::Display for Escaped {
    fn fmt(&self, out: &mut fmt::Formatter) -> fmt::Result {
        writeln!(out, "lines with a text of escapes {}, that can be read {}", self.lines, self.read)?;
        for kind in KINDS {
            writeln!(out, "escapes with {kind} {}", self.kinds.get(kind).copied().unwrap_or_default())?;
        }
        Ok(())
    }
}
