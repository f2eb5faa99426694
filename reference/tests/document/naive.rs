//! A matcher that tries everything, as the document says it: a star is tried with no byte, then with one more, and a bracket's search
//! is made anew for each `[`. It is slow, and held against the reference on short patterns and texts.

use crate::classes::DEFINITIONS;

#[derive(Clone, Debug, PartialEq, Eq)]
pub enum Element {
    Byte(u8),
    One,
    Any,
    Set(Vec<u8>),
}

/// Whether the pattern matches the whole text, by the rules of paths or without.
pub fn matches(pattern: &[Element], text: &[u8], paths: bool) -> bool {
    matches_from(pattern, 0, text, 0, paths)
}

fn matches_from(pattern: &[Element], place: usize, text: &[u8], at: usize, paths: bool) -> bool {
    let Some(element) = pattern.get(place) else {
        return at == text.len();
    };
    let taken = at < text.len() && takes(pattern, place, text, at, paths);
    match element {
        Element::Any => {
            matches_from(pattern, place + 1, text, at, paths)
                || taken && matches_from(pattern, place, text, at + 1, paths)
        }
        _ => taken && matches_from(pattern, place + 1, text, at + 1, paths),
    }
}

fn takes(pattern: &[Element], place: usize, text: &[u8], at: usize, paths: bool) -> bool {
    let byte = text[at];
    let starts = at == 0 || text[at - 1] == b'/';
    let first = place == 0 || pattern[place - 1] == Element::Byte(b'/');
    match &pattern[place] {
        Element::Byte(wanted) => byte == *wanted && (!paths || byte != b'.' || !starts || first),
        _ if paths && (byte == b'/' || byte == b'.' && starts) => false,
        Element::One | Element::Any => true,
        Element::Set(members) => members.contains(&byte),
    }
}

/// What remains of a value for `#`, `##`, `%` and `%%`.
pub fn remaining<'a>(pattern: &[Element], value: &'a [u8]) -> [&'a [u8]; 4] {
    let prefixes: Vec<usize> = (0..=value.len()).filter(|&cut| matches(pattern, &value[..cut], false)).collect();
    let suffixes: Vec<usize> = (0..=value.len()).filter(|&cut| matches(pattern, &value[cut..], false)).collect();
    let behind = |cut: Option<&usize>| &value[cut.copied().unwrap_or(0)..];
    let before = |cut: Option<&usize>| &value[..cut.copied().unwrap_or(value.len())];
    [behind(prefixes.first()), behind(prefixes.last()), before(suffixes.last()), before(suffixes.first())]
}

/// The pattern of a text whose bytes are all active, or nothing for 19.
pub fn read(text: &[u8], paths: bool) -> Option<Vec<Element>> {
    let mut pattern = Vec::new();
    let mut rest = text;
    while let [byte, behind @ ..] = rest {
        rest = behind;
        pattern.push(match byte {
            b'*' => Element::Any,
            b'?' => Element::One,
            b'[' => match bracket(behind, paths)? {
                Bracket::Closed(members, length) => {
                    rest = &behind[length..];
                    Element::Set(members)
                }
                Bracket::Unclosed => Element::Byte(b'['),
            },
            byte => Element::Byte(*byte),
        });
    }
    Some(pattern)
}

/// A member of a bracket: a byte or the name of a class.
#[derive(Clone, Copy)]
enum Member<'a> {
    Byte(u8),
    Class(&'a [u8]),
}

enum Bracket {
    /// The bytes that it takes, and its length behind the `[`.
    Closed(Vec<u8>, usize),
    Unclosed,
}

/// The bracket behind a `[`, or nothing for 19.
fn bracket(behind: &[u8], paths: bool) -> Option<Bracket> {
    let negated = behind.first() == Some(&b'!');
    let mut length = usize::from(negated);
    let mut members = Vec::new();
    let closed = loop {
        match &behind[length..] {
            [] => break false,
            [b'/', ..] if paths => break false,
            [b']', ..] if !members.is_empty() => break true,
            [b'[', b'.' | b'=', ..] => return None,
            [b'[', b':', name @ ..] => {
                let end = name.windows(2).position(|two| two == b":]")?;
                members.push(Member::Class(&name[..end]));
                length += end + 4;
            }
            [byte, ..] => {
                members.push(Member::Byte(*byte));
                length += 1;
            }
        }
    };
    let held = held(&members)?;
    let set = (0..=255).filter(|byte| held.contains(byte) != negated).collect();
    Some(if closed { Bracket::Closed(set, length + 1) } else { Bracket::Unclosed })
}

/// What the members hold, ranges from the left; nothing for an unknown class or one in a range.
fn held(members: &[Member]) -> Option<Vec<u8>> {
    let (bytes, rest) = match members {
        [] => return Some(Vec::new()),
        [Member::Byte(low), Member::Byte(b'-'), Member::Byte(high), rest @ ..] => ((*low..=*high).collect(), rest),
        [_, Member::Byte(b'-'), _, ..] => return None,
        [Member::Byte(byte), rest @ ..] => (vec![*byte], rest),
        [Member::Class(name), rest @ ..] => {
            let (_, definition) = DEFINITIONS.iter().find(|(known, _)| known.as_bytes() == *name)?;
            ((0..=255).filter(|byte| definition(*byte)).collect(), rest)
        }
    };
    Some([bytes, held(rest)?].concat())
}
