//! Positional parameters for lines on which the documents and POSIX agree.

use super::Given;
use crate::generate::random::Random;
use crate::read::read;
use crate::tree::{Choice, Form, List, Parameter, Part};

const TEXTS: [&str; 22] = [
    "", "", "a", "b", "a b", " a", "b ", "c  d", ":", "a:b", ":a", "b:", "*", "?b", "[a-c]", "a*", "d/*", "'", "x.y",
    "12", "^", "\ta\n",
];
const NUMBERS: [&str; 9] = ["1", "1", "2", "2", "3", "4", "9", "10", "12"];
const FORMS: [&str; 14] =
    ["-a", "-", ":-b", ":-a b", "+a", "+", ":+c", ":+a b", "%b", "%%b*", "#a", "##*a", "%?", "#\"$x\""];

/// None, one, a few or more than nine.
pub fn parameters(random: &mut Random) -> Vec<Vec<u8>> {
    let count = match random.below(8) {
        0 => 0,
        1..=2 => 1,
        3..=6 => random.between(2, 4),
        _ => random.between(9, 13),
    };
    (0..count).map(|_| random.text(&TEXTS)).collect()
}

/// A list where it is served, a number, a count, a length, or a form on a number.
pub fn piece(random: &mut Random, lists: bool, quoted: bool) -> Vec<u8> {
    let number = random.text(&NUMBERS);
    match random.below(12) {
        0..=3 if lists => random.text(&["$@", "$*", "${@}", "${*}"]),
        4..=6 if lists && !quoted => random.text(&["\"$@\"", "\"$*\"", "\"${@}\"", "\"a$@\"", "\"$@ b\"", "\"$*c\""]),
        7 => random.text(&["$#", "${#}"]),
        8 => [b"${#".to_vec(), number, b"}".to_vec()].concat(),
        9 => [b"${".to_vec(), number, random.text(&FORMS), b"}".to_vec()].concat(),
        _ => [b"${".to_vec(), number, b"}".to_vec()].concat(),
    }
}

/// What a word has, from the left, of what a shell may take otherwise.
#[derive(Clone, Copy, PartialEq, Eq)]
enum Met {
    QuotedList,
    /// One that does not stand alone in its quotes.
    QuotedListBeside,
    BareList,
    BareListInOperand,
    Bare,
    StoresIfs,
}

/// Whether the shells spread the lists of a line as the documents do. In these they do not:
/// - a word with a `$@` in quotes and a bare expansion: dash splits what stands behind, bash what stands before, otherwise;
/// - a line with a list that stores IFS: both join the list of the same word;
/// - a bare list, while IFS has a hard byte and a parameter is empty, or begins or ends with a byte of IFS: bash joins the list by that byte before it
///   splits, dash drops a hard delimiter that begins a parameter;
/// - a bare list in an operand, while IFS has no space or a parameter is empty: bash joins it by spaces, or with what stands before it;
/// - something beside a `$@` in its quotes, while IFS has a digit or there are no parameters: bash splits a length there, dash gives an empty field for
///   what gives no byte.
pub fn spreads_alike(line: &[u8], given: &Given) -> bool {
    let ifs = given.variables.get(b"IFS".as_slice()).map_or(b" \t\n".as_slice(), Vec::as_slice);
    let hard = ifs.iter().any(|byte| !b" \t\n".contains(byte));
    let delimits = |byte: Option<&u8>| byte.is_none_or(|byte| ifs.contains(byte));
    let open = given.parameters.iter().any(|text| delimits(text.first()) || delimits(text.last()));
    let empty = given.parameters.iter().any(Vec::is_empty);
    let digits = ifs.iter().any(u8::is_ascii_digit);
    let words = read(line).unwrap_or_default();
    let words: Vec<Vec<Met>> = words.iter().map(|word| met(&word.parts)).collect();
    let has = |wanted: Met| words.iter().any(|met| met.contains(&wanted));
    let stores = has(Met::StoresIfs) && (has(Met::QuotedList) || has(Met::BareList));
    !stores
        && words.iter().all(|met| {
            let bare = met.contains(&Met::BareList);
            let mixed = met.contains(&Met::QuotedList) && (bare || met.contains(&Met::Bare));
            let joined = (empty || !ifs.contains(&b' ')) && met.contains(&Met::BareListInOperand);
            let beside = (digits || given.parameters.is_empty()) && met.contains(&Met::QuotedListBeside);
            !mixed && !joined && !beside && !(hard && open && bare)
        })
}

/// Whether the line has a list.
pub fn has_list(line: &[u8]) -> bool {
    fn listed(parts: &[Part]) -> bool {
        parts.iter().any(|part| match part {
            Part::List { .. } => true,
            Part::Quotes(inside) => listed(inside),
            Part::Parameter { form: Form::Choice { operand, .. }, .. } => listed(operand),
            _ => false,
        })
    }
    read(line).unwrap_or_default().iter().any(|word| listed(&word.parts))
}

fn met(parts: &[Part]) -> Vec<Met> {
    let mut met = Vec::new();
    walk(parts, false, &mut met);
    met
}

fn walk(parts: &[Part], in_operand: bool, met: &mut Vec<Met>) {
    for part in parts {
        match part {
            Part::Quotes(inside) if matches!(inside[..], [Part::List { list: List::At, .. }]) => {
                met.push(Met::QuotedList)
            }
            Part::Quotes(inside) => walk(inside, in_operand, met),
            Part::List { list: List::At, quoted: true } => met.extend([Met::QuotedList, Met::QuotedListBeside]),
            Part::List { quoted: false, .. } => {
                met.push(Met::BareList);
                met.extend(in_operand.then_some(Met::BareListInOperand));
            }
            Part::Parameter { parameter, form, quoted } => {
                if !quoted {
                    met.push(Met::Bare);
                }
                walk_form(parameter, form, met);
            }
            Part::Arithmetic { quoted: false, .. } | Part::Count { quoted: false } => met.push(Met::Bare),
            _ => (),
        }
    }
}

fn walk_form(parameter: &Parameter, form: &Form, met: &mut Vec<Met>) {
    match form {
        Form::Choice { choice, operand, .. } => {
            if *choice == Choice::Store && *parameter == Parameter::Name(b"IFS".to_vec()) {
                met.push(Met::StoresIfs);
            }
            walk(operand, true, met);
        }
        Form::Removal { operand, .. } => walk(operand, true, met),
        Form::Plain | Form::Length => (),
    }
}
