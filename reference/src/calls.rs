//! The three calls of document 01 and that of E9 over lent buffers. Each works on copies; buffers are written once it is accepted.

use std::borrow::Cow;

use crate::assignment;
use crate::expand::Expander;
use crate::image;
use crate::lent::Lent;
use crate::limits;
use crate::matching::matching_paths;
use crate::number::{Number, Refusal, ACCEPTED};
use crate::pattern::{self, Element, Purpose};
use crate::quoting::quoted_line;
use crate::read::read;
use crate::row::{bytes, Unit};
use crate::split::split;
use crate::tree::Word;

/// What a call gives back. `message` is the length of the message that was written, 0 on every number but 13. The quoter's used length and message
/// length are always 0, as it has neither variables nor a message buffer, and the output length of assignments is, as they have no output. Insertion and
/// deletion give the used length of the paths in place of the variables', and neither an output nor a message.
#[derive(Clone, Copy, Debug, PartialEq, Eq)]
pub struct Answer {
    pub number: u8,
    pub place: usize,
    pub length: usize,
    pub used: usize,
    pub message: usize,
}

/// The images that a call reads and leaves as they are, and the switch by which what is unset is refused where its value is asked for. Assignments do not look
/// at the paths.
#[derive(Clone, Copy, Debug)]
pub struct Tables<'a> {
    pub homes: &'a [u8],
    pub paths: &'a [u8],
    pub parameters: &'a [u8],
    pub shout: bool,
}

/// What an accepted call writes.
struct Written {
    out: Vec<u8>,
    variables: Vec<u8>,
}

/// The expander: a line into an image of fields.
pub fn expand(
    line: &[u8],
    variables: &mut [u8],
    used: usize,
    tables: Tables,
    work: &mut [u8],
    out: &mut [u8],
    message: &mut [u8],
) -> Answer {
    work.fill(0);
    let lent = tables.lent(line, variables, used, work);
    let written = expanded(&lent, out.len());
    answer(written, variables, used, out, message)
}

/// The normaliser: a line into a quoted line.
pub fn normalise(
    line: &[u8],
    variables: &mut [u8],
    used: usize,
    tables: Tables,
    work: &mut [u8],
    out: &mut [u8],
    message: &mut [u8],
) -> Answer {
    work.fill(0);
    let lent = tables.lent(line, variables, used, work);
    let written = expanded(&lent, limits::IMAGE).and_then(|written| {
        let out = quoted(&written.out, out.len())?;
        Ok(Written { out, ..written })
    });
    answer(written, variables, used, out, message)
}

/// Assignments: each word of the line sets a variable.
pub fn assign(
    line: &[u8],
    variables: &mut [u8],
    used: usize,
    tables: Tables,
    work: &mut [u8],
    message: &mut [u8],
) -> Answer {
    work.fill(0);
    let lent = Lent { paths: None, ..tables.lent(line, variables, used, work) };
    let written = assigned(&lent);
    answer(written, variables, used, &mut [], message)
}

/// The quoter: an image of fields into a quoted line.
pub fn quote(fields: &[u8], out: &mut [u8]) -> Answer {
    let written = quoted(fields, out.len()).map(|line| Written { out: line, variables: Vec::new() });
    answer(written, &mut [], 0, out, &mut [])
}

/// Writes what was accepted over the beginnings of the output and the variables, with zeros behind these up to the used length that was given. If it was
/// refused, writes as much of the message as there is room for.
fn answer(
    written: Result<Written, Refusal>,
    variables: &mut [u8],
    used: usize,
    out: &mut [u8],
    message: &mut [u8],
) -> Answer {
    match written {
        Ok(written) => {
            out[..written.out.len()].copy_from_slice(&written.out);
            let (length, new) = (written.out.len(), written.variables.len());
            variables[..new].copy_from_slice(&written.variables);
            variables[new..used.max(new)].fill(0);
            Answer { number: ACCEPTED, place: 0, length, used: new, message: 0 }
        }
        Err(Refusal { number, place, message: demanded }) => {
            let shown = demanded.len().min(message.len());
            message[..shown].copy_from_slice(&demanded[..shown]);
            Answer { number: number as u8, place, length: 0, used, message: shown }
        }
    }
}

impl<'a> Tables<'a> {
    fn lent(self, line: &'a [u8], variables: &'a [u8], used: usize, work: &[u8]) -> Lent<'a> {
        let Tables { homes, paths, parameters, shout } = self;
        Lent { line, variables, used, homes, paths: Some(paths), parameters, shout, work: work.len() }
    }
}

/// The expander's work: the numbers before reading, then reading, then the words from left to right.
fn expanded(lent: &Lent, out_length: usize) -> Result<Written, Refusal> {
    let tables = lent.check()?;
    let words = read(lent.line)?;
    let mut expander = tables.expander();
    let out = expand_words(&words, &mut expander, &tables.paths, out_length)?;
    Ok(Written { out, variables: expander.variables.image() })
}

/// The same of assignments; they write the variables alone.
fn assigned(lent: &Lent) -> Result<Written, Refusal> {
    let tables = lent.check()?;
    let assignments = assignment::read(lent.line)?;
    let mut expander = tables.expander();
    assignment::assign(&assignments, &mut expander)?;
    Ok(Written { out: Vec::new(), variables: expander.variables.image() })
}

/// The image of all fields, or the first word's fault.
fn expand_words(
    words: &[Word],
    expander: &mut Expander,
    paths: &[Vec<u8>],
    out_length: usize,
) -> Result<Vec<u8>, Refusal> {
    let room = out_length.min(limits::IMAGE);
    let mut out = image::empty();
    if out.len() > room {
        return Err(Number::NoRoomForOutput.at(0));
    }
    for word in words {
        let fields = expand_word(word, expander, paths);
        for field in fields.map_err(|number| expander.refusal(number, word.place))? {
            image::add_text(&mut out, &field);
        }
        if out.len() > room {
            return Err(Number::NoRoomForOutput.at(word.place));
        }
    }
    Ok(out)
}

/// The fields of one word; every field is checked for 19 before any goes to the output.
fn expand_word<'a>(word: &Word, expander: &mut Expander, paths: &'a [Vec<u8>]) -> Result<Vec<Cow<'a, [u8]>>, Number> {
    let row = expander.row(&word.parts)?;
    let mut fields = Vec::new();
    for field in split(row.units(), expander.variables.value(b"IFS")) {
        fields.extend(found(field, paths)?);
    }
    Ok(fields)
}

/// All matching paths in order, or the field's own bytes if it has nothing active or nothing matches.
fn found<'a>(field: &[Unit], paths: &'a [Vec<u8>]) -> Result<Vec<Cow<'a, [u8]>>, Number> {
    let pattern = pattern::read(field, Purpose::Paths)?;
    let mut found = Vec::new();
    if pattern.elements.iter().any(|element| !matches!(element, Element::Byte(_))) {
        found.extend(matching_paths(&pattern.elements, paths).into_iter().map(Cow::Borrowed));
    }
    if found.is_empty() {
        found.push(Cow::Owned(bytes(field)));
    }
    Ok(found)
}

/// The quoted line of an image of fields.
fn quoted(fields: &[u8], out_length: usize) -> Result<Vec<u8>, Refusal> {
    let fields = image::fields(fields).ok_or(Number::Fields.at(0))?;
    let line = quoted_line(&fields);
    if line.len() > out_length.min(limits::LINE) {
        return Err(Number::NoRoomForOutput.at(0));
    }
    Ok(line)
}
