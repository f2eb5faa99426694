//! The positional parameters of lines: which of them stand there and in what form, and what came of them in rows.

use std::collections::BTreeMap;
use std::fmt;

use crate::case::Lent;
use crate::image;
use crate::limits;
use crate::number::Number;
use crate::read::read;
use crate::seen::Seen;
use crate::tree::{Choice, Form, List, Parameter, Part, Word};

/// What may stand in a line; the first kinds are lists.
pub const KINDS: [&str; 18] = [
    "$@", "\"$@\"", "$*", "\"$*\"", "list in an operand", "$1 to $9", "${10} and on", "beyond the list", "$#",
    "length", "-", "?", "+", ":-", ":?", ":+", "removal", "in arithmetic",
];

const LISTS: usize = 4;

#[derive(Debug, Default)]
pub struct Positional {
    /// The lines that have `$@` or `$*`, by their parts or, if they are refused in reading, by their bytes; those of them that are read to their end,
    /// and those refused with 10.
    pub lists: usize,
    pub lists_read: usize,
    pub lists_refused: usize,
    /// The lines with a positional parameter, its length or a form on it.
    pub numbers: usize,
    /// By kind, the lines that have it and are read to their end.
    pub kinds: BTreeMap<&'static str, usize>,
    /// The lines in which quotes gave back their empty mark, and those with break marks in a row.
    pub given_back: usize,
    pub breaks: usize,
    /// Rows with break marks: of one unit less than a row may have, of as many, and of one more, which are refused.
    pub rows: [usize; 3],
    /// Lists that are lent: none, one, two to nine, more, and of them those with an empty parameter.
    pub lengths: [usize; 4],
    pub with_empty: usize,
}

impl Positional {
    /// Counts a line and its list, whatever became of them.
    pub fn add(&mut self, lent: &Lent, number: u8) {
        let words = read(&lent.line);
        let list = match &words {
            Ok(words) => Walk::of(words, 0).kinds[..LISTS].contains(&true),
            Err(_) => ["$@", "$*", "${@", "${*"].iter().any(|list| has(&lent.line, list.as_bytes())),
        };
        self.lists += usize::from(list);
        self.lists_refused += usize::from(list && number == Number::NotServed as u8);
        self.lists_read += usize::from(list && words.is_ok());
        if let Some(list) = image::fields(&lent.parameters) {
            let length = match list.len() {
                0 => 0,
                1 => 1,
                2..=9 => 2,
                _ => 3,
            };
            self.lengths[length] += 1;
            self.with_empty += usize::from(list.iter().any(Vec::is_empty));
        }
    }

    /// Counts what stands in a line that was walked, and what came of it.
    pub fn add_seen(&mut self, lent: &Lent, seen: &Seen) {
        let parameters = image::fields(&lent.parameters).unwrap_or_default().len();
        let walk = Walk::of(&read(&lent.line).unwrap_or_default(), parameters);
        self.numbers += usize::from(walk.numbers);
        for (kind, here) in KINDS.into_iter().zip(walk.kinds) {
            *self.kinds.entry(kind).or_default() += usize::from(here);
        }
        self.given_back += usize::from(seen.given_back > 0);
        self.breaks += usize::from(seen.rows.iter().any(|row| row.breaks > 0));
        for row in seen.rows.iter().filter(|row| row.breaks > 0) {
            if (limits::ROW - 1..=limits::ROW + 1).contains(&row.units) {
                self.rows[row.units + 1 - limits::ROW] += 1;
            }
        }
    }
}

fn has(line: &[u8], text: &[u8]) -> bool {
    line.windows(text.len()).any(|here| here == text)
}

/// Where a part stands.
#[derive(Clone, Copy, Default)]
struct Place {
    operand: bool,
    arithmetic: bool,
}

/// The kinds found in one line over so many parameters.
struct Walk {
    parameters: usize,
    kinds: [bool; KINDS.len()],
    numbers: bool,
}

impl Walk {
    fn of(words: &[Word], parameters: usize) -> Walk {
        let mut walk = Walk { parameters, kinds: [false; KINDS.len()], numbers: false };
        words.iter().for_each(|word| walk.parts(&word.parts, Place::default()));
        walk
    }

    fn found(&mut self, kind: &str) {
        let at = KINDS.iter().position(|known| *known == kind).expect("a kind that is listed");
        self.kinds[at] = true;
    }

    fn parts(&mut self, parts: &[Part], place: Place) {
        for part in parts {
            match part {
                Part::Quotes(inside) => self.parts(inside, place),
                Part::Arithmetic { text, .. } => self.parts(text, Place { arithmetic: true, ..place }),
                Part::List { list, quoted } => self.list(*list, *quoted, place),
                Part::Count { .. } => self.counted("$#", place),
                Part::Parameter { parameter, form, .. } => {
                    if let Parameter::Number(number) = parameter {
                        self.number(*number, form, place);
                    }
                    self.operand(form, place);
                }
                Part::Literal(_) | Part::Quoted(_) | Part::Tilde(_) => (),
            }
        }
    }

    fn list(&mut self, list: List, quoted: bool, place: Place) {
        self.found(match (list, quoted) {
            (List::At, false) => "$@",
            (List::At, true) => "\"$@\"",
            (List::Star, false) => "$*",
            (List::Star, true) => "\"$*\"",
        });
        if place.operand {
            self.found("list in an operand");
        }
    }

    fn counted(&mut self, kind: &str, place: Place) {
        self.found(kind);
        if place.arithmetic {
            self.found("in arithmetic");
        }
    }

    fn number(&mut self, number: usize, form: &Form, place: Place) {
        self.numbers = true;
        self.counted(if number < 10 { "$1 to $9" } else { "${10} and on" }, place);
        if number > self.parameters {
            self.found("beyond the list");
        }
        match form {
            Form::Plain => (),
            Form::Length => self.found("length"),
            Form::Removal { .. } => self.found("removal"),
            Form::Choice { choice, colon, .. } => self.found(match (choice, colon) {
                (Choice::Default, false) => "-",
                (Choice::Default, true) => ":-",
                (Choice::Demand, false) => "?",
                (Choice::Demand, true) => ":?",
                (Choice::Alternative, false) => "+",
                (Choice::Alternative, true) => ":+",
                (Choice::Store, _) => return,
            }),
        }
    }

    fn operand(&mut self, form: &Form, place: Place) {
        match form {
            Form::Plain | Form::Length => (),
            Form::Choice { operand, .. } | Form::Removal { operand, .. } => {
                self.parts(operand, Place { operand: true, ..place });
            }
        }
    }
}

impl fmt::Display for Positional {
    fn fmt(&self, out: &mut fmt::Formatter) -> fmt::Result {
        let Positional { lists, lists_read, lists_refused, numbers, kinds, given_back, breaks, .. } = self;
        let Positional { rows: [less, full, more], lengths: [none, one, few, many], with_empty, .. } = self;
        writeln!(out, "lines with `$@` or `$*` {lists}, of them read {lists_read}, refused with 10 {lists_refused}")?;
        writeln!(out, "lines with a numbered parameter {numbers}; with each kind:")?;
        for kind in KINDS {
            writeln!(out, "  {kind} {}", kinds.get(kind).copied().unwrap_or_default())?;
        }
        writeln!(out, "lines with quotes that gave back their mark {given_back}")?;
        writeln!(out, "lines with break marks {breaks}")?;
        writeln!(out, "rows with break marks of 2047 units {less}, of 2048 {full}, refused at 2049 {more}")?;
        writeln!(out, "lists of no parameters {none}, of one {one}, of 2 to 9 {few}, of more {many}")?;
        writeln!(out, "lists with an empty parameter {with_empty}")
    }
}
