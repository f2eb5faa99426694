//! The operands of a line that begin with a tilde: in which form and in which text, and whether it finds a directory.

use std::collections::BTreeMap;
use std::fmt;

use crate::case::Lent;
use crate::image;
use crate::limits;
use crate::read::{read, Setting};
use crate::tree::{Form, Part};

/// The signs of the forms that have an operand.
pub const SIGNS: [&str; 8] = ["-", "=", "?", "+", "#", "##", "%", "%%"];

/// How many operands begin with a tilde that is not quoted by itself.
#[derive(Debug, Default)]
pub struct Tildes {
    /// The lines that have one.
    pub lines: usize,
    /// By the form's sign: in bare text, in double-quoted text, in arithmetic.
    pub forms: BTreeMap<&'static str, [usize; 3]>,
    /// Those of operands read as bare text: found in the tables lent, not found, and no tilde by the bytes behind it.
    pub found: usize,
    pub not_found: usize,
    pub literal: usize,
    /// Directories of those found that make a row of one unit less than it may have, of as many, and of one more.
    pub long: [usize; 3],
}

impl Tildes {
    /// Counts the operands of a line; one that is refused in reading has none.
    pub fn add(&mut self, lent: &Lent) {
        let before = self.all();
        for word in read(&lent.line).unwrap_or_default() {
            self.walk(&word.parts, Setting::Bare, lent);
        }
        self.lines += usize::from(self.all() > before);
    }

    fn all(&self) -> usize {
        self.forms.values().flatten().sum()
    }

    fn walk(&mut self, parts: &[Part], text: Setting, lent: &Lent) {
        for part in parts {
            match part {
                Part::Quotes(inside) => self.walk(inside, text, lent),
                Part::Arithmetic { text, .. } => self.walk(text, Setting::Arithmetic, lent),
                Part::Parameter { form, quoted, .. } => {
                    self.form(form, if *quoted { Setting::Double } else { text }, lent);
                }
                _ => (),
            }
        }
    }

    fn form(&mut self, form: &Form, text: Setting, lent: &Lent) {
        let (operand, bare) = match form {
            Form::Plain | Form::Length => return,
            Form::Choice { operand, .. } => (operand, text == Setting::Bare),
            Form::Removal { operand, .. } => (operand, true),
        };
        let begins = match operand.first() {
            Some(Part::Tilde(_) | Part::Literal(b'~')) => true,
            Some(Part::Quoted(b'~')) => !bare,
            _ => false,
        };
        if begins {
            self.forms.entry(form.sign()).or_default()[text as usize] += 1;
        }
        match operand.first() {
            Some(Part::Tilde(login)) => self.look_up(login, lent),
            Some(Part::Literal(b'~')) => self.literal += 1,
            _ => (),
        }
        self.walk(operand, if bare { Setting::Bare } else { Setting::Double }, lent);
    }

    fn look_up(&mut self, login: &[u8], lent: &Lent) {
        let variables = lent.variables.get(..lent.used).and_then(image::variables);
        let (table, login) = match login {
            b"" => (variables, b"HOME".as_slice()),
            _ => (image::homes(&lent.homes), login),
        };
        let home = table.unwrap_or_default().into_iter().find(|(known, _)| known == login);
        let Some((_, directory)) = home else {
            self.not_found += 1;
            return;
        };
        self.found += 1;
        let units = 1 + directory.len();
        if (limits::ROW - 1..=limits::ROW + 1).contains(&units) {
            self.long[units + 1 - limits::ROW] += 1;
        }
    }
}

impl fmt::Display for Tildes {
    fn fmt(&self, out: &mut fmt::Formatter) -> fmt::Result {
        let Tildes { lines, forms, found, not_found, literal, long: [less, full, more] } = self;
        writeln!(
            out,
            "lines with an operand that begins with a tilde {lines}; in bare text, double quotes, arithmetic:"
        )?;
        for sign in SIGNS {
            let [bare, double, arithmetic] = forms.get(sign).copied().unwrap_or_default();
            writeln!(out, "  {sign:2} {bare}, {double}, {arithmetic}")?;
        }
        writeln!(out, "of those read as bare text found {found}, not found {not_found}, no login {literal}")?;
        writeln!(out, "directories of 2047 units {less}, of 2048 {full}, of 2049 {more}")
    }
}
