//! Messages of `?` on a missing value, beside those that a shell writes to standard error behind its own name, the line and the parameter.

use std::fs;
use std::io;
use std::process::Stdio;

use super::lines::Lines;
use super::script::{is_harmless, is_harmless_value, script};
use super::{Folder, Given, Shell, Taken, NAMES, PATHS};
use crate::calls::{expand, Tables};
use crate::generate::lists::Setting;
use crate::generate::random::Random;
use crate::image::{self, of_texts};
use crate::limits;
use crate::number::Number;
use crate::read::read;
use crate::tree::{Choice, Form, Part};

/// A line of one word with a `?`, bare or in double quotes.
pub fn line(random: &mut Random) -> Vec<u8> {
    let (open, close, setting) = *random.pick(&[
        ("", "", Setting::Operand),
        ("", "", Setting::Operand),
        ("a", "", Setting::Operand),
        ("\"", "\"", Setting::DoubleOperand),
        ("\"a ", "b\"", Setting::DoubleOperand),
    ]);
    let demand = random.text(&["u?", "u:?", "w?", "w:?"]);
    let operand = Lines::new(random, false, false).operand_text(setting);
    [open.as_bytes(), b"${", &demand, &operand, b"}", close.as_bytes()].concat()
}

/// The message that the reference gives with 13.
pub fn demanded(line: &[u8], given: &Given) -> Option<Vec<u8>> {
    let texts: Vec<&Vec<u8>> = given.variables.iter().flat_map(|(key, value)| [key, value]).collect();
    let mut variables = of_texts(&texts);
    let used = variables.len();
    variables.resize(limits::IMAGE, 0);
    let (homes, paths, parameters) = (&image::empty(), &of_texts(&PATHS), &of_texts(&given.parameters));
    let tables = Tables { homes, paths, parameters, shout: false };
    let (work, out, mut message) = (&mut vec![0; limits::WORK_AREA], &mut [0; 9], vec![0; limits::ROW]);
    let answer = expand(line, &mut variables, used, tables, work, out, &mut message);
    message.truncate(answer.message);
    (answer.number == Number::Missing as u8).then_some(message)
}

impl Shell {
    /// What the shell writes to standard error if it fails at the line.
    pub fn complaint(self, folder: &Folder, line: &[u8], given: &Given) -> io::Result<Option<Vec<u8>>> {
        if !is_harmless(line) || !given.variables.values().all(|value| is_harmless_value(value)) {
            return Err(io::Error::other("a line that could run something is not run"));
        }
        let file = folder.script();
        fs::write(&file, script(line, given, &NAMES, Taken::Fields))?;
        let output = self.command(folder, &file).stdin(Stdio::null()).output()?;
        Ok((!output.status.success()).then_some(output.stderr))
    }

    /// Whether nothing is known by which the shell would give another message, which is not empty. Dash does not expand the operand of a removal on an unset
    /// name, so that a `?` in it demands nothing; bash takes an operand in double quotes as bare text, and splits bare expansions in one.
    pub fn demands_alike(self, line: &[u8]) -> bool {
        let words = read(line).unwrap_or_default();
        words.iter().all(|word| match self {
            Shell::Dash => !demands(&word.parts, false),
            Shell::Bash => is_quoted(&word.parts),
            _ => true,
        })
    }
}

/// Whether there is a `?` in the operand of a removal, or, in one, any `?`.
fn demands(parts: &[Part], in_removal: bool) -> bool {
    parts.iter().any(|part| match part {
        Part::Quotes(inside) | Part::Arithmetic { text: inside, .. } => demands(inside, in_removal),
        Part::Parameter { form: Form::Removal { operand, .. }, .. } => demands(operand, true),
        Part::Parameter { form: Form::Choice { choice, operand, .. }, .. } => {
            (in_removal && *choice == Choice::Demand) || demands(operand, in_removal)
        }
        _ => false,
    })
}

/// Whether each `?` of these parts is bare, and each expansion in its operand quoted.
fn is_quoted(parts: &[Part]) -> bool {
    parts.iter().all(|part| match part {
        Part::Parameter { form: Form::Choice { choice: Choice::Demand, operand, .. }, quoted, .. } => {
            !quoted && operand.iter().all(has_no_bare_expansion)
        }
        Part::Quotes(inside) => is_quoted(inside),
        _ => true,
    })
}

fn has_no_bare_expansion(part: &Part) -> bool {
    match part {
        Part::Parameter { form: Form::Plain | Form::Length, quoted, .. } => *quoted,
        Part::Parameter { .. } => false,
        Part::Count { quoted } | Part::Arithmetic { quoted, .. } => *quoted,
        Part::Quotes(inside) => inside.iter().all(has_no_bare_expansion),
        _ => true,
    }
}
