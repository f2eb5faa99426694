//! Expanding: the parts of a word, an operand or an arithmetic text become a row, each worked out before it is added.

use std::mem;

use crate::arithmetic;
use crate::image::Pair;
use crate::matching::remaining;
use crate::number::{Number, Refusal};
use crate::pattern::{self, Purpose};
use crate::row::{bytes, marked, Given, Mark, Row, Unit};
use crate::seen::{HeldTo, Seen, SeenDemand, SeenPattern, SeenRow, SeenSum, SeenUnset};
use crate::tree::{Choice, Form, List, Parameter, Part};
use crate::variables::Variables;

/// What expanding reads and, for the variables, changes; and the message of a `?` once one has refused.
pub struct Expander<'a> {
    pub variables: Variables,
    pub homes: &'a [Pair],
    pub parameters: &'a [Vec<u8>],
    pub message: Vec<u8>,
    pub seen: Seen,
}

impl Expander<'_> {
    pub fn row(&mut self, parts: &[Part]) -> Result<Row, Number> {
        let mut row = Row::default();
        self.add_parts(&mut row, parts)?;
        self.seen.rows.push(SeenRow::of(row.units()));
        Ok(row)
    }

    fn add_parts(&mut self, row: &mut Row, parts: &[Part]) -> Result<(), Number> {
        parts.iter().try_for_each(|part| self.add_part(row, part))
    }

    fn add_part(&mut self, row: &mut Row, part: &Part) -> Result<(), Number> {
        let given = match part {
            Part::Quotes(inside) => return self.add_quotes(row, inside),
            Part::Literal(byte) => marked(&[*byte], Mark::Literal).into(),
            Part::Quoted(byte) => marked(&[*byte], Mark::Quoted).into(),
            Part::Tilde(login) => self.tilde(login).into(),
            Part::Parameter { parameter, form, quoted } => self.parameter(parameter, form, mark(*quoted))?,
            Part::Count { quoted } => marked(self.parameters.len().to_string().as_bytes(), mark(*quoted)).into(),
            Part::List { list, quoted } => self.list(*list, *quoted),
            Part::Arithmetic { text, quoted } => {
                let text = bytes(self.row(text)?.units());
                self.seen.sums.push(SeenSum { text: text.clone(), variables: self.variables.clone() });
                let result = arithmetic::result(&text, &mut self.variables);
                if result == Err(Number::Unset) {
                    self.seen.unset.push(SeenUnset::Arithmetic);
                }
                let result = result?;
                marked(result.to_string().as_bytes(), mark(*quoted)).into()
            }
        };
        self.add(row, &given)
    }

    fn add(&mut self, row: &mut Row, given: &Given) -> Result<(), Number> {
        let added = row.add(given);
        if added.is_err() {
            self.seen.rows.push(SeenRow::of(&[row.units(), &given.units].concat()));
        }
        added
    }

    /// An empty mark and what is inside. If nothing came of that and a `$@` in it had no parameters, the mark is taken back.
    fn add_quotes(&mut self, row: &mut Row, inside: &[Part]) -> Result<(), Number> {
        self.add(row, &vec![Unit::Empty].into())?;
        let opened = row.units().len();
        row.had_no_parameters();
        self.add_parts(row, inside)?;
        if row.had_no_parameters() && row.units().len() == opened {
            row.take_back();
            self.seen.given_back += 1;
        }
        Ok(())
    }

    /// `"$*"` is joined by the first byte of IFS as it stands. All others break between parameters, in quotes with an empty mark behind.
    fn list(&self, list: List, quoted: bool) -> Given {
        let mark = mark(quoted);
        let between = match (list, quoted) {
            (List::Star, true) => {
                let ifs = self.variables.value(b"IFS").unwrap_or(b" ");
                marked(&ifs[..ifs.len().min(1)], mark)
            }
            (List::At, true) => vec![Unit::Break, Unit::Empty],
            (_, false) => vec![Unit::Break],
        };
        let texts: Vec<Vec<Unit>> = self.parameters.iter().map(|text| marked(text, mark)).collect();
        Given { units: texts.join(between.as_slice()), no_parameters: list == List::At && texts.is_empty() }
    }

    fn tilde(&self, login: &[u8]) -> Vec<Unit> {
        match self.home(login) {
            Some(directory) => {
                let mut units = vec![Unit::Empty];
                units.extend(marked(directory, Mark::Quoted));
                units
            }
            None => {
                let mut units = marked(b"~", Mark::Literal);
                units.extend(marked(login, Mark::Literal));
                units
            }
        }
    }

    pub fn home(&self, login: &[u8]) -> Option<&[u8]> {
        if login.is_empty() {
            return self.variables.value(b"HOME");
        }
        let home = self.homes.iter().find(|(known, _)| known == login);
        home.map(|(_, directory)| directory.as_slice())
    }

    fn parameter(&mut self, parameter: &Parameter, form: &Form, mark: Mark) -> Result<Given, Number> {
        if self.value(parameter).is_none() {
            let numbered = matches!(parameter, Parameter::Number(_));
            self.seen.unset.push(SeenUnset::Form { sign: form.sign(), numbered });
        }
        match form {
            Form::Plain => Ok(marked(self.asked(parameter)?, mark).into()),
            Form::Length => {
                let length = self.asked(parameter)?.len().to_string();
                Ok(marked(length.as_bytes(), mark).into())
            }
            Form::Choice { choice, colon, operand } => {
                let value = self.value(parameter);
                let missing = value.is_none_or(|value| *colon && value.is_empty());
                self.choose(parameter, *choice, missing, operand, mark)
            }
            Form::Removal { end, extent, operand } => {
                self.asked(parameter)?;
                let operand = self.row(operand)?;
                let held_to = HeldTo::Value(self.value_or_nothing(parameter).to_vec(), *end);
                self.seen.patterns.push(SeenPattern { units: operand.units().to_vec(), held_to });
                let pattern = pattern::read(operand.units(), Purpose::Removal)?;
                let value = self.value_or_nothing(parameter);
                Ok(marked(remaining(&pattern.elements, value, *end, *extent), mark).into())
            }
        }
    }

    fn value(&self, parameter: &Parameter) -> Option<&[u8]> {
        match parameter {
            Parameter::Name(name) => self.variables.value(name),
            Parameter::Number(number) => self.parameters.get(number - 1).map(Vec::as_slice),
        }
    }

    /// The value that a form asks for; what is unset may be refused here, for a removal before its operand is expanded.
    fn asked(&self, parameter: &Parameter) -> Result<&[u8], Number> {
        self.value(parameter).map_or_else(|| self.variables.unset(), Ok)
    }

    fn value_or_nothing(&self, parameter: &Parameter) -> &[u8] {
        self.value(parameter).unwrap_or_default()
    }

    fn choose(
        &mut self,
        parameter: &Parameter,
        choice: Choice,
        missing: bool,
        operand: &[Part],
        mark: Mark,
    ) -> Result<Given, Number> {
        match (choice, missing) {
            (Choice::Default, true) | (Choice::Alternative, false) => {
                let mut given = self.row(operand)?.given();
                given.units.iter_mut().for_each(as_expansion);
                Ok(given)
            }
            (Choice::Alternative, true) => Ok(Given::default()),
            (Choice::Demand, true) => Err(self.demanded(operand)),
            (Choice::Store, true) => {
                let value = bytes(self.row(operand)?.units());
                self.store(parameter, value)?;
                Ok(marked(self.value_or_nothing(parameter), mark).into())
            }
            (_, false) => Ok(marked(self.value_or_nothing(parameter), mark).into()),
        }
    }

    /// Why a `?` on a missing value refuses: its operand is expanded first, and what refuses that comes in place of 13. An inner `?` does too, with
    /// its own message.
    fn demanded(&mut self, operand: &[Part]) -> Number {
        let before = self.variables.clone();
        let row = self.row(operand);
        let tilde = matches!(operand.first(), Some(Part::Tilde(_)));
        let units = row.map(|row| row.units().to_vec());
        self.seen.demands.push(SeenDemand { operand: units.clone(), tilde, stored: self.variables != before });
        match units {
            Ok(units) => {
                self.message = bytes(&units);
                Number::Missing
            }
            Err(number) => number,
        }
    }

    /// The refusal that this number is at a word's place, with the message if a `?` gave it.
    pub fn refusal(&mut self, number: Number, place: usize) -> Refusal {
        Refusal { message: mem::take(&mut self.message), ..number.at(place) }
    }

    /// Sets a variable; reading has left no store under a number.
    fn store(&mut self, parameter: &Parameter, value: Vec<u8>) -> Result<(), Number> {
        match parameter {
            Parameter::Name(name) => self.variables.store(name, value),
            Parameter::Number(_) => Err(Number::NotServed),
        }
    }
}

fn mark(quoted: bool) -> Mark {
    if quoted {
        Mark::Quoted
    } else {
        Mark::Expansion
    }
}

/// A unit of the operand of `-` or `+`: bare literal bytes become E, all others stay.
fn as_expansion(unit: &mut Unit) {
    if let Unit::Byte(_, mark @ Mark::Literal) = unit {
        *mark = Mark::Expansion;
    }
}
