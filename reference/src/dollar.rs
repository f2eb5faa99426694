//! Reading a `$`: a name, a positional parameter, their count or their list, `${...}`, `$((...))`, `$'...'`, a refusal, or the byte itself.

use crate::image::{begins_name, continues_name};
use crate::number::Number;
use crate::read::{BareEnd, DoubleEnd, Reader, Setting};
use crate::tree::{Choice, End, Extent, Form, List, Parameter, Part};

impl Reader<'_> {
    /// The part that begins at this `$`.
    pub(crate) fn dollar(&mut self, setting: Setting) -> Result<Part, Number> {
        let quoted = setting == Setting::Double;
        match self.peek(1) {
            Some(byte) if begins_name(byte) => {
                self.at += 1;
                Ok(Part::Parameter { parameter: Parameter::Name(self.name()), form: Form::Plain, quoted })
            }
            Some(digit @ b'1'..=b'9') => {
                self.at += 2;
                Ok(Part::Parameter { parameter: number(&[digit]), form: Form::Plain, quoted })
            }
            Some(b'(') if self.peek(2) == Some(b'(') => self.opened(|reader| {
                reader.at += 3;
                let text = reader.without_lists(Reader::arithmetic)?;
                Ok(Part::Arithmetic { text, quoted })
            }),
            Some(b'(') => Err(Number::CommandSubstitution),
            Some(b'{') => self.opened(|reader| {
                reader.at += 2;
                reader.brace(setting)
            }),
            Some(b'#') => {
                self.at += 2;
                Ok(Part::Count { quoted })
            }
            Some(byte @ (b'@' | b'*')) => {
                self.at += 1;
                Ok(Part::List { list: self.list(byte)?, quoted })
            }
            Some(b'?' | b'-' | b'$' | b'!' | b'0') => Err(Number::NotServed),
            Some(b'\'') if setting == Setting::Bare => self.escapes(),
            _ => {
                self.at += 1;
                Ok(if quoted { Part::Quoted(b'$') } else { Part::Literal(b'$') })
            }
        }
    }

    /// The longest name here; the caller has seen its first byte.
    pub(crate) fn name(&mut self) -> Vec<u8> {
        self.run(continues_name).to_vec()
    }

    /// The longest run of such bytes, which is passed over.
    fn run(&mut self, belongs: fn(u8) -> bool) -> &[u8] {
        let rest = &self.line[self.at..];
        let length = rest.iter().take_while(|&&byte| belongs(byte)).count();
        self.at += length;
        &rest[..length]
    }

    /// The list of this `@` or `*`, which is passed over, where it is served.
    fn list(&mut self, byte: u8) -> Result<List, Number> {
        if !self.lists {
            return Err(Number::NotServed);
        }
        self.at += 1;
        Ok(if byte == b'@' { List::At } else { List::Star })
    }

    /// The next byte inside a brace: the line's end is 7 there, a backquote 9 before any other fault.
    fn brace_byte(&self) -> Result<u8, Number> {
        match self.peek(0) {
            None => Err(Number::LineEnds),
            Some(b'`') => Err(Number::CommandSubstitution),
            Some(byte) => Ok(byte),
        }
    }

    /// The name or the number inside a brace.
    fn brace_parameter(&mut self) -> Result<Parameter, Number> {
        match self.brace_byte()? {
            byte if begins_name(byte) => Ok(Parameter::Name(self.name())),
            b'1'..=b'9' => Ok(number(self.run(|byte| byte.is_ascii_digit()))),
            _ => Err(Number::NotServed),
        }
    }

    /// What stands behind `${`, with its closing brace.
    fn brace(&mut self, setting: Setting) -> Result<Part, Number> {
        let quoted = setting == Setting::Double;
        match self.brace_byte()? {
            b'#' => {
                self.at += 1;
                self.length(quoted)
            }
            byte @ (b'@' | b'*') => {
                let list = self.list(byte)?;
                self.list_end()?;
                Ok(Part::List { list, quoted })
            }
            _ => {
                let parameter = self.brace_parameter()?;
                let form = self.form(&parameter, setting)?;
                Ok(Part::Parameter { parameter, form, quoted })
            }
        }
    }

    /// What stands behind `${#`: nothing, for the count, or the parameter whose length is asked for.
    fn length(&mut self, quoted: bool) -> Result<Part, Number> {
        if self.brace_byte()? == b'}' {
            self.at += 1;
            return Ok(Part::Count { quoted });
        }
        let parameter = self.brace_parameter()?;
        if self.brace_byte()? != b'}' {
            return Err(Number::Syntax);
        }
        self.at += 1;
        Ok(Part::Parameter { parameter, form: Form::Length, quoted })
    }

    /// The brace that closes `${@` or `${*`; every operator there is a parameter that is not served.
    fn list_end(&mut self) -> Result<(), Number> {
        let byte = self.brace_byte()?;
        self.at += 1;
        match byte {
            b'}' => Ok(()),
            b'%' | b'#' => Err(Number::NotServed),
            b':' => choice(self.brace_byte()?).and(Err(Number::NotServed)),
            _ => choice(byte).and(Err(Number::NotServed)),
        }
    }

    /// The form behind a name or a number, with its operand and closing brace.
    fn form(&mut self, parameter: &Parameter, setting: Setting) -> Result<Form, Number> {
        let byte = self.brace_byte()?;
        self.at += 1;
        match byte {
            b'}' => Ok(Form::Plain),
            b'%' => self.removal(End::Suffix, b'%'),
            b'#' => self.removal(End::Prefix, b'#'),
            b':' => {
                let choice = choice(self.brace_byte()?)?;
                self.at += 1;
                self.choice(parameter, choice, true, setting)
            }
            _ => self.choice(parameter, choice(byte)?, false, setting),
        }
    }

    /// One of `-=?+`; `=` stores, which a positional parameter does not, so it is refused before its operand is read.
    fn choice(&mut self, parameter: &Parameter, choice: Choice, colon: bool, setting: Setting) -> Result<Form, Number> {
        let operand = match choice {
            Choice::Default | Choice::Alternative => self.operand(setting)?,
            Choice::Store if matches!(parameter, Parameter::Number(_)) => return Err(Number::NotServed),
            Choice::Store | Choice::Demand => self.without_lists(|reader| reader.operand(setting))?,
        };
        Ok(Form::Choice { choice, colon, operand })
    }

    fn operand(&mut self, setting: Setting) -> Result<Vec<Part>, Number> {
        match setting {
            Setting::Bare => self.bare(BareEnd::Operand),
            Setting::Double | Setting::Arithmetic => self.double(DoubleEnd::Operand),
        }
    }

    fn removal(&mut self, end: End, sign: u8) -> Result<Form, Number> {
        let longest = self.peek(0) == Some(sign);
        self.at += usize::from(longest);
        let extent = if longest { Extent::Longest } else { Extent::Shortest };
        let operand = self.without_lists(|reader| reader.bare(BareEnd::Operand))?;
        Ok(Form::Removal { end, extent, operand })
    }
}

/// The positional parameter of these digits. A number of any size is one; no list is so long that it has the largest.
fn number(digits: &[u8]) -> Parameter {
    let tens = |number: usize, digit: &u8| number.saturating_mul(10).saturating_add(usize::from(digit - b'0'));
    Parameter::Number(digits.iter().fold(0, tens))
}

fn choice(byte: u8) -> Result<Choice, Number> {
    match byte {
        b'-' => Ok(Choice::Default),
        b'=' => Ok(Choice::Store),
        b'?' => Ok(Choice::Demand),
        b'+' => Ok(Choice::Alternative),
        _ => Err(Number::Syntax),
    }
}
