//! Reading a line: one function for each kind of text (bare, double-quoted, arithmetic), each up to its own end.
//! All of them read the same `$` (see `dollar`); a place is added once, where the word is known.

use crate::image::is_login_byte;
use crate::limits;
use crate::number::{Number, Refusal};
use crate::tree::{Part, Word};

/// Where a text stands; an expansion in it is read and marked by that.
#[derive(Clone, Copy, Debug, PartialEq, Eq)]
pub enum Setting {
    Bare,
    Double,
    Arithmetic,
}

/// Where a bare text ends.
#[derive(Clone, Copy, PartialEq, Eq)]
pub enum BareEnd {
    /// Before a separator or at the line's end.
    Word,
    /// At `}`.
    Operand,
    /// Where a word does; it is the value of an assignment, in which a tilde may stand behind each `:` too.
    Value,
}

impl BareEnd {
    /// The bytes that end the login of a tilde in the text: a slash, what ends the text itself, and in a value a colon.
    fn login_ends(self) -> &'static [u8] {
        match self {
            BareEnd::Word => b"/ \t\n",
            BareEnd::Operand => b"/}",
            BareEnd::Value => b"/: \t\n",
        }
    }
}

/// Where a double-quoted text ends.
#[derive(Clone, Copy, PartialEq, Eq)]
pub enum DoubleEnd {
    Quote = b'"' as isize,
    Operand = b'}' as isize,
}

/// A line, how far it has been read, how many expansions are open, and whether `$@` and `$*` are served here.
pub struct Reader<'a> {
    pub(crate) line: &'a [u8],
    pub(crate) at: usize,
    pub(crate) open: usize,
    pub(crate) lists: bool,
    /// Each `$'` that began a text. They decide nothing here, but let the generator count its cases.
    pub(crate) escaped: Vec<SeenEscaped>,
}

/// The place of a `$'`, and how many expansions were open there.
#[derive(Clone, Copy, Debug)]
pub struct SeenEscaped {
    pub place: usize,
    pub open: usize,
}

/// All words of the line, or the first fault met from the left.
pub fn read(line: &[u8]) -> Result<Vec<Word>, Refusal> {
    Reader::new(line, true).words()
}

fn is_separator(byte: u8) -> bool {
    matches!(byte, b' ' | b'\t' | b'\n')
}

pub fn is_operator(byte: u8) -> bool {
    matches!(byte, b'|' | b'&' | b';' | b'<' | b'>' | b'(' | b')')
}

impl Reader<'_> {
    /// A reader at the start of a line.
    pub fn new(line: &[u8], lists: bool) -> Reader<'_> {
        Reader { line, at: 0, open: 0, lists, escaped: Vec::new() }
    }

    pub fn words(&mut self) -> Result<Vec<Word>, Refusal> {
        let mut words = Vec::new();
        while let Some(place) = self.next_word() {
            let parts = self.word().map_err(|number| number.at(place))?;
            words.push(Word { place, parts });
        }
        Ok(words)
    }

    /// The byte `ahead` of the next one, if the line has it.
    pub(crate) fn peek(&self, ahead: usize) -> Option<u8> {
        self.line.get(self.at + ahead).copied()
    }

    /// Passes over separators; where the next word begins, if there is one.
    pub(crate) fn next_word(&mut self) -> Option<usize> {
        while is_separator(self.peek(0)?) {
            self.at += 1;
        }
        Some(self.at)
    }

    fn word(&mut self) -> Result<Vec<Part>, Number> {
        if self.peek(0) == Some(b'#') {
            return Err(Number::Operator);
        }
        self.bare(BareEnd::Word)
    }

    /// The tilde that begins here, by the bytes of the line as written, if one of these or the line's end ends its login.
    fn tilde(&mut self, login_ends: &[u8]) -> Option<Part> {
        let behind = self.line[self.at..].strip_prefix(b"~")?;
        let length = behind.iter().take_while(|&&b| is_login_byte(b)).count();
        let next = behind.get(length);
        if !next.is_none_or(|byte| login_ends.contains(byte)) {
            return None;
        }
        self.at += 1 + length;
        Some(Part::Tilde(behind[..length].to_vec()))
    }

    /// Bare text to its end, a tilde at its start included; the `}` of an operand is passed over.
    pub(crate) fn bare(&mut self, end: BareEnd) -> Result<Vec<Part>, Number> {
        let mut parts: Vec<Part> = self.tilde(end.login_ends()).into_iter().collect();
        loop {
            let Some(byte) = self.peek(0) else {
                return match end {
                    BareEnd::Word | BareEnd::Value => Ok(parts),
                    BareEnd::Operand => Err(Number::LineEnds),
                };
            };
            match byte {
                b'`' => return Err(Number::CommandSubstitution),
                b'\'' => parts.push(self.single()?),
                b'"' => {
                    self.at += 1;
                    parts.push(Part::Quotes(self.double(DoubleEnd::Quote)?));
                }
                b'\\' => parts.push(self.bare_backslash()?),
                b'$' => parts.push(self.dollar(Setting::Bare)?),
                b'}' if end == BareEnd::Operand => {
                    self.at += 1;
                    return Ok(parts);
                }
                _ if end != BareEnd::Operand && is_separator(byte) => return Ok(parts),
                _ if end != BareEnd::Operand && is_operator(byte) => return Err(Number::Operator),
                _ => {
                    self.at += 1;
                    parts.push(Part::Literal(byte));
                    if end == BareEnd::Value && byte == b':' {
                        parts.extend(self.tilde(end.login_ends()));
                    }
                }
            }
        }
    }

    fn single(&mut self) -> Result<Part, Number> {
        let text = &self.line[self.at + 1..];
        let length = text.iter().position(|&byte| byte == b'\'');
        let length = length.ok_or(Number::LineEnds)?;
        self.at += length + 2;
        Ok(Part::Quotes(text[..length].iter().map(|&byte| Part::Quoted(byte)).collect()))
    }

    fn bare_backslash(&mut self) -> Result<Part, Number> {
        match self.peek(1) {
            None => Err(Number::LineEnds),
            Some(b'\n') => Err(Number::Syntax),
            Some(byte) => {
                self.at += 2;
                Ok(Part::Quoted(byte))
            }
        }
    }

    /// Double-quoted text to its end, which is passed over.
    pub(crate) fn double(&mut self, end: DoubleEnd) -> Result<Vec<Part>, Number> {
        let mut parts = Vec::new();
        loop {
            match self.peek(0).ok_or(Number::LineEnds)? {
                byte if byte == end as u8 => {
                    self.at += 1;
                    return Ok(parts);
                }
                b'"' => return Err(Number::Syntax),
                b'`' => return Err(Number::CommandSubstitution),
                b'\\' => parts.push(self.double_backslash(end)?),
                b'$' => parts.push(self.dollar(Setting::Double)?),
                byte => {
                    self.at += 1;
                    parts.push(Part::Quoted(byte));
                }
            }
        }
    }

    /// The byte a backslash quotes, or the backslash itself before any other byte.
    fn double_backslash(&mut self, end: DoubleEnd) -> Result<Part, Number> {
        let next = self.peek(1).ok_or(Number::LineEnds)?;
        if next == b'\n' {
            return Err(Number::Syntax);
        }
        let quotes = matches!(next, b'$' | b'`' | b'"' | b'\\') || (end == DoubleEnd::Operand && next == b'}');
        self.at += if quotes { 2 } else { 1 };
        Ok(Part::Quoted(if quotes { next } else { b'\\' }))
    }

    /// Arithmetic text to its `))`, which is passed over.
    pub(crate) fn arithmetic(&mut self) -> Result<Vec<Part>, Number> {
        let mut parts = Vec::new();
        let mut parentheses = 0;
        loop {
            let byte = self.peek(0).ok_or(Number::LineEnds)?;
            match byte {
                b'`' => return Err(Number::CommandSubstitution),
                b'\'' | b'"' | b'\\' => return Err(Number::Syntax),
                b'$' => {
                    parts.push(self.dollar(Setting::Arithmetic)?);
                    continue;
                }
                b')' if parentheses == 0 => {
                    self.arithmetic_end()?;
                    return Ok(parts);
                }
                b'(' => parentheses += 1,
                b')' => parentheses -= 1,
                _ => {}
            }
            self.at += 1;
            parts.push(Part::Literal(byte));
        }
    }

    fn arithmetic_end(&mut self) -> Result<(), Number> {
        match self.peek(1) {
            Some(b')') => {
                self.at += 2;
                Ok(())
            }
            Some(b'`') => Err(Number::CommandSubstitution),
            _ => Err(Number::Syntax),
        }
    }

    /// Reads the inside of `${` or `$((` with one more expansion open.
    pub(crate) fn opened<T>(&mut self, inside: impl FnOnce(&mut Self) -> Result<T, Number>) -> Result<T, Number> {
        if self.open == limits::OPEN_EXPANSIONS {
            return Err(Number::TooDeep);
        }
        self.open += 1;
        let read = inside(self)?;
        self.open -= 1;
        Ok(read)
    }

    /// Reads an operand or a text in which, at any depth, `$@` and `$*` are not served.
    pub(crate) fn without_lists<T>(
        &mut self,
        inside: impl FnOnce(&mut Self) -> Result<T, Number>,
    ) -> Result<T, Number> {
        let lists = std::mem::replace(&mut self.lists, false);
        let read = inside(self)?;
        self.lists = lists;
        Ok(read)
    }
}
