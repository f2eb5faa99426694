//! `$'...'`: its text, in which a backslash begins an escape and every other byte is itself.

use crate::number::Number;
use crate::read::{Reader, SeenEscaped};
use crate::tree::Part;

/// The escapes of one byte behind the backslash, each with the byte that it gives.
pub const LETTERS: [(u8, u8); 11] = [
    (b'"', b'"'),
    (b'\'', b'\''),
    (b'\\', b'\\'),
    (b'a', 0x07),
    (b'b', 0x08),
    (b'e', 0x1b),
    (b'f', 0x0c),
    (b'n', b'\n'),
    (b'r', b'\r'),
    (b't', b'\t'),
    (b'v', 0x0b),
];

const MOST_HEXADECIMAL: usize = 2;
const MOST_OCTAL: usize = 3;

impl Reader<'_> {
    /// The quoted text that begins at this `$'`, to the `'` that ends it, which is passed over.
    pub(crate) fn escapes(&mut self) -> Result<Part, Number> {
        self.escaped.push(SeenEscaped { place: self.at, open: self.open });
        self.at += "$'".len();
        let mut parts = Vec::new();
        loop {
            let byte = self.peek(0).ok_or(Number::LineEnds)?;
            self.at += 1;
            match byte {
                b'\'' => return Ok(Part::Quotes(parts)),
                b'\\' => parts.push(Part::Quoted(self.escape()?)),
                _ => parts.push(Part::Quoted(byte)),
            }
        }
    }

    /// The byte of the escape behind a backslash.
    fn escape(&mut self) -> Result<u8, Number> {
        let first = self.peek(0).ok_or(Number::LineEnds)?;
        if first.is_ascii_digit() {
            return self.number(8, MOST_OCTAL);
        }
        self.at += 1;
        if first == b'x' {
            self.peek(0).ok_or(Number::LineEnds)?;
            return self.number(16, MOST_HEXADECIMAL);
        }
        let letter = LETTERS.iter().find(|(letter, _)| *letter == first);
        letter.map(|(_, byte)| *byte).ok_or(Number::Syntax)
    }

    /// The byte that the digits here say, as many as there are up to the most. None, the value 0 and one that no byte has are 11.
    fn number(&mut self, base: u32, most: usize) -> Result<u8, Number> {
        let digit = |byte: &u8| char::from(*byte).to_digit(base);
        let digits: Vec<u32> = self.line[self.at..].iter().take(most).map_while(digit).collect();
        self.at += digits.len();
        let value = digits.iter().fold(0, |value, digit| value * base + digit);
        u8::try_from(value).ok().filter(|byte| *byte != 0).ok_or(Number::Syntax)
    }
}
