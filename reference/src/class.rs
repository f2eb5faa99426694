//! The twelve character classes of POSIX, with their members in the POSIX locale, as its definition of LC_CTYPE lists them.
//! Bytes from 128 are in none.

const UPPER: &[u8] = b"ABCDEFGHIJKLMNOPQRSTUVWXYZ";
const LOWER: &[u8] = b"abcdefghijklmnopqrstuvwxyz";
const DIGIT: &[u8] = b"0123456789";
/// Tab, newline, vertical tab, form feed, carriage return, space.
const SPACE: &[u8] = b"\t\n\x0b\x0c\r ";
/// The 32 bytes below space in order, NUL to US, and DEL.
const CNTRL: &[u8] = b"\x00\x01\x02\x03\x04\x05\x06\x07\x08\t\n\x0b\x0c\r\x0e\x0f\x10\x11\x12\x13\x14\x15\x16\x17\x18\
    \x19\x1a\x1b\x1c\x1d\x1e\x1f\x7f";
const PUNCT: &[u8] = b"!\"#$%&'()*+,-./:;<=>?@[\\]^_`{|}~";
const XDIGIT: &[u8] = b"0123456789ABCDEFabcdef";
const BLANK: &[u8] = b" \t";

/// A class: its name, and the lists of bytes that together are its members.
#[derive(Debug, PartialEq, Eq)]
pub struct Class {
    pub name: &'static str,
    members: &'static [&'static [u8]],
}

pub static CLASSES: [Class; 12] = [
    Class { name: "alnum", members: &[UPPER, LOWER, DIGIT] },
    Class { name: "alpha", members: &[UPPER, LOWER] },
    Class { name: "blank", members: &[BLANK] },
    Class { name: "cntrl", members: &[CNTRL] },
    Class { name: "digit", members: &[DIGIT] },
    Class { name: "graph", members: &[UPPER, LOWER, DIGIT, PUNCT] },
    Class { name: "lower", members: &[LOWER] },
    Class { name: "print", members: &[UPPER, LOWER, DIGIT, PUNCT, b" "] },
    Class { name: "punct", members: &[PUNCT] },
    Class { name: "space", members: &[SPACE] },
    Class { name: "upper", members: &[UPPER] },
    Class { name: "xdigit", members: &[XDIGIT] },
];

impl Class {
    /// The class of this name, byte for byte.
    pub fn named(name: &[u8]) -> Option<&'static Class> {
        CLASSES.iter().find(|class| class.name.as_bytes() == name)
    }

    pub fn holds(&self, byte: u8) -> bool {
        self.members().any(|member| member == byte)
    }

    pub fn members(&self) -> impl Iterator<Item = u8> {
        self.members.iter().copied().flatten().copied()
    }
}
