//! Cases about the quoter: fields about the border of what stands bare and of what has escapes, and quoted lines that are fed again.

use std::fmt;

use super::random::Random;
use super::tables::{self, Kind};
use crate::calls::expand;
use crate::case::{Call, Lent};
use crate::image::{self, of_texts};
use crate::limits;
use crate::number::ACCEPTED;
use crate::quoting::{has_control, quoted_line, stands_bare};

const BARE: [&str; 14] =
    ["p1.raw", "n/p2.raw", "base_07-b.dat", "a", "-v", "--", "-", ".", "..", "/", "_", "./-x", "0x1F", "AZaz09"];
/// The first and the last byte of each run of bytes that stand bare, and those next to them, with others that mean something in a line.
const INSIDE: &[u8] = b"-./09AZ_az";
const OUTSIDE: &[u8] = b",:@[^`{ \n\t'\"~#=*$\\+!%|;]}\x01\x7f\x80\xe9\xff";

/// The first and the last control byte of each run, those of a few names, and bytes next to them.
const CONTROL: &[u8] = b"\x01\x07\t\n\r\r\r\x1b\x1f\x7f\x7f";
const BESIDE_CONTROL: &[u8] = b" ~\x80'\\0178a\"$`\xff";

/// A field that stands bare, one that one byte keeps from it, one with control bytes, an empty one, or any value.
pub fn field(random: &mut Random) -> Vec<u8> {
    match random.below(12) {
        10..=11 => control(random),
        0 => Vec::new(),
        1..=3 => random.text(&BARE),
        4 => vec![*random.pick(INSIDE)],
        5 => vec![*random.pick(OUTSIDE)],
        6..=8 => {
            let mut field = random.text(&BARE);
            field.insert(random.below(field.len() + 1), *random.pick(OUTSIDE));
            field
        }
        _ => tables::value(random),
    }
}

/// Control bytes among such as escapes, digits or quotes are told from.
fn control(random: &mut Random) -> Vec<u8> {
    let byte = |random: &mut Random| match random.below(3) {
        0 => *random.pick(CONTROL),
        1 => *random.pick(BESIDE_CONTROL),
        _ => *random.pick(INSIDE),
    };
    let mut field: Vec<u8> = (0..random.below(7)).map(|_| byte(random)).collect();
    field.insert(random.below(field.len() + 1), *random.pick(CONTROL));
    field
}

pub fn fields(random: &mut Random) -> Vec<Vec<u8>> {
    (0..random.below(7)).map(|_| field(random)).collect()
}

/// A call of the quoter.
pub fn call(random: &mut Random) -> Call {
    let fields = match random.below(8) {
        0 => tables::malformed(random, Kind::Fields),
        _ => of_texts(&fields(random)),
    };
    let out = match random.once_in(2) {
        true => *random.pick(&[0, 1, 2, 5, 9, 20, 40, 100, 2_048, 8_192]),
        false => super::about(random, image::fields(&fields).map_or(0, |fields| quoted_line(&fields).len())),
    };
    Call::Quote { fields, out }
}

/// A quoted line, which must come back, over tables that have nothing to do with it.
pub fn fed_again(random: &mut Random, lent: &mut Lent) {
    lent.line = quoted_line(&fields(random));
}

/// What is among the fields that are quoted, and among the lines that come of them.
#[derive(Debug, Default)]
pub struct Quoting {
    /// Fields that stand bare, that are empty, that one byte keeps from standing bare, and all others.
    pub bare: usize,
    pub empty: usize,
    pub one_byte: usize,
    pub other: usize,
    /// Fields with a control byte, with several, with one and a quote or a backslash, and with one before a digit.
    pub control: usize,
    pub controls: usize,
    pub control_and_quote: usize,
    pub control_and_digit: usize,
    /// Lines of bare and quoted fields, and lines of all three ways of writing.
    pub mixed: usize,
    pub three_ways: usize,
    /// Lines of one byte less than a quoted line may have, of as many, and of one more, which are refused.
    pub lengths: [usize; 3],
}

impl Quoting {
    /// The fields of a quoter's call; a malformed image has none.
    pub fn add_image(&mut self, fields: &[u8]) {
        self.add(&image::fields(fields).unwrap_or_default());
    }

    /// The fields of a normaliser's call, if its line is accepted by the expander.
    pub fn add_line(&mut self, lent: &Lent) {
        let mut variables = lent.variables.clone();
        variables.resize(lent.variables_buffer, 0);
        let mut out = vec![0; limits::IMAGE];
        let mut work = vec![0; lent.work];
        let answer = expand(&lent.line, &mut variables, lent.used, lent.tables(), &mut work, &mut out, &mut []);
        if answer.number == ACCEPTED {
            self.add_image(&out[..answer.length]);
        }
    }

    fn add(&mut self, fields: &[Vec<u8>]) {
        for field in fields {
            let outside = field.iter().filter(|byte| !stands_bare(&[**byte])).count();
            *match (field.len(), outside) {
                (0, _) => &mut self.empty,
                (_, 0) => &mut self.bare,
                (_, 1) => &mut self.one_byte,
                _ => &mut self.other,
            } += 1;
            self.add_control(field);
        }
        let bare = fields.iter().filter(|field| stands_bare(field)).count();
        self.mixed += usize::from(0 < bare && bare < fields.len());
        let control = fields.iter().filter(|field| has_control(field)).count();
        self.three_ways += usize::from(0 < bare && 0 < control && bare + control < fields.len());
        let length = quoted_line(fields).len();
        if (limits::LINE - 1..=limits::LINE + 1).contains(&length) {
            self.lengths[length + 1 - limits::LINE] += 1;
        }
    }
}

impl Quoting {
    fn add_control(&mut self, field: &[u8]) {
        let control = |byte: &u8| byte.is_ascii_control();
        let count = field.iter().filter(|byte| control(byte)).count();
        self.control += usize::from(count > 0);
        self.controls += usize::from(count > 1);
        self.control_and_quote += usize::from(count > 0 && field.iter().any(|byte| b"'\\".contains(byte)));
        let digit = field.windows(2).any(|two| control(&two[0]) && two[1].is_ascii_digit());
        self.control_and_digit += usize::from(digit);
    }
}

impl fmt::Display for Quoting {
    fn fmt(&self, out: &mut fmt::Formatter) -> fmt::Result {
        let Quoting { bare, empty, one_byte, other, mixed, three_ways, lengths: [less, full, more], .. } = self;
        let Quoting { control, controls, control_and_quote, control_and_digit, .. } = self;
        writeln!(out, "fields quoted: bare {bare}, empty {empty}, one byte from bare {one_byte}, others {other}")?;
        writeln!(out, "fields with a control byte {control}, with several {controls}")?;
        writeln!(out, "fields with a control byte and a quote or backslash {control_and_quote}")?;
        writeln!(out, "fields with a control byte before a digit {control_and_digit}")?;
        writeln!(out, "quoted lines of bare and quoted fields {mixed}")?;
        writeln!(out, "quoted lines of all three ways {three_ways}")?;
        writeln!(out, "quoted lines of 2047 bytes {less}, of 2048 {full}, refused at 2049 {more}")
    }
}
