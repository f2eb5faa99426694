//! What stands in the arithmetic texts of lines: the operators of E6, sides that are not needed, shifts at the edges, and how much is open.

use std::collections::{BTreeMap, BTreeSet};
use std::fmt;

use crate::arithmetic::{read, Tree};
use crate::number::Number;
use crate::operation::{binary, unary, work_out};
use crate::seen::SeenSum;
use crate::variables::Variables;

/// What a text may have.
pub const KINDS: [&str; 34] = [
    "!",
    "~",
    "<<",
    ">>",
    "&",
    "^",
    "|",
    "&&",
    "||",
    "?:",
    "a conditional between ? and :",
    "a conditional behind :",
    "a side that is not needed",
    "15 in such a side",
    "17 in such a side",
    "18 in such a side",
    "a count below 0",
    "a count of 0",
    "a count of 63",
    "a count of 64 or more",
    "a product out of range",
    "a product that is the smallest",
    "a product of 62 bits or more",
    ">> of a negative number",
    "the smallest number as result",
    "the largest number as result",
    "32 open, ! or ~ among them",
    "12, ! or ~ among them",
    "15 in reading beside a side",
    "16 beside a side",
    "17 in reading beside a side",
    "2,000 bytes of && or ||",
    "2,000 bytes of ?:",
    "2,000 bytes and 16 for a ? without its :",
];
pub const LONG: usize = 2_000;

#[derive(Debug, Default)]
pub struct Sums {
    /// The texts with an operator of E6 that were read to their end.
    pub texts: usize,
    /// By kind, the texts that have it.
    pub kinds: BTreeMap<&'static str, usize>,
}

impl Sums {
    pub fn add(&mut self, met: &Met) {
        self.texts += usize::from(KINDS[..10].iter().any(|sign| met.kinds.contains(sign)));
        for kind in KINDS {
            *self.kinds.entry(kind).or_default() += usize::from(met.kinds.contains(kind));
        }
    }
}

pub fn has(text: &[u8], sign: &str) -> bool {
    text.windows(sign.len()).any(|here| here == sign.as_bytes())
}

/// What is met in a text: its kinds, those of its assignments too, the names it stored under in order, the longest image on the way, and whether it came to
/// a number. Its assignments change the variables.
pub struct Met {
    pub variables: Variables,
    pub kinds: BTreeSet<&'static str>,
    pub stored: Vec<Vec<u8>>,
    pub longest: usize,
    pub worked_out: bool,
}

impl Met {
    pub fn of(sum: &SeenSum) -> Met {
        let variables = sum.variables.clone();
        let mut met = Met { variables, kinds: BTreeSet::new(), stored: Vec::new(), longest: 0, worked_out: false };
        match read(&sum.text) {
            Ok(tree) => met.text(&sum.text, &tree),
            Err(number) => {
                met.refused(&sum.text, number);
                met.refused_assignment(&sum.text, number);
            }
        }
        met
    }

    pub fn found(&mut self, kind: &'static str) {
        self.kinds.insert(kind);
    }

    fn text(&mut self, text: &[u8], tree: &Tree) {
        let result = self.tree(tree);
        self.worked_out = result.is_ok();
        match result {
            Ok(i64::MIN) => self.found("the smallest number as result"),
            Ok(i64::MAX) => self.found("the largest number as result"),
            _ => (),
        }
        self.long_assignments(text);
        let open = text.iter().take_while(|byte| b"(+-!~".contains(byte));
        if open.clone().count() == 32 && open.clone().any(|byte| b"!~".contains(byte)) {
            self.found("32 open, ! or ~ among them");
        }
        if text.len() >= LONG && (has(text, "&&") || has(text, "||")) {
            self.found("2,000 bytes of && or ||");
        }
        if text.len() >= LONG && has(text, "?") {
            self.found("2,000 bytes of ?:");
        }
    }

    /// A text that is no tree.
    fn refused(&mut self, text: &[u8], number: Number) {
        let beside = ["&&", "||", "?"].iter().any(|sign| has(text, sign));
        match number {
            Number::TooDeep if has(text, "!") || has(text, "~") => self.found("12, ! or ~ among them"),
            Number::NotANumber if beside => self.found("15 in reading beside a side"),
            Number::ArithmeticSyntax if beside => self.found("16 beside a side"),
            Number::Overflow if beside => self.found("17 in reading beside a side"),
            _ => (),
        }
        if text.len() >= LONG && number == Number::ArithmeticSyntax && has(text, "?") {
            self.found("2,000 bytes and 16 for a ? without its :");
        }
    }

    /// What a tree comes to, and what is met up to its first fault.
    pub fn tree(&mut self, tree: &Tree) -> Result<i64, Number> {
        self.around_assignments(tree);
        match tree {
            Tree::Constant(_) | Tree::Name(_) => work_out(tree, &mut self.variables),
            Tree::Unary(sign, operand) => {
                if matches!(*sign, "!" | "~") {
                    self.found(sign);
                }
                unary(sign, self.tree(operand)?)
            }
            Tree::Binary(sign @ ("&&" | "||"), left, right) => {
                self.found(sign);
                let decided = (self.tree(left)? == 0) == (*sign == "&&");
                let right = self.side(sign, right, !decided).transpose()?;
                Ok(right.map_or(i64::from(*sign == "||"), |right| i64::from(right != 0)))
            }
            Tree::Binary(sign, left, right) => {
                if KINDS[..10].contains(sign) {
                    self.found(sign);
                }
                let (left, right) = (self.tree(left)?, self.tree(right)?);
                if let "<<" | ">>" = *sign {
                    self.shift(sign, left, right);
                }
                binary(sign, left, right)
            }
            Tree::Conditional(condition, if_true, if_zero) => self.conditional(condition, if_true, if_zero),
            Tree::Assignment(sign, name, right) => self.assignment(sign, name, right),
        }
    }

    fn shift(&mut self, sign: &str, number: i64, count: i64) {
        match count {
            ..=-1 => return self.found("a count below 0"),
            64.. => return self.found("a count of 64 or more"),
            0 => self.found("a count of 0"),
            63 => self.found("a count of 63"),
            _ => (),
        }
        if sign == ">>" {
            return if number < 0 {
                self.found(">> of a negative number")
            };
        }
        match i64::try_from(i128::from(number) << count) {
            Err(_) => self.found("a product out of range"),
            Ok(i64::MIN) => self.found("a product that is the smallest"),
            Ok(product) if product.unsigned_abs() >= 1 << 61 => self.found("a product of 62 bits or more"),
            Ok(_) => (),
        }
    }

    fn conditional(&mut self, condition: &Tree, if_true: &Tree, if_zero: &Tree) -> Result<i64, Number> {
        self.found("?:");
        if matches!(if_true, Tree::Conditional(..)) {
            self.found("a conditional between ? and :");
        }
        if matches!(if_zero, Tree::Conditional(..)) {
            self.found("a conditional behind :");
        }
        let holds = self.tree(condition)? != 0;
        let (first, last) = (self.side("?:", if_true, holds), self.side("?:", if_zero, !holds));
        first.or(last).expect("one side is needed")
    }

    /// What a side comes to if it is needed; of one that is not, which number would have come.
    fn side(&mut self, of: &str, tree: &Tree, needed: bool) -> Option<Result<i64, Number>> {
        self.assignments_in_side(of, tree, needed);
        if needed {
            return Some(self.tree(tree));
        }
        self.found("a side that is not needed");
        match work_out(tree, &mut self.variables.clone()) {
            Err(Number::NotANumber) => self.found("15 in such a side"),
            Err(Number::Overflow) => self.found("17 in such a side"),
            Err(Number::ZeroDivisor) => self.found("18 in such a side"),
            _ => (),
        }
        None
    }
}

impl fmt::Display for Sums {
    fn fmt(&self, out: &mut fmt::Formatter) -> fmt::Result {
        writeln!(out, "texts with an operator of E6 {}", self.texts)?;
        for kind in KINDS {
            writeln!(out, "texts with {kind} {}", self.kinds.get(kind).copied().unwrap_or_default())?;
        }
        Ok(())
    }
}
