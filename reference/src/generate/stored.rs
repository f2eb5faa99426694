//! The kinds of `counted` that one arithmetic text has: what its assignments stand in and come to, or why it is no tree.

use std::cmp::Ordering;

use super::counted::KINDS;
use super::sums::{Met, LONG};
use crate::arithmetic::{read_up_to, Tree, ASSIGNMENTS};
use crate::constant::of_value;
use crate::image::continues_name;
use crate::number::Number;
use crate::operation::{assigned, work_out};

impl Met {
    /// What an assignment that is worked out comes to.
    pub fn assignment(&mut self, sign: &str, name: &[u8], right: &Tree) -> Result<i64, Number> {
        self.chain(sign, right);
        if reads(right, name) {
            self.found("a right side that reads the name");
        }
        if stores(right, Some(name)) {
            self.found("a right side that stores under the name");
        }
        let right = self.tree(right);
        let before = self.variables.value(name).map(<[u8]>::to_vec);
        let number = of_value(before.as_deref().unwrap_or_default());
        let right = right.inspect_err(|_| {
            if sign != "=" && number.is_err() {
                self.found("a number of the right side before one of the name");
            }
        })?;
        let result = assigned(sign, name, right, &mut self.variables);
        match result {
            Ok(result) => self.stored(sign, name, before, result),
            Err(refused) => self.not_stored(sign, number, right, refused),
        }
        result
    }

    fn chain(&mut self, sign: &str, right: &Tree) {
        let Tree::Assignment(next, _, behind) = right else {
            return;
        };
        self.found(match **behind {
            Tree::Assignment(..) => "a chain of three or more",
            _ => "a chain of two",
        });
        if sign != *next {
            self.found("a chain of different signs");
        }
    }

    fn stored(&mut self, sign: &str, name: &[u8], before: Option<Vec<u8>>, result: i64) {
        let at = ASSIGNMENTS.iter().position(|known| *known == sign).expect("a sign that assigns");
        self.found(KINDS[at]);
        self.stored.push(name.to_vec());
        self.longest = self.longest.max(self.variables.image().len());
        if result == i64::MIN {
            self.found("the smallest number as a value");
        }
        let value = result.to_string().into_bytes();
        let Some(before) = before else {
            self.found("a new name");
            return if sign != "=" {
                self.found("an unset name that is read")
            };
        };
        if sign != "=" {
            match of_value(&before) {
                _ if before.is_empty() => self.found("an empty value that is read"),
                Ok(number) if number.to_string().into_bytes() != before => {
                    self.found("a value that was not its shortest text");
                }
                _ => (),
            }
        }
        match before.len().cmp(&value.len()) {
            Ordering::Greater => self.found("a value that shrinks"),
            Ordering::Less => self.found("a value that grows"),
            Ordering::Equal if before != value => self.found("another value of the same length"),
            Ordering::Equal => (),
        }
    }

    fn not_stored(&mut self, sign: &str, name: Result<i64, Number>, right: i64, refused: Number) {
        let of_name = sign != "=" && name.is_err();
        match refused {
            Number::NotANumber => self.found("15 of the name"),
            Number::Overflow if of_name => self.found("17 of the name"),
            Number::Overflow => self.found("17 of the operation"),
            Number::ZeroDivisor => self.found("18 of the operation"),
            Number::Unset => (),
            _ => self.found("20 of the store"),
        }
        if of_name && matches!(sign, "/=" | "%=") && right == 0 {
            self.found("a number of the name before 18");
        }
    }

    /// Where assignments stand in a tree that is worked out, and which of its operands sees them.
    pub fn around_assignments(&mut self, tree: &Tree) {
        let assigns = |tree: &Tree| matches!(tree, Tree::Assignment(..));
        match tree {
            Tree::Unary(_, operand) if assigns(operand) => self.found("an assignment as an operand"),
            Tree::Binary(_, left, right) => {
                if assigns(left) || assigns(right) {
                    self.found("an assignment as an operand");
                }
                if let Tree::Assignment(_, name, _) = &**right {
                    if reads(left, name) {
                        self.found("a left operand that the right one stores");
                    }
                }
                if let Tree::Assignment(_, name, _) = &**left {
                    if reads(right, name) {
                        self.found("a right operand that the left one stores");
                    }
                }
            }
            Tree::Conditional(condition, if_true, _) => {
                if assigns(condition) {
                    self.found("an assignment as an operand");
                }
                if assigns(if_true) {
                    self.found("an assignment between ? and :");
                }
            }
            _ => (),
        }
    }

    /// Assignments in a side of this operator; of one that is not needed, which number would have come.
    pub fn assignments_in_side(&mut self, of: &str, side: &Tree, needed: bool) {
        if !stores(side, None) {
            return;
        }
        self.found(match (needed, of) {
            (true, _) => "an assignment in a side that is needed",
            (false, "&&") => "an assignment in a side that is not needed of &&",
            (false, "||") => "an assignment in a side that is not needed of ||",
            (false, _) => "an assignment in a side that is not needed of ?:",
        });
        if needed {
            return;
        }
        match work_out(side, &mut self.variables.clone()) {
            Err(Number::NotANumber) => self.found("15 of an assignment in such a side"),
            Err(Number::Overflow) => self.found("17 of an assignment in such a side"),
            Err(Number::ZeroDivisor) => self.found("18 of an assignment in such a side"),
            Err(Number::NoRoomForVariable) => self.found("20 of an assignment in such a side"),
            _ => (),
        }
    }

    pub fn long_assignments(&mut self, text: &[u8]) {
        let chained = ["a chain of two", "a chain of three or more"].iter().any(|kind| self.kinds.contains(kind));
        if text.len() >= LONG && chained {
            self.found("2,000 bytes of a chain");
        }
    }

    /// A text that is no tree: which left side was wrong, or what else was, behind an assignment.
    pub fn refused_assignment(&mut self, text: &[u8], number: Number) {
        let (before, sign) = read_up_to(text);
        let before = before.trim_ascii_end();
        match number {
            Number::ArithmeticSyntax if sign.is_some_and(|sign| ASSIGNMENTS.contains(&sign)) => {
                self.found(wrong_left_side(before, sign == Some("=")));
            }
            Number::ArithmeticSyntax if ends_with_assignment(before) => self.found("16 for want of a right side"),
            _ if !(0..=before.len()).any(|end| ends_with_assignment(&before[..end])) => (),
            Number::NotANumber => self.found("15 in reading behind an assignment"),
            Number::Overflow => self.found("17 in reading behind an assignment"),
            Number::TooDeep => self.found("12 in reading behind an assignment"),
            _ => (),
        }
    }
}

/// Whether the text ends with a sign that assigns, and not with `==`, `!=`, `<=` or `>=`.
fn ends_with_assignment(text: &[u8]) -> bool {
    match text {
        [.., b'=' | b'!' | b'<' | b'>', b'='] => false,
        [.., b'='] => true,
        _ => false,
    }
}

/// The kind of what stands before a sign that may not stand there; an operator and a `=` may be taken for one sign.
fn wrong_left_side(before: &[u8], equals: bool) -> &'static str {
    let name = before.iter().rev().take_while(|&&byte| continues_name(byte)).count();
    let (signs, name) = before.split_at(before.len() - name);
    let signs = signs.trim_ascii_end();
    let operand = |text: &[u8]| text.trim_ascii_end().last().is_some_and(|&byte| byte == b')' || continues_name(byte));
    match (signs, name) {
        (_, [first, ..]) if first.is_ascii_digit() => "16 at a sign behind a constant",
        ([.., b')'], []) => "16 at a sign behind a parenthesis",
        ([.., b'<', b'<'], []) if equals => "16 at the = of <<=",
        ([.., b'>', b'>'], []) if equals => "16 at the = of >>=",
        ([.., b'&', b'&'] | [.., b'|', b'|'], []) => "16 at a sign behind nothing",
        ([.., b'&'], []) if equals => "16 at the = of &=",
        ([.., b'^'], []) if equals => "16 at the = of ^=",
        ([.., b'|'], []) if equals => "16 at the = of |=",
        (_, []) if ends_with_assignment(signs) => "16 at a sign behind another",
        (_, []) => "16 at a sign behind nothing",
        ([.., b'&', b'&'] | [.., b'|', b'|'], _) => "16 at a sign behind && or || and a name",
        ([.., b':'], _) => "16 at a sign behind a : and a name",
        ([.., b'!' | b'~'], _) => "16 at a sign behind a sign and a name",
        ([rest @ .., b'+' | b'-'], _) if !operand(rest) => "16 at a sign behind a sign and a name",
        _ => "16 at a sign behind an operator and a name",
    }
}

/// Whether the tree reads the name.
fn reads(tree: &Tree, name: &[u8]) -> bool {
    match tree {
        Tree::Constant(_) => false,
        Tree::Name(here) => here == name,
        Tree::Unary(_, operand) => reads(operand, name),
        Tree::Binary(_, left, right) => reads(left, name) || reads(right, name),
        Tree::Conditional(condition, if_true, if_zero) => {
            [condition, if_true, if_zero].iter().any(|tree| reads(tree, name))
        }
        Tree::Assignment(sign, here, right) => (*sign != "=" && here == name) || reads(right, name),
    }
}

/// Whether the tree stores under the name, or under any.
pub fn stores(tree: &Tree, name: Option<&[u8]>) -> bool {
    match tree {
        Tree::Constant(_) | Tree::Name(_) => false,
        Tree::Unary(_, operand) => stores(operand, name),
        Tree::Binary(_, left, right) => stores(left, name) || stores(right, name),
        Tree::Conditional(condition, if_true, if_zero) => {
            [condition, if_true, if_zero].iter().any(|tree| stores(tree, name))
        }
        Tree::Assignment(_, here, right) => name.is_none_or(|name| here == name) || stores(right, name),
    }
}
