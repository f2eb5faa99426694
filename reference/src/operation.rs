//! Working out a tree of arithmetic: left operand, right operand, operation; a side that is not needed is passed over. An assignment's right side comes
//! before its name.

use crate::arithmetic::Tree;
use crate::constant::of_value;
use crate::number::Number;
use crate::variables::Variables;

/// The counts by which a number of 64 bits may be shifted.
const COUNTS: std::ops::RangeInclusive<i64> = 0..=63;

/// What the tree comes to, or its first fault; assignments are stored as far as it comes.
pub fn work_out(tree: &Tree, variables: &mut Variables) -> Result<i64, Number> {
    match tree {
        Tree::Constant(number) => Ok(*number),
        Tree::Name(name) => of_value(variables.asked(name)?),
        Tree::Unary(sign, operand) => unary(sign, work_out(operand, variables)?),
        Tree::Binary("&&", left, right) => Ok(i64::from(holds(left, variables)? && holds(right, variables)?)),
        Tree::Binary("||", left, right) => Ok(i64::from(holds(left, variables)? || holds(right, variables)?)),
        Tree::Binary(sign, left, right) => {
            let left = work_out(left, variables)?;
            binary(sign, left, work_out(right, variables)?)
        }
        Tree::Conditional(condition, if_true, if_zero) => {
            let side = if holds(condition, variables)? { if_true } else { if_zero };
            work_out(side, variables)
        }
        Tree::Assignment(sign, name, right) => {
            let right = work_out(right, variables)?;
            assigned(sign, name, right, variables)
        }
    }
}

fn holds(tree: &Tree, variables: &mut Variables) -> Result<bool, Number> {
    work_out(tree, variables).map(|number| number != 0)
}

/// Reads the name unless the sign is `=`, and stores what it and the right side come to as its shortest decimal text.
pub fn assigned(sign: &str, name: &[u8], right: i64, variables: &mut Variables) -> Result<i64, Number> {
    let result = match sign.strip_suffix('=') {
        None | Some("") => right,
        Some(operator) => binary(operator, of_value(variables.asked(name)?)?, right)?,
    };
    variables.store(name, result.to_string().into_bytes())?;
    Ok(result)
}

pub fn unary(sign: &str, operand: i64) -> Result<i64, Number> {
    match sign {
        "-" => operand.checked_neg().ok_or(Number::Overflow),
        "!" => Ok(i64::from(operand == 0)),
        "~" => Ok(!operand),
        _ => Ok(operand),
    }
}

pub fn binary(sign: &str, left: i64, right: i64) -> Result<i64, Number> {
    if matches!(sign, "/" | "%") && right == 0 {
        return Err(Number::ZeroDivisor);
    }
    let result = match sign {
        "*" => left.checked_mul(right),
        "/" => left.checked_div(right),
        "%" => left.checked_rem(right),
        "+" => left.checked_add(right),
        "-" => left.checked_sub(right),
        "<<" | ">>" => shifted(sign, left, right),
        "<" => Some(i64::from(left < right)),
        "<=" => Some(i64::from(left <= right)),
        ">" => Some(i64::from(left > right)),
        ">=" => Some(i64::from(left >= right)),
        "==" => Some(i64::from(left == right)),
        "!=" => Some(i64::from(left != right)),
        "&" => Some(left & right),
        "^" => Some(left ^ right),
        _ => Some(left | right),
    };
    result.ok_or(Number::Overflow)
}

/// To the left the exact product with a power of two, which 128 bits always hold; to the right rounded down.
fn shifted(sign: &str, number: i64, count: i64) -> Option<i64> {
    if !COUNTS.contains(&count) {
        return None;
    }
    match sign {
        "<<" => i64::try_from(i128::from(number) << count).ok(),
        _ => Some(number >> count),
    }
}
