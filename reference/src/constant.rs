//! Constants in their three bases, in arithmetic texts and in the values of names.

use crate::number::Number;

/// The size of a constant. Its form (15) is judged before its size; no size is 17 that a sign could still save.
fn size(constant: &[u8]) -> Result<u64, Number> {
    let (digits, base) = match constant {
        [b'0', b'x' | b'X', digits @ ..] => (digits, 16),
        [b'0', ..] => (constant, 8),
        _ => (constant, 10),
    };
    let digit = |&byte: &u8| char::from(byte).to_digit(base);
    let digits: Option<Vec<u32>> = digits.iter().map(digit).collect();
    let digits = digits.filter(|digits| !digits.is_empty());
    let digits = digits.ok_or(Number::NotANumber)?;
    let mut size: u64 = 0;
    for digit in digits {
        let shifted = size.checked_mul(u64::from(base));
        let next = shifted.and_then(|size| size.checked_add(u64::from(digit)));
        size = next.ok_or(Number::Overflow)?;
    }
    Ok(size)
}

/// A constant of an arithmetic text, which has no sign of its own.
pub fn constant(text: &[u8]) -> Result<i64, Number> {
    i64::try_from(size(text)?).map_err(|_| Number::Overflow)
}

/// The number a name's value stands for: an optional sign and a constant, nothing more.
pub fn of_value(value: &[u8]) -> Result<i64, Number> {
    let (negative, rest) = match value {
        [] => return Ok(0),
        [b'-', rest @ ..] => (true, rest),
        [b'+', rest @ ..] => (false, rest),
        _ => (false, value),
    };
    let size = i128::from(size(rest)?);
    let number = if negative { -size } else { size };
    i64::try_from(number).map_err(|_| Number::Overflow)
}
