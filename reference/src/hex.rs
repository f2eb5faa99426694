//! Bytes in lower-case hexadecimal, `-` for none, as the vectors write them.

const DIGITS: &[u8; 16] = b"0123456789abcdef";

pub fn write(bytes: &[u8]) -> String {
    if bytes.is_empty() {
        return "-".to_string();
    }
    let digits = |&byte: &u8| [byte >> 4, byte & 15].map(|digit| DIGITS[usize::from(digit)]);
    bytes.iter().flat_map(digits).map(char::from).collect()
}

/// The bytes, or `None` if the text is not lower-case hexadecimal of whole bytes.
pub fn read(text: &str) -> Option<Vec<u8>> {
    if text == "-" {
        return Some(Vec::new());
    }
    let digit = |byte: u8| DIGITS.iter().position(|&digit| digit == byte);
    let pair = |two: &[u8]| match two {
        [high, low] => u8::try_from(digit(*high)? * 16 + digit(*low)?).ok(),
        _ => None,
    };
    text.as_bytes().chunks(2).map(pair).collect()
}
