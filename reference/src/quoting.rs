//! The quoted line: each field in one of three ways of writing, which its bytes alone choose.

/// The quoted line of these fields, however long.
pub fn quoted_line(fields: &[Vec<u8>]) -> Vec<u8> {
    let fields: Vec<Vec<u8>> = fields.iter().map(|field| quoted_field(field)).collect();
    fields.join(&b' ')
}

/// The field as it is if it may stand bare, with escapes if it holds a control byte, and else in single quotes.
fn quoted_field(field: &[u8]) -> Vec<u8> {
    if stands_bare(field) {
        return field.to_vec();
    }
    if has_control(field) {
        return between(b"$'", field, escaped);
    }
    between(b"'", field, single_quoted)
}

/// Whether a field is not empty and holds only bytes that mean nothing to a reader.
pub fn stands_bare(field: &[u8]) -> bool {
    let bare = |byte: &u8| byte.is_ascii_alphanumeric() || b"._-/".contains(byte);
    !field.is_empty() && field.iter().all(bare)
}

/// Whether a field holds a byte below 32 or byte 127, which are the ASCII control bytes.
pub fn has_control(field: &[u8]) -> bool {
    field.iter().any(u8::is_ascii_control)
}

/// Each byte as it is written between the opening quote and the closing one.
fn between(open: &[u8], field: &[u8], written: fn(u8) -> Vec<u8>) -> Vec<u8> {
    let inside: Vec<u8> = field.iter().flat_map(|&byte| written(byte)).collect();
    [open, &inside, b"'"].concat()
}

fn single_quoted(byte: u8) -> Vec<u8> {
    match byte {
        b'\'' => b"'\\''".to_vec(),
        _ => vec![byte],
    }
}

/// A byte in `$'...'`; a control byte has three octal digits, so that a digit behind it is not one of them.
fn escaped(byte: u8) -> Vec<u8> {
    match byte {
        b'\\' | b'\'' => vec![b'\\', byte],
        _ if byte.is_ascii_control() => format!("\\{byte:03o}").into_bytes(),
        _ => vec![byte],
    }
}
