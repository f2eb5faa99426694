//! The script that has a shell expand one line: assignments and parameters in single quotes, `set --` and the line, then all results.
//! A line that could run anything is refused here, by its bytes alone, before any shell sees it.

use super::{Given, Taken};

/// Whether the line holds nothing a shell could run: no backquote, no `$(` but that of a closed `$((...))`, and
/// outside of these no operator and no newline. A byte behind a backslash is passed over, and so is the second `$`
/// of `$$`, which opens nothing.
pub fn is_harmless(line: &[u8]) -> bool {
    let mut at = 0;
    while at < line.len() {
        if line[at..].starts_with(b"$((") {
            match arithmetic_length(&line[at..]) {
                Some(length) => at += length,
                None => return false,
            }
        } else if line[at] == b'\\' || line[at..].starts_with(b"$$") {
            at += 2;
        } else if b"`|&;<>()\n".contains(&line[at]) {
            return false;
        } else {
            at += 1;
        }
    }
    true
}

/// How long the `$((...))` is that begins here, if its parentheses balance and the last two stand together; `None`
/// too if it holds a quote, a backslash, or a `[`, behind which bash would expand once more.
fn arithmetic_length(text: &[u8]) -> Option<usize> {
    let mut open = 0;
    for (at, byte) in text.iter().enumerate() {
        match byte {
            b'`' | b'\'' | b'"' | b'\\' | b'[' => return None,
            b'(' => open += 1,
            b')' => open -= 1,
            _ => {}
        }
        let command = text[at..].starts_with(b"$(") && !text[at..].starts_with(b"$((");
        if command || (open == 1 && *byte == b')' && text.get(at + 1) != Some(&b')')) {
            return None;
        }
        if open == 0 && *byte == b')' {
            return Some(at + 1);
        }
    }
    None
}

/// Whether a value holds nothing a shell could run when it reads the value again, as in arithmetic.
pub fn is_harmless_value(value: &[u8]) -> bool {
    !value.contains(&b'`') && !value.windows(2).any(|two| two == b"$(")
}

/// The script for a line that is harmless: it prints the number of fields, the fields, and each name's state. Assignments have no fields; should a word of
/// theirs be taken for a command, none is found.
pub fn script(line: &[u8], given: &Given, names: &[&str], taken: Taken) -> Vec<u8> {
    let mut script = b"unset IFS\n".to_vec();
    for (name, value) in &given.variables {
        script.extend([name, b"=".as_slice(), &quoted(value), b"\n"].concat());
    }
    let parameters = given.parameters.iter().flat_map(|text| [b" ".to_vec(), quoted(text)].concat());
    script.extend(b"set --".iter().copied().chain(parameters).chain(*b"\n"));
    if given.shout {
        script.extend(b"set -u\n");
    }
    match taken {
        Taken::Fields => {
            script.extend([b"set -- ", line, b"\n"].concat());
            script.extend(b"printf '%s\\0' \"$#\" \"$@\"");
        }
        Taken::Assignments => {
            script.extend([b"PATH=/none\n", line, b"\nPATH=/usr/bin\n"].concat());
            script.extend(b"printf '%s\\0' 0");
        }
    }
    for name in names {
        script.extend(format!(" \"${{{name}+set}}\" \"${{{name}-}}\"").bytes());
    }
    script.push(b'\n');
    script
}

/// A value in single quotes.
pub fn quoted(value: &[u8]) -> Vec<u8> {
    let mut quoted = vec![b'\''];
    for &byte in value {
        match byte {
            b'\'' => quoted.extend_from_slice(b"'\\''"),
            _ => quoted.push(byte),
        }
    }
    quoted.push(b'\'');
    quoted
}
