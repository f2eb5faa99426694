//! E12, the quoter's third way of writing: which fields have it, how each byte is written, how long lines are then, and that they come back.

use reference::image::{self, of_texts};
use reference::limits;
use reference::number::{Number, ACCEPTED};

use crate::support::World;

/// The quoted line of these fields in a buffer of this length, or the number of its refusal.
fn quoted_in<T: AsRef<[u8]>>(fields: &[T], out: usize) -> Result<Vec<u8>, u8> {
    let mut buffer = vec![0xa5; out];
    let answer = reference::quote(&of_texts(fields), &mut buffer);
    assert!(buffer[answer.length..].iter().all(|&byte| byte == 0xa5));
    buffer.truncate(answer.length);
    if answer.number == ACCEPTED {
        Ok(buffer)
    } else {
        Err(answer.number)
    }
}

#[track_caller]
fn quotes<T: AsRef<[u8]>>(fields: &[T], line: impl AsRef<[u8]>) {
    let quoted = quoted_in(fields, limits::LINE).map(|line| line.escape_ascii().to_string());
    assert_eq!(quoted, Ok(line.as_ref().escape_ascii().to_string()));
}

fn is_control(byte: u8) -> bool {
    byte < 32 || byte == 127
}

/// "The quoter writes a field that holds a byte below 32 or byte 127 in this form": each byte by itself, and at the front, in the middle and at the end.
#[test]
fn fields_with_control_bytes() {
    for byte in 1..=255u8 {
        for field in [vec![byte], vec![byte, b'a', b'b'], vec![b'a', byte, b'b'], vec![b'a', b'b', byte]] {
            let line = quoted_in(&[&field], 40).expect("a quoted line");
            assert_eq!(line.starts_with(b"$'"), is_control(byte), "{byte}");
            if is_control(byte) {
                let text = |byte: u8| if is_control(byte) { format!("\\{byte:03o}") } else { char::from(byte).into() };
                let inside: String = field.iter().map(|&byte| text(byte)).collect();
                assert_eq!(line, format!("$'{inside}'").as_bytes());
            }
        }
    }
}

/// "with `\\`, `\'`, and three octal digits for each such byte"; every other byte is itself, those from 128 too.
#[test]
fn bytes_in_this_form() {
    quotes(&["a\rb.raw"], "$'a\\015b.raw'");
    quotes(&["\n"], "$'\\012'");
    quotes(&["\x01\x02\x1f\x7f"], "$'\\001\\002\\037\\177'");
    quotes(&["it's\t"], "$'it\\'s\\011'");
    quotes(&["\\\t\\n'"], "$'\\\\\\011\\\\n\\''");
    quotes(&[b"\x1b\xe9\xff\x80".as_slice()], b"$'\\033\xe9\xff\x80'");
    quotes(&["\r\"$x`*?[a]~#|&;<>(){}\" "], "$'\\015\"$x`*?[a]~#|&;<>(){}\" '");
    quotes(&["\x010", "\x017", "\x01\x38", "\x0112"], "$'\\0010' $'\\0017' $'\\0018' $'\\00112'");
}

/// "the other fields as E2 left them", beside those of this form too.
#[test]
fn lines_of_three_ways() {
    quotes(&["cp", "it's", "a\rb", ""], "cp 'it'\\''s' $'a\\015b' ''");
    quotes(&["\t", "a b", "p1.raw"], "$'\\011' 'a b' p1.raw");
    quotes(&[" ", "~", "\\", "\u{e9}"], "' ' '~' '\\' '\u{e9}'");
    let world = World::recipes().set("c", "b\r07").path("p3\r.raw");
    assert_eq!(world.normalise("cp $c \"$job\" p*"), "cp $'b\\01507' 'north field' p1.raw p2.raw $'p3\\015.raw'");
    assert_eq!(world.normalise("$'a' $'a b' $'a\\tb' $''"), "a 'a b' $'a\\011b' ''");
}

/// The limit and the buffer are held to the bytes of the new line.
#[test]
fn lengths() {
    let no_room = Err(Number::NoRoomForOutput as u8);
    let length = |fields: &[String]| quoted_in(fields, 9_999).map(|line| line.len());
    let field = |controls: usize, others: usize| "\r".repeat(controls) + &"x".repeat(others);
    assert_eq!(length(&[field(511, 0)]), Ok(2_047));
    assert_eq!(length(&[field(511, 1)]), Ok(2_048));
    assert_eq!(length(&[field(511, 2)]), no_room);
    assert_eq!(length(&[field(512, 0)]), no_room);
    assert_eq!(length(&[field(1, 2_041)]), Ok(2_048));
    assert_eq!(length(&[field(1, 2_042)]), no_room);
    assert_eq!(length(&[field(1, 0) + &"'".repeat(1_020)]), Ok(2_047));
    assert_eq!(length(&[field(1, 0) + &"\\".repeat(1_021)]), no_room);
    for out in 0..9 {
        assert_eq!(quoted_in(&["\r'"], out), Err(Number::NoRoomForOutput as u8));
    }
    assert!(quoted_in(&["\r'"], 9).is_ok());
}

/// A world in which every byte that were not literal would show.
fn hostile() -> World {
    let world = World::empty().set("IFS", "\r\n\t015$'\\").set("HOME", "/no").set("x", "*").home("x", "/else");
    ["\r", "$", "a\rb", "015"].iter().fold(world, |world, path| world.path(path))
}

/// "Demand 3 holds over the three ways of writing."
#[test]
fn demand_3() {
    let every: Vec<u8> = (1..=255).collect();
    let each: Vec<Vec<u8>> = (1..=127).map(|byte| vec![byte]).collect();
    let lists: [Vec<Vec<u8>>; 6] = [
        vec![every],
        each,
        ["a", "a b", "a\rb", "", "'", "\r'", "\\", "\r\\"].map(Vec::from).to_vec(),
        ["\r0", "\r7", "\r8", "\r\r", "\x7f\x7f", "\x01\x31"].map(Vec::from).to_vec(),
        ["$'a'", "$'\r'", "~\n", "#\n", "\n#", "*\n"].map(Vec::from).to_vec(),
        vec![b"\xff\r".to_vec(), b"\r\xff".to_vec(), b"\xe9".to_vec(), b"\x80\x1f".to_vec()],
    ];
    for fields in lists {
        let line = quoted_in(&fields, limits::LINE).expect("a quoted line");
        assert!(!line.iter().any(|&byte| is_control(byte)));
        for world in [World::empty(), World::recipes(), hostile(), World::empty().parameters(&["a", "\r"])] {
            let given = world.expand(&line).map(|outcome| (outcome.fields, outcome.variables));
            let variables = image::variables(&world.variables_image()).expect("variables");
            assert_eq!(given, Ok((fields.clone(), variables)), "{}", line.escape_ascii());
            assert_eq!(world.normalise(&line).as_bytes(), String::from_utf8_lossy(&line).as_bytes());
        }
    }
}
