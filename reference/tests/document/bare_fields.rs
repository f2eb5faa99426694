//! E2, readable quoted lines: which fields stand bare, how long lines are then, and that they come back.

use reference::image::{self, of_texts};
use reference::limits;
use reference::number::{Number, ACCEPTED};

use crate::support::World;

/// The quoted line of these fields in a buffer of this length, or the number of its refusal.
fn quoted_in<T: AsRef<[u8]>>(fields: &[T], out: usize) -> Result<Vec<u8>, u8> {
    let mut buffer = vec![0xa5; out];
    let answer = reference::quote(&of_texts(fields), &mut buffer);
    assert!(buffer[answer.length..].iter().all(|&byte| byte == 0xa5));
    assert_eq!((answer.place, answer.used), (0, 0));
    buffer.truncate(answer.length);
    if answer.number == ACCEPTED {
        Ok(buffer)
    } else {
        Err(answer.number)
    }
}

#[track_caller]
fn quotes<T: AsRef<[u8]>>(fields: &[T], line: &str) {
    assert_eq!(
        quoted_in(fields, limits::LINE).map(|line| String::from_utf8_lossy(&line).into_owned()),
        Ok(line.into())
    );
}

#[test]
fn file_names_stand_bare() {
    quotes(&["cp", "p1.raw", "n/p1.raw", "base_07-b.dat"], "cp p1.raw n/p1.raw base_07-b.dat");
    quotes(&["-v", "--", ".", "..", "/", "-", "_", "0", "./-x"], "-v -- . .. / - _ 0 ./-x");
}

/// Each byte that E12 writes in no other way by itself, and at the front, in the middle and at the end of a name.
#[test]
fn letters_digits_and_four_more() {
    let bare = b"ABCDEFGHIJKLMNOPQRSTUVWXYZabcdefghijklmnopqrstuvwxyz0123456789._-/";
    for byte in (32..127).chain(128..=255) {
        for field in [vec![byte], vec![byte, b'a', b'b'], vec![b'a', byte, b'b'], vec![b'a', b'b', byte]] {
            let inside = if byte == b'\'' {
                String::from_utf8_lossy(&field).replace('\'', "'\\''").into()
            } else {
                field.clone()
            };
            let quoted = [b"'", inside.as_slice(), b"'"].concat();
            let wanted = if bare.contains(&byte) { field.clone() } else { quoted };
            assert_eq!(quoted_in(&[&field], 40), Ok(wanted), "{byte}");
        }
    }
}

#[test]
fn all_other_fields_as_before() {
    quotes(&["it's", "", "a b"], r"'it'\''s' '' 'a b'");
    quotes(
        &["", "'", "\\", "é", "~", "#", "a=b", "$x", "*", "a,b", "a:b"],
        "'' ''\\''' '\\' 'é' '~' '#' 'a=b' '$x' '*' 'a,b' 'a:b'",
    );
    quotes::<&str>(&[], "");
}

#[test]
fn mixed_lines() {
    quotes(&["cp", "north field", "north", "field"], "cp 'north field' north field");
    quotes(&["", "a", "", "b", ""], "'' a '' b ''");
    let world = World::recipes();
    assert_eq!(world.normalise("cp \"$job\" $job"), "cp 'north field' north field");
    assert_eq!(world.normalise("*.raw '' \"*\".raw"), "'a b.raw' p1.raw p2.raw '' '*.raw'");
}

/// The limit and the buffer are held to the bytes of the new line.
#[test]
fn lengths() {
    let no_room = Err(Number::NoRoomForOutput as u8);
    let length = |fields: &[String]| quoted_in(fields, 9_999).map(|line| line.len());
    assert_eq!(length(&["x".repeat(2_048)]), Ok(2_048));
    assert_eq!(length(&["x".repeat(2_049)]), no_room);
    assert_eq!(length(&[",".repeat(2_046)]), Ok(2_048));
    assert_eq!(length(&[",".repeat(2_047)]), no_room);
    assert_eq!(length(&vec!["x".to_string(); 1_024]), Ok(2_047));
    assert_eq!(length(&vec!["x".to_string(); 1_025]), no_room);
    assert_eq!(length(&["x".repeat(2_045), String::new()]), Ok(2_048));
    assert_eq!(length(&["x".repeat(2_046), String::new()]), no_room);
    for (fields, line) in [(["a", "b"], 3), (["a", ""], 4), (["a", "'"], 8)] {
        assert!(quoted_in(&fields, line).is_ok());
        assert_eq!(quoted_in(&fields, line - 1), Err(Number::NoRoomForOutput as u8));
    }
    assert_eq!(reference::quote(&[1, 0, 1], &mut [0; 9]).number, Number::Fields as u8);
}

/// A world in which every byte that were not literal would show.
fn hostile() -> World {
    let world = World::empty()
        .set("IFS", "abcx/._-0' \n")
        .set("HOME", "/no")
        .set("a", "*")
        .home("a", "/else")
        .home("-", "/where")
        .path("a")
        .path("p1.raw.raw");
    ["p1.raw", "-", "/", "."].iter().fold(world, |world, path| world.path(path))
}

#[test]
fn demand_3() {
    let lists: [&[&str]; 8] = [
        &["p1.raw", "n/p1.raw", "-x"],
        &["a", "a b", "b", "", "c'd", "."],
        &["", "", ""],
        &["-", "--", "/", "//", "._-/"],
        &["~a", "a~", "$a", "a", "#a", "a#"],
        &["a\nb", "a", "\n", "b"],
        &["é", "e", "'", "\\", "z"],
        &[],
    ];
    for fields in lists {
        let line = quoted_in(fields, limits::LINE).expect("a quoted line");
        for world in [World::empty(), World::recipes(), hostile()] {
            let given = world.expand(&line).map(|outcome| (outcome.fields, outcome.variables));
            let wanted = fields.iter().map(|field| field.as_bytes().to_vec()).collect();
            let variables = image::variables(&world.variables_image()).expect("variables");
            assert_eq!(given, Ok((wanted, variables)), "{}", line.escape_ascii());
            assert_eq!(world.normalise(&line).as_bytes(), line);
        }
    }
}
