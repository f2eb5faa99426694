//! E9, what assignments leave: variables, the used length, every byte of the buffers, and what comes before the line is read.

use reference::image::{self, of_texts};
use reference::limits;
use reference::number::Number::{
    self, Homes, LineTooLong, Missing, NoRoomForVariable, Parameters, Syntax, Variables, WorkArea, ZeroByte,
    ZeroDivisor,
};
use reference::number::ACCEPTED;
use reference::Tables;

use crate::support::{assigns, refuses_to_assign, World};

/// Images without records; the paths are none at all, as assignments do not look at them.
const NO_TABLES: Tables = Tables { homes: &[1], paths: &[], parameters: &[1], shout: false };

fn world() -> World {
    World::empty().set("b", "long value").set("d", "").set("m", "7").variables_buffer(60)
}

#[test]
fn assignments_take_effect_from_left_to_right() {
    let world = World::empty().set("x", "1").set("y", "2");
    for (line, changed) in [
        ("x=$y y=$x", &[("x", "2")][..]),
        ("a=$x x=3 b=$x", &[("a", "1"), ("b", "3"), ("x", "3")]),
        ("x=a x=b", &[("x", "b")]),
        ("x=$x$x x=$x$x", &[("x", "1111")]),
        ("x=9 n=$((x+1))", &[("n", "10"), ("x", "9")]),
        ("HOME=/h a=~ HOME=/k b=~:~/c", &[("HOME", "/k"), ("a", "/h"), ("b", "/k:/k/c")]),
        ("a=${u=b}$u u=c a=$a$u", &[("a", "bbc"), ("u", "c")]),
        ("u= a=${u-unset}${u:-empty}", &[("a", "empty"), ("u", "")]),
        ("x= x=${x:=${x:=c}d}", &[("x", "cd")]),
        ("x=${x=a}", &[]),
        ("IFS=: a=$x", &[("IFS", ":"), ("a", "1")]),
    ] {
        assigns(&world, line, changed);
    }
}

#[test]
fn a_store_too_long_is_20() {
    let world = world().variables_buffer(world().variables_image().len() + 10);
    assigns(&world, "a=12345", &[("a", "12345")]);
    refuses_to_assign(&world, "a=123456", NoRoomForVariable, 0);
    refuses_to_assign(&world, "m=8 a=123456", NoRoomForVariable, 4);
    assigns(&world, "b= a=123456789012345", &[("a", "123456789012345"), ("b", "")]);
    refuses_to_assign(&world, "a=123456789012345 b=", NoRoomForVariable, 0);
    refuses_to_assign(&world, "a=${u=123456}", NoRoomForVariable, 0);
    refuses_to_assign(&world, "a=$((1/0)) c=123456", ZeroDivisor, 0);
}

/// At once, though the image would be short enough at the end, and measured against 8,192 where the buffer is longer.
#[test]
fn a_store_is_measured_at_once() {
    let full = World::empty().set("f", "x".repeat(8_192 - 12)).variables_buffer(9_999);
    assigns(&full, "v=a", &[("v", "a")]);
    refuses_to_assign(&full, "v=ab", NoRoomForVariable, 0);
    refuses_to_assign(&full, "v=ab f=", NoRoomForVariable, 0);
    assigns(&full, "f=a v=ab", &[("f", "a"), ("v", "ab")]);
}

/// All stores go with a refusal, those of operands too; `refuses_to_assign` looks at every byte.
#[test]
fn a_refusal_undoes_all() {
    for (line, number, place) in [
        ("b=new d=x $", Syntax, 10),
        ("b= d=x e=$((1/0))", ZeroDivisor, 7),
        ("b= e=${u=x}${w?}", Missing, 3),
        ("a=x a=0123456789012345678901234567890", NoRoomForVariable, 4),
        ("b= a=${u:=y}$((m/0))", ZeroDivisor, 3),
    ] {
        refuses_to_assign(&world(), line, number, place);
    }
}

const BEHIND: [u8; 20] = *b"bytes behind it all.";

/// What an image of 27 bytes comes to, and the whole buffer, whose bytes behind it are known.
fn left(line: &str) -> (usize, Vec<u8>) {
    let mut variables = of_texts(&["a", "", "b", "0123456789", "c", "x"]);
    let used = variables.len();
    assert_eq!(used, 27);
    variables.extend(BEHIND);
    let (work, message) = (&mut vec![0; limits::WORK_AREA], &mut [0; 9]);
    let answer = reference::assign(line.as_bytes(), &mut variables, used, NO_TABLES, work, message);
    assert_eq!((answer.number, answer.place, answer.length, answer.message), (ACCEPTED, 0, 0, 0), "{line}");
    (answer.used, variables)
}

#[test]
fn bytes_behind_a_shorter_image_are_zero_up_to_the_old_length_and_kept_beyond_it() {
    for (line, texts) in [
        ("b=", ["a", "", "b", "", "c", "x"]),
        ("b=0", ["a", "", "b", "0", "c", "x"]),
        ("b=${b%?}", ["a", "", "b", "012345678", "c", "x"]),
        ("c= b=", ["a", "", "b", "", "c", ""]),
        ("a=longer b=", ["a", "longer", "b", "", "c", "x"]),
        ("a=0123456789 b= a=", ["a", "", "b", "", "c", "x"]),
        ("a=01234567890123 b= a=1", ["a", "1", "b", "", "c", "x"]),
    ] {
        let (used, variables) = left(line);
        let image = of_texts(&texts);
        assert_eq!(used, image.len(), "{line}");
        assert_eq!(variables, [image.as_slice(), &vec![0; 27 - used], &BEHIND].concat(), "{line}");
    }
}

/// The image may have been shorter or longer for a while: the last one and the length given decide alone.
#[test]
fn only_the_final_image_decides_about_bytes_behind() {
    for (line, texts) in [
        ("b= b=0123456789", vec!["a", "", "b", "0123456789", "c", "x"]),
        ("b=abcdefghij", vec!["a", "", "b", "abcdefghij", "c", "x"]),
        ("a=1 b=012345678", vec!["a", "1", "b", "012345678", "c", "x"]),
        ("a=12345 a=", vec!["a", "", "b", "0123456789", "c", "x"]),
        ("a=12345", vec!["a", "12345", "b", "0123456789", "c", "x"]),
        ("b= d=01234567890", vec!["a", "", "b", "", "c", "x", "d", "01234567890"]),
        ("a=${u=1}", vec!["a", "1", "b", "0123456789", "c", "x", "u", "1"]),
        ("a=0123456789 a=12", vec!["a", "12", "b", "0123456789", "c", "x"]),
    ] {
        let (used, variables) = left(line);
        let image = of_texts(&texts);
        assert_eq!(used, image.len(), "{line}");
        assert!(used >= 27, "{line}");
        assert_eq!(variables, [image.as_slice(), &BEHIND[used - 27..]].concat(), "{line}");
    }
}

#[test]
fn the_image_stays_in_order() {
    let world = World::empty().set("b", "1").set("bb", "2").set("d", "3");
    let line = "c=x a=y B=z bbb=w e=v _=u b0=t b=s";
    let left = world.assign(line);
    let variables = image::variables(&left.variables[..left.answer.used]).expect("a variables image");
    let names: Vec<&[u8]> = variables.iter().map(|(name, _)| name.as_slice()).collect();
    assert_eq!(names, [b"B".as_slice(), b"_", b"a", b"b", b"b0", b"bb", b"bbb", b"c", b"d", b"e"]);
    assert_eq!(left.variables[..left.answer.used].len(), left.answer.used);
}

/// The message of a `?` in a value, as the other jobs have it.
#[test]
fn a_demanded_message() {
    let world = World::empty().set("HOME", "/h").message(*b"................");
    for (line, place, message) in [
        ("a=${u?no base}", 0, "no base"),
        ("a=b c=${u:?~/$a}", 4, "/h/b"),
        ("a=${u?${w=c} $w}", 0, "c c"),
        ("a=\"${u?~}\"", 0, "~"),
        ("a=b:${u?b:~}", 0, "b:~"),
        ("a=${u?0123456789abcdefgh}", 0, "0123456789abcdef"),
        ("a=${u?}", 0, ""),
    ] {
        let left = world.assign(line);
        assert_eq!((left.answer.number, left.answer.place), (Missing as u8, place), "{line}");
        assert_eq!(left.answer.message, message.len(), "{line}");
        assert_eq!(&left.message[..message.len()], message.as_bytes(), "{line}");
        assert!(left.message[message.len()..].iter().all(|&byte| byte == b'.'), "{line}");
        refuses_to_assign(&world, line, Missing, place);
    }
    refuses_to_assign(&world, "a=${u?b} c", Syntax, 9);
}

/// A call with all these faults at once.
fn faulty(faults: &[Number]) -> u8 {
    let bad = |number: Number| faults.contains(&number);
    let image = |number| if bad(number) { &[][..] } else { &[1][..] };
    let mut work = vec![7; limits::WORK_AREA - usize::from(bad(WorkArea))];
    let mut variables = [image(Variables), &[9, 9, 9, 9, 9, 9, 9, 9]].concat();
    let used = image(Variables).len();
    let mut line = b"a=b".to_vec();
    line.resize(if bad(LineTooLong) { 2_049 } else { 9 }, b'b');
    line[2] = if bad(ZeroByte) { 0 } else { b'b' };
    line[0] = if bad(Syntax) { b'=' } else { b'a' };
    let (before, mut message) = (variables.clone(), *b"message");
    let tables = Tables { homes: image(Homes), parameters: image(Parameters), ..NO_TABLES };
    let answer = reference::assign(&line, &mut variables, used, tables, &mut work, &mut message);
    assert!(work.iter().all(|&byte| byte == 0));
    assert_eq!((answer.place, answer.length, answer.used, answer.message), (0, 0, used, 0));
    assert_eq!((variables, &message), (before, b"message"));
    answer.number
}

/// Neither 4 nor 21: the job takes neither paths nor output.
#[test]
fn numbers_come_in_order() {
    let order = [WorkArea, Variables, Homes, Parameters, LineTooLong, ZeroByte, Syntax];
    for (at, first) in order.into_iter().enumerate() {
        assert_eq!(faulty(&order[at..]), first as u8);
    }
    assert_eq!(faulty(&[]), NoRoomForVariable as u8);
}

#[test]
fn used_length() {
    let call = |buffer: usize, used: usize| {
        let mut variables = vec![b'x'; buffer];
        variables[0] = 1;
        let work = &mut vec![0; limits::WORK_AREA];
        reference::assign(b"", &mut variables, used, NO_TABLES, work, &mut []).number
    };
    assert_eq!(call(9_000, 1), ACCEPTED);
    assert_eq!(call(1, 1), ACCEPTED);
    assert_eq!(call(9_000, 0), Variables as u8);
    assert_eq!(call(1, 2), Variables as u8);
    assert_eq!(call(1, usize::MAX), Variables as u8);
    assert_eq!(call(9_000, 8_193), Variables as u8);
}

#[test]
fn a_line_of_2048_bytes() {
    let world = World::empty();
    let value = "b".repeat(2_046);
    assigns(&world, format!("a={value}"), &[("a", &value)]);
    refuses_to_assign(&world, format!("a={value}b"), LineTooLong, 0);
    let name = "n".repeat(2_047);
    assigns(&world, format!("{name}="), &[(&name, "")]);
    refuses_to_assign(&world, "n".repeat(2_048), Syntax, 0);
    assigns(&world, " ".repeat(2_048), &[]);
}
