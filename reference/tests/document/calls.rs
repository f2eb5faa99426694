//! What a call gives back: the order of numbers, places, lengths and every byte of the buffers.

use reference::image::of_texts;
use reference::limits;
use reference::number::Number::{
    self, Homes, LineTooLong, NoRoomForOutput, Operator, Parameters, Paths, Variables, WorkArea, ZeroByte,
};
use reference::number::ACCEPTED;
use reference::{Answer, Tables};

use crate::support::{gives, refuses, World};

/// The image without records.
const NONE: &[u8] = &[1];
const NO_TABLES: Tables = Tables { homes: NONE, paths: NONE, parameters: NONE, shout: false };

/// A call with all these faults at once.
fn faulty(faults: &[Number]) -> u8 {
    let bad = |number: Number| faults.contains(&number);
    let image = |number| if bad(number) { &[] } else { NONE };
    let mut work = vec![7; limits::WORK_AREA - usize::from(bad(Number::WorkArea))];
    let mut variables = image(Number::Variables).to_vec();
    let used = variables.len();
    let mut line = vec![b'a'; if bad(Number::LineTooLong) { 2_049 } else { 9 }];
    if bad(Number::ZeroByte) {
        line[1] = 0;
    }
    line[2] = if bad(Number::Operator) { b'|' } else { b'a' };
    let (homes, paths) = (image(Number::Homes), image(Number::Paths));
    let tables = Tables { homes, paths, parameters: image(Number::Parameters), shout: false };
    let mut message = *b"message";
    let answer = reference::expand(&line, &mut variables, used, tables, &mut work, &mut [], &mut message);
    assert!(work.iter().all(|&byte| byte == 0));
    assert_eq!((answer.place, answer.length, answer.used), (0, 0, used));
    assert_eq!((answer.message, &message), (0, b"message"));
    answer.number
}

#[test]
fn numbers_come_in_order() {
    let order = [WorkArea, Variables, Homes, Paths, Parameters, LineTooLong, ZeroByte, Operator];
    for (at, first) in order.into_iter().enumerate() {
        assert_eq!(faulty(&order[at..]), first as u8);
    }
    assert_eq!(faulty(&[]), NoRoomForOutput as u8);
}

#[test]
fn used_length() {
    let call = |buffer: usize, used: usize| {
        let mut variables = vec![b'x'; buffer];
        variables[0] = 1;
        let (work, out) = (&mut vec![0; limits::WORK_AREA], &mut [0; 9]);
        reference::expand(b"", &mut variables, used, NO_TABLES, work, out, &mut []).number
    };
    assert_eq!(call(9_000, 1), ACCEPTED);
    assert_eq!(call(1, 1), ACCEPTED);
    assert_eq!(call(9_000, 0), Number::Variables as u8);
    assert_eq!(call(1, 2), Number::Variables as u8);
    assert_eq!(call(1, usize::MAX), Number::Variables as u8);
    assert_eq!(call(9_000, 8_193), Number::Variables as u8);
}

#[test]
fn line_of_2048_bytes() {
    let world = World::empty();
    gives(&world, "x".repeat(2_048), &[&"x".repeat(2_048)]);
    gives(&world, " ".repeat(2_048), &[]);
    refuses(&world, " ".repeat(2_049), Number::LineTooLong, 0);
    refuses(&world, b"\0", Number::ZeroByte, 0);
}

#[test]
fn output_room() {
    refuses(&World::empty().out(0), "", Number::NoRoomForOutput, 0);
    refuses(&World::empty().out(0), "'", Number::LineEnds, 0);
    gives(&World::empty().out(1), " ", &[]);
    gives(&World::empty().out(4), "a", &["a"]);
    refuses(&World::empty().out(6), "  a b", Number::NoRoomForOutput, 4);
    let value = "x".repeat(2_045);
    let world = World::empty().out(9_000).set("v", &value);
    let four = [value.as_str(); 4];
    gives(&world, "$v $v $v $v a", &[&four[..], &["a"]].concat());
    refuses(&world, "$v $v $v $v ab", Number::NoRoomForOutput, 12);
}

/// A store and then a call that may refuse; every byte of the variables' buffer is looked at.
fn storing(line: &[u8], out: usize) -> (Answer, Vec<u8>) {
    let mut variables = of_texts(&["a", "", "b", "long"]);
    let used = variables.len();
    variables.resize(40, 0x5a);
    let (work, out) = (&mut vec![0; limits::WORK_AREA], &mut vec![0xa5; out]);
    let answer = reference::normalise(line, &mut variables, used, NO_TABLES, work, out, &mut []);
    (answer, variables)
}

#[test]
fn bytes_behind_the_images_stay() {
    let before = storing(b"", 9).1;
    let (answer, after) = storing(b"${a:=longest} ${a:+x}", 40);
    assert_eq!((answer.number, answer.used), (ACCEPTED, 22));
    assert_eq!(&after[..22], of_texts(&["a", "longest", "b", "long"]));
    assert_eq!(&after[22..], &before[22..]);
}

#[test]
fn bytes_behind_are_the_given_ones_though_a_longer_image_stood_there() {
    let before = storing(b"", 9).1;
    let (answer, after) = storing(b"${a:=${u%${a:=longer-and-longer}}s}", 40);
    assert_eq!((answer.number, answer.used), (ACCEPTED, 16));
    assert_eq!(&after[..16], of_texts(&["a", "s", "b", "long"]));
    assert_eq!(&after[16..], &before[16..]);
}

#[test]
fn a_refusal_undoes_stores() {
    let before = storing(b"", 9).1;
    for (line, out, number, place) in [
        (&b"${a:=longest} ${c:?}"[..], 40, Number::Missing, 14),
        (b"${a:=longest}", 6, Number::NoRoomForOutput, 0),
        (b"x ${c:=012345678901234567890}", 40, Number::NoRoomForVariable, 2),
    ] {
        let (answer, after) = storing(line, out);
        assert_eq!((answer.number, answer.place), (number as u8, place));
        assert_eq!((answer.length, answer.used), (0, 15));
        assert_eq!(after, before);
    }
}

#[test]
fn a_store_is_measured_at_once() {
    let fits = World::empty().set("v", "").variables_buffer(10);
    gives(&fits, "${v:=abcd}", &["abcd"]);
    refuses(&fits, "${v:=abcde}", Number::NoRoomForVariable, 0);
    let world = World::empty().set("f", "x".repeat(8_192 - 12)).variables_buffer(9_999);
    gives(&world, "${v=}", &[]);
    refuses(&world, "${v=ab}", Number::NoRoomForVariable, 0);
    gives(&world, "${v=a}", &["a"]);
}

#[test]
fn the_normaliser_has_its_own_room() {
    let (answer, _) = storing(b"", 0);
    assert_eq!((answer.number, answer.length), (ACCEPTED, 0));
    let (answer, _) = storing(b"','", 2);
    assert_eq!((answer.number, answer.place), (Number::NoRoomForOutput as u8, 0));
    let (answer, _) = storing(b"a ','", 5);
    assert_eq!((answer.number, answer.length), (ACCEPTED, 5));
}

#[test]
fn the_normalisers_expander_refuses_at_the_word() {
    let mut variables = of_texts(&["v".to_string(), "x".repeat(2_045)]);
    let used = variables.len();
    let (work, out) = (&mut vec![0; limits::WORK_AREA], &mut vec![0; 9_000]);
    let mut call = |line: &[u8]| reference::normalise(line, &mut variables, used, NO_TABLES, work, out, &mut []);
    let room = Number::NoRoomForOutput as u8;
    let answer = call(b"$v $v $v $v ab");
    assert_eq!((answer.number, answer.place), (room, 12));
    let answer = call(b"$v $v $v $v a");
    assert_eq!((answer.number, answer.place), (room, 0));
}

#[test]
fn the_quoter() {
    let call = |fields: &[u8], out: usize| {
        let mut buffer = vec![0xa5; out];
        let answer = reference::quote(fields, &mut buffer);
        assert!(buffer[answer.length..].iter().all(|&byte| byte == 0xa5));
        (answer.number, answer.place, answer.length)
    };
    assert_eq!(call(NONE, 0), (ACCEPTED, 0, 0));
    assert_eq!(call(b"", 0), (Number::Fields as u8, 0, 0));
    assert_eq!(call(&of_texts(&[""]), 1), (Number::NoRoomForOutput as u8, 0, 0));
    assert_eq!(call(&of_texts(&[""]), 3), (ACCEPTED, 0, 2));
    assert_eq!(call(&of_texts(&[",".repeat(2_046)]), 9_999), (ACCEPTED, 0, 2_048));
    let long = of_texts(&[",".repeat(2_047)]);
    assert_eq!(call(&long, 9_999), (Number::NoRoomForOutput as u8, 0, 0));
    assert_eq!(call(&vec![1; 8_193], 0), (Number::Fields as u8, 0, 0));
}
