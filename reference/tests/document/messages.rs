//! E7, the demanded message: its sentences one by one, and the readings its open points were given.

use reference::case::{Call, Job, Lent};
use reference::generate::{call, demands};
use reference::limits;
use reference::number::Number::{
    self, ArithmeticSyntax, BracketClass, CommandSubstitution, LineEnds, NoRoomForOutput, NoRoomForVariable,
    NotANumber, NotServed, Operator, Overflow, Syntax, TooDeep, TooManyUnits, ZeroDivisor,
};

use crate::support::{demands, gives, refuses, World};

const MISSING: u8 = Number::Missing as u8;

fn world() -> World {
    World::empty()
        .set("HOME", "/h *")
        .set("e", "")
        .set("n", "7")
        .set("t", "1+1")
        .set("x", "a  b")
        .home("crew", "/c d")
        .home("none", "")
        .parameters(&["one", "", "three  3"])
}

#[test]
fn a_crews_message() {
    let world = World::recipes();
    demands(&world, "${base:?no base file chosen}", 0, "no base file chosen");
    demands(&world, "load ${base:?no base file chosen} $job", 5, "no base file chosen");
    demands(&world, "${note:?}", 0, "");
    let left = world.call(reference::normalise, b"'a' ${base?chosen: none}");
    assert_eq!((left.answer.number, left.answer.place), (MISSING, 4));
    assert_eq!(&left.message[..left.answer.message], b"chosen: none");
}

#[test]
fn the_operand_is_expanded_first() {
    for (line, message) in [
        ("${u?$x}", "a  b"),
        ("${e:?no $x, ${#x} bytes}", "no a  b, 4 bytes"),
        ("${u?$((n*6)) of ${n}}", "42 of 7"),
        ("${u?${x%b}${x##* }}", "a  b"),
        ("${u?${w-none}${x+ there}${e-}}", "none there"),
        ("${9?$# given: $1, ${3}}", "3 given: one, three  3"),
        ("${2:?empty}", "empty"),
        ("${u?*}", "*"),
        ("${u?a $u}", "a "),
        ("\"${u?no '$x'}\"", "no 'a  b'"),
        ("$((1+${u?not $n}))", "not 7"),
        ("${w-${x+a ${u?inside}}}", "inside"),
        ("${x%${u?in a removal}}", "in a removal"),
        ("${w=${u?in a store}}", "in a store"),
    ] {
        demands(&world(), line, 0, message);
    }
}

/// As in E1, so that it is a matter of operands read as bare text alone.
#[test]
fn tilde_in_the_message() {
    for (line, message) in [
        ("${u?~}", "/h *"),
        ("${u?~/export is gone}", "/h */export is gone"),
        ("${u:?~crew}", "/c d"),
        ("${u?~crew/~}", "/c d/~"),
        ("${u?~none}", ""),
        ("${u?~nobody/a}", "~nobody/a"),
        ("${u?~ is gone}", "~ is gone"),
        ("${u?~:a}", "~:a"),
        ("${u?a~}", "a~"),
        ("${u?'~'/a}", "~/a"),
        ("${u?\\~}", "~"),
        ("${u?${w-~crew}}", "/c d"),
        ("\"${u?~}\"", "~"),
        ("\"${u?~crew/a}\"", "~crew/a"),
        ("$((${u?~}))", "~"),
        ("\"${x#${u?~}}\"", "/h *"),
    ] {
        demands(&world(), line, 0, message);
    }
    demands(&World::empty(), "${u?~}", 0, "~");
    demands(&world(), "${HOME#${u?~/${HOME=a}}}", 0, "/h *//h *");
    demands(&World::empty(), "${u?${HOME=/new}${w-~}}", 0, "/new/new");
}

#[test]
fn its_own_refusals_come_in_place_of_13() {
    let long = world().set("v", "x".repeat(2_000)).variables_buffer(2_100);
    for (operand, number) in [
        ("$((!!!!!!!!!!!!!!!!!!!!!!!!!!!!!!!!!1))", TooDeep),
        ("${v}${v}", TooManyUnits),
        ("a ${v}                                               ", TooManyUnits),
        ("$((08))", NotANumber),
        ("$((t))", NotANumber),
        ("$((1+))", ArithmeticSyntax),
        ("$((9223372036854775807+1))", Overflow),
        ("no $((1/0)) base", ZeroDivisor),
        ("${x#[[:word:]]}", BracketClass),
        ("${w=$v}", NoRoomForVariable),
        ("${w-${w=$v}}", NoRoomForVariable),
        ("${w?$((1/0))}", ZeroDivisor),
    ] {
        for (open, close) in [("${u?", "}"), ("${e:?", "}"), ("\"${9:?", "}\""), ("${w?a", "b}"), ("$((${u?", "}))")] {
            refuses(&long, format!("a {open}{operand}{close}"), number, 2);
        }
    }
    refuses(&long, "a ${u?$((1/0))$((08))}", ZeroDivisor, 2);
    refuses(&long, "a ${u?$((08))$((1/0))}", NotANumber, 2);
}

/// A 13 of an inner one is the operand's own refusal too, and it comes with the inner message.
#[test]
fn an_inner_demand_comes_first() {
    demands(&world(), "a ${u?outer ${w?inner} end}", 2, "inner");
    demands(&world(), "${u?${w?${99?$1}}}", 0, "one");
    demands(&world(), "${u?outer ${w?}}", 0, "");
    demands(&world(), "${u?outer ${x?inner} end}", 0, "outer a  b end");
    demands(&world(), "${u?outer ${w-${q:?inner}} end}", 0, "inner");
    demands(&world(), "${u?outer ${w+${q:?inner}} end}", 0, "outer  end");
    demands(&world(), "${u?first} ${w?second}", 0, "first");
    demands(&world(), "${u?first}${w?second}", 0, "first");
}

/// A value that is there leaves the operand alone, and so does a `?` that is not come to.
#[test]
fn an_operand_that_is_not_used_is_not_expanded() {
    gives(&world(), "${x?$((1/0))${w=a}}${w-b}", &["a", "bb"]);
    gives(&world(), "${e?${u?}}${1:?$((08))}", &["one"]);
    gives(&world(), "${x-${u?a}}${u+${w?b}}", &["a", "b"]);
}

/// What is met in reading comes before any 13, of operands that are used or not.
#[test]
fn faults_of_reading_come_before_13() {
    for (line, number, place) in [
        ("${u?a} |", Operator, 7),
        ("${u?a", LineEnds, 0),
        ("${u?`a`}", CommandSubstitution, 0),
        ("${u?$@}", NotServed, 0),
        ("a \"${u?$*}\"", NotServed, 2),
        ("${u?${x.}}", Syntax, 0),
        ("${u?${u?${u?${u?${u?${u?${u?${u?${u?}}}}}}}}}", TooDeep, 0),
    ] {
        refuses(&world(), line, number, place);
    }
    demands(&world(), "${u?${u?${u?${u?${u?${u?${u?${u?eighth}}}}}}}}", 0, "eighth");
}

#[test]
fn its_bytes_are_without_marks() {
    for (line, message) in [
        ("${u?'no base'  file}", "no base  file"),
        ("${u?\"a $x\"\"\"''}", "a a  b"),
        ("${u?\\a\\ \\}\\'}", "a }'"),
        ("${u?\"\\a\\}\"}", "\\a\\}"),
        ("\"${u?\\a\\} '}\"", "\\a} '"),
        ("${u? a | b # (c) }", " a | b # (c) "),
        ("${u?a\nb\tc}", "a\nb\tc"),
        ("${u?''}", ""),
    ] {
        demands(&world(), line, 0, message);
    }
    demands(&world().set("IFS", "o "), "${u?no  $x}", 0, "no  a  b");
}

/// Every length of the buffer about that of the message, and none.
#[test]
fn the_message_is_cut_to_the_buffer() {
    for length in 0..8 {
        let left = world().message(vec![0xee; length]).call(reference::expand, b"a ${u?short}");
        let shown = length.min(5);
        assert_eq!((left.answer.number, left.answer.place, left.answer.message), (MISSING, 2, shown));
        assert_eq!(&left.message[..shown], &b"short"[..shown]);
        assert!(left.message[shown..].iter().all(|&byte| byte == 0xee));
    }
    let long = world().set("v", "x".repeat(2_047));
    for (line, length) in [("${u?$v}", 2_047), ("${u?a$v}", 2_048), ("${u?\"$v\"}", 2_047), ("\"${u?${v}b}\"", 2_048)] {
        let left = long.clone().message([b'.'; 3_000]).call(reference::expand, line.as_bytes());
        assert_eq!((left.answer.number, left.answer.message), (MISSING, length), "{line}");
    }
    refuses(&long, "${u?\"$v\"a}", TooManyUnits, 0);
}

/// The operand has a row of its own, so a row that is full around it does not matter.
#[test]
fn the_row_around_does_not_matter() {
    let full = world().set("v", "x".repeat(limits::ROW));
    demands(&full.clone().message(b""), "$v${u?a}", 0, "");
    demands(&full, "$v${u?none}", 0, "none");
    demands(&full, "${w-$v${u?none}}", 0, "none");
    refuses(&full, "$v${u?'$v'$v}", TooManyUnits, 0);
}

#[test]
fn bytes_behind_the_message_are_kept() {
    let before: Vec<u8> = (0..=255).collect();
    for (line, message) in [("${u?no base}", "no base"), ("${u?}", ""), ("${u?\u{e9}}", "\u{e9}")] {
        for job in [reference::expand, reference::normalise] {
            let left = world().message(&before).call(job, line.as_bytes());
            assert_eq!((left.answer.number, left.answer.message), (MISSING, message.len()));
            assert_eq!(left.message, [message.as_bytes(), &before[message.len()..]].concat());
        }
    }
}

/// All numbers that a line gives; those that its tables give stand with the order of numbers.
#[test]
fn every_other_answer_keeps_the_buffer() {
    let before: Vec<u8> = (0..200).rev().collect();
    let world = world().set("v", "x".repeat(2_000)).variables_buffer(2_100).message(&before);
    for (line, number) in [
        ("a ${x?shown}", 0),
        ("${u", LineEnds as u8),
        ("${u?a} |", Operator as u8),
        ("${u?a} `", CommandSubstitution as u8),
        ("${u?a} $0", NotServed as u8),
        ("${u?a}${x.}", Syntax as u8),
        ("${u?$((!!!!!!!!!!!!!!!!!!!!!!!!!!!!!!!!!1))}", TooDeep as u8),
        ("${u?$v$v}", TooManyUnits as u8),
        ("${u?a$((08))}", NotANumber as u8),
        ("${u?a$((1+))}", ArithmeticSyntax as u8),
        ("${u?a$((1<<64))}", Overflow as u8),
        ("$((1/0))${u?a}", ZeroDivisor as u8),
        ("${u?a${x#[[:a:]]}}", BracketClass as u8),
        ("${u?a${w=$v}}", NoRoomForVariable as u8),
    ] {
        for job in [reference::expand, reference::normalise] {
            let left = world.call(job, line.as_bytes());
            assert_eq!((left.answer.number, left.answer.message), (number, 0), "{line}");
            assert_eq!(left.message, before, "{line}");
        }
    }
    let left = world.out(3).call(reference::expand, b"abc ${u?a}");
    assert_eq!((left.answer.number, left.answer.message), (NoRoomForOutput as u8, 0));
    assert_eq!(left.message, before);
}

/// Missing is tested before the operand stores, and what it stores is gone with the refusal, as are all stores before it.
#[test]
fn stores_of_the_message_are_undone() {
    for (line, message) in [
        ("${u?${u=stored}}", "stored"),
        ("${e:?${e:=now there}: $e}", "now there: now there"),
        ("${w=kept}a${u?$w and ${q=$w}}", "kept and kept"),
        ("${w=before} ${u?$w ${w:-none}}", "before before"),
    ] {
        let world = world();
        let left = world.call(reference::expand, line.as_bytes());
        let variables = world.variables_image();
        assert_eq!((left.answer.number, left.answer.length, left.answer.used), (MISSING, 0, variables.len()));
        assert_eq!(&left.message[..left.answer.message], message.as_bytes(), "{line}");
        assert_eq!(&left.variables[..variables.len()], variables);
        assert!(left.variables[variables.len()..].iter().all(|&byte| byte == b'.'));
        assert!(left.out.iter().all(|&byte| byte == 0));
    }
}

/// A made call with a message buffer of some bytes: the answer, and the buffer as it leaves it.
fn answered(job: Job, lent: &Lent, mut message: Vec<u8>) -> (reference::Answer, Vec<u8>) {
    let mut variables = lent.variables.clone();
    variables.resize(lent.variables_buffer, 0);
    let (work, out) = (&mut vec![0; lent.work], &mut vec![0; lent.out]);
    let Lent { line, used, .. } = lent;
    let answer = match job {
        Job::Expand => reference::expand(line, &mut variables, *used, lent.tables(), work, out, &mut message),
        Job::Normalise => reference::normalise(line, &mut variables, *used, lent.tables(), work, out, &mut message),
        Job::Assign => reference::assign(line, &mut variables, *used, lent.tables(), work, &mut message),
    };
    (answer, message)
}

/// Over made calls: a shorter buffer has a part of the message, what stands in it decides nothing, and all behind the message is kept.
#[test]
fn a_buffer_of_any_bytes_decides_nothing() {
    let mut messages = 0;
    for case in 0..1_500 {
        for made in [demands::call(7_007, case), call(7_007, case)] {
            let Call::Lines(job, lent) = made else {
                continue;
            };
            let (whole, message) = answered(job, &lent, vec![0; limits::ROW]);
            let before: Vec<u8> = (0..lent.message).map(|at| (at * 7 + 1) as u8).collect();
            let (answer, after) = answered(job, &lent, before.clone());
            let shown = whole.message.min(lent.message);
            assert_eq!(answer, reference::Answer { message: shown, ..whole }, "{}", lent.line.escape_ascii());
            assert_eq!(after, [&message[..shown], &before[shown..]].concat(), "{}", lent.line.escape_ascii());
            assert!(whole.number == MISSING || whole.message == 0);
            messages += usize::from(whole.message > 0);
        }
    }
    assert!(messages > 800, "{messages} messages");
}
