//! E10, what assignments in arithmetic leave: fields and variables of every job, the used length, every byte of the buffer, and what a refusal undoes.

use reference::image::of_texts;
use reference::limits;
use reference::number::Number::{
    ArithmeticSyntax, BracketClass, Missing, NoRoomForOutput, NoRoomForVariable, NotANumber, Operator, Overflow,
    ZeroDivisor,
};
use reference::number::ACCEPTED;
use reference::{Answer, Tables};

use crate::support::{assigns, demands, gives, leaves, refuses_to_assign, undoes, World};

fn world() -> World {
    World::empty().set("e", "").set("m", "12").set("n", "7").set("x", "a b").parameters(&["one", "two"])
}

/// What the rest of a word and the words behind it see.
#[test]
fn stores_are_seen_from_left_to_right() {
    for (line, fields, changed) in [
        ("$n$((n=5))$n", &["755"][..], &[("n", "5")][..]),
        ("$((n=5)) $n ${#n} $((n)) ${n%5}y", &["5", "5", "1", "5", "y"], &[("n", "5")]),
        ("${n=8}$((n=5)) ${u=8}$((u+=5))", &["75", "813"], &[("n", "5"), ("u", "13")]),
        ("${u-$((u=4))}$u", &["44"], &[("u", "4")]),
        ("${u+$((n=4))} ${n-$((n=4))}", &["7"], &[]),
        ("${n+$((n=4))}$n", &["44"], &[("n", "4")]),
        ("${u=$((u=4))1}$u", &["4141"], &[("u", "41")]),
        ("${m%$((m=42))} ${m#$((m=3))}y", &["y"], &[("m", "3")]),
        ("${m%2}$((m=42)) ${m#4}", &["142", "2"], &[("m", "42")]),
        ("\"$((n+=1)) $n\" $((n+=1))", &["8 8", "9"], &[("n", "9")]),
        ("$(($((n=2))+n))", &["4"], &[("n", "2")]),
        ("$((n+$((n=2))))", &["4"], &[("n", "2")]),
        ("$((n=$((n=2))+n)) $((n-${n=9}))", &["4", "0"], &[("n", "4")]),
        ("$((u=${u=9}+u)) $((${#u}+(u=100)+${#u}))", &["18", "104"], &[("u", "100")]),
    ] {
        leaves(&world(), line, fields, changed);
    }
}

/// IFS and HOME are what their last store says: IFS after the word's own stores, and in `"$*"` and for HOME at that moment.
#[test]
fn ifs_and_home_are_stored_too() {
    for (line, fields, changed) in [
        ("$((IFS=1))$((212))", &["", "2", "2"][..], &[("IFS", "1")][..]),
        ("$((212))$((IFS=1))", &["2", "2"], &[("IFS", "1")]),
        ("$((IFS=n)) $((1727))\"$((7))\" 1727", &["", "1", "2", "7", "1727"], &[("IFS", "7")]),
        ("\"$*\"$((IFS=0)) \"$*\"", &["one two", "one0two"], &[("IFS", "0")]),
        ("$((IFS-=1))5", &["", "", "5"], &[("IFS", "-1")]),
        ("~ $((HOME=5)) ~/a ${u-~}", &["~", "5", "5/a", "5"], &[("HOME", "5")]),
    ] {
        leaves(&world(), line, fields, changed);
    }
}

#[test]
fn in_values_of_assignment_lines() {
    for (line, changed) in [
        ("a=$((n=n+1)) b=$n", &[("a", "8"), ("b", "8"), ("n", "8")][..]),
        ("n=$((n=5))1", &[("n", "51")]),
        ("n=$n$((n+=1))$n", &[("n", "788")]),
        ("a=$((b=c=2))", &[("a", "2"), ("b", "2"), ("c", "2")]),
        ("n=$((n=5)) n=$((n*=n))", &[("n", "25")]),
        ("m= n=$((m+=3))", &[("m", "3"), ("n", "3")]),
        ("x=$((0&&(n=5)))", &[("x", "0")]),
        ("x=$((x=1))", &[("x", "1")]),
    ] {
        assigns(&world(), line, changed);
    }
    let room = world().variables_buffer(world().variables_image().len());
    refuses_to_assign(&world(), "a=$((n=5)) b=$((1/0))", ZeroDivisor, 11);
    refuses_to_assign(&world(), "a=$(((n)=5))", ArithmeticSyntax, 0);
    refuses_to_assign(&room, "m=1 n=$((n=123))", NoRoomForVariable, 4);
    assigns(&room, "m=1 n=$((n=12))", &[("m", "1"), ("n", "12")]);
}

const BEHIND: [u8; 20] = *b"bytes behind it all.";

/// What each job makes of a text over an image of 27 bytes: the used length, and the whole buffer, whose bytes behind it are known.
fn left(text: &str) -> Vec<(usize, Vec<u8>)> {
    let given = [of_texts(&["a", "", "b", "0000000017", "c", "7"]), BEHIND.to_vec()].concat();
    let tables = Tables { homes: &[1], paths: &[1], parameters: &[1], shout: false };
    let [mut first, mut second, mut third] = [given.clone(), given.clone(), given];
    let (line, work, out) = (format!("$(({text}))"), &mut vec![5; limits::WORK_AREA], &mut [0; 30]);
    let expanded = reference::expand(line.as_bytes(), &mut first, 27, tables, work, out, &mut []);
    let normalised = reference::normalise(line.as_bytes(), &mut second, 27, tables, work, out, &mut []);
    let line = format!("a={line}");
    let assigned = reference::assign(line.as_bytes(), &mut third, 27, tables, work, &mut []);
    let accepted = |answer: &Answer| (answer.number, answer.place) == (ACCEPTED, 0);
    assert!([expanded, normalised, assigned].iter().all(accepted), "{text}");
    vec![(expanded.used, first), (normalised.used, second), (assigned.used, third)]
}

/// "A store may now shorten a value, as in E9, with the same rule for the bytes behind it."
#[test]
fn bytes_behind_a_shorter_image_are_zero_up_to_the_old_length_and_kept_beyond_it() {
    for (text, b, c, result) in [
        ("b=1", "1", "7", "1"),
        ("b+=1", "16", "7", "16"),
        ("b=b", "15", "7", "15"),
        ("b-=15", "0", "7", "0"),
        ("c=b=-5", "-5", "-5", "-5"),
        ("(c=123456)+(b=0)-(c=1)", "0", "1", "123455"),
        ("b=1234567890123", "1234567890123", "7", "1234567890123"),
        ("(b=0)+(b=1000000000)", "1000000000", "7", "1000000000"),
        ("(b=0)+(c=12345678901)", "0", "12345678901", "12345678901"),
        ("(c=123456789)*0+(c=1)", "0000000017", "1", "1"),
    ] {
        let jobs = left(text);
        let values = ["", "", result];
        for ((used, variables), a) in jobs.into_iter().zip(values) {
            let image = of_texts(&["a", a, "b", b, "c", c]);
            assert_eq!(used, image.len(), "{text}");
            let zeros = vec![0; 27usize.saturating_sub(used)];
            let kept = &BEHIND[used.saturating_sub(27)..];
            assert_eq!(variables, [image.as_slice(), &zeros, kept].concat(), "{text}");
        }
    }
}

/// "Number 20 can now come from arithmetic, at the moment of the store."
#[test]
fn a_store_without_room_is_20() {
    let full = world().set("n", "9").set("z", "000");
    let length = full.variables_image().len();
    let room = |more: usize| full.clone().variables_buffer(length + more);
    for line in ["$((n+=1))", "$((n=-1))", "$((u=1))", "$((z=1000))", "a$((n=10))", "${u-$((n=10))}", "\"$((n=10))\""] {
        undoes(&room(0), line, NoRoomForVariable, 0);
        undoes(&room(0), format!("$((m=34)) {line}"), NoRoomForVariable, 10);
    }
    leaves(&room(0), "$((n-=1)) $((n=0)) $((z=100))", &["8", "0", "100"], &[("n", "0"), ("z", "100")]);
    leaves(&room(1), "$((n+=1))", &["10"], &[("n", "10")]);
    undoes(&room(5), "$((u=1))", NoRoomForVariable, 0);
    leaves(&room(6), "$((u=1))", &["1"], &[("u", "1")]);
    undoes(&room(6), "$((u=10))", NoRoomForVariable, 0);
    undoes(&room(6), "$((u=1)) $((uu=1))", NoRoomForVariable, 9);
}

/// At once, whatever is behind it, and after all that is before it.
#[test]
fn at_the_moment_of_the_store() {
    let full = world().set("bad", "1x").set("z", "0000000000000");
    let full = full.clone().variables_buffer(full.variables_image().len());
    for text in ["(u=1)+1/0", "(u=1)+bad", "0*(u=1)", "(u=1)+(z=0)", "u=1", "m=n=10", "(n=10)&&0", "(u=1)||1", "z=u=0"]
    {
        undoes(&full, format!("$(({text}))"), NoRoomForVariable, 0);
    }
    for (text, number) in [
        ("1/0+(u=1)", ZeroDivisor),
        ("u=1/0", ZeroDivisor),
        ("u/=0", ZeroDivisor),
        ("bad+(u=1)", NotANumber),
        ("bad*=1000", NotANumber),
        ("u=bad", NotANumber),
        ("u+=9223372036854775807+1", Overflow),
        ("(u=1)+", ArithmeticSyntax),
        ("(u=1)=2", ArithmeticSyntax),
        ("(u=1)+08", NotANumber),
    ] {
        undoes(&full, format!("$(({text}))"), number, 0);
    }
    leaves(&full, "$((u=z=0))", &["0"], &[("u", "0"), ("z", "0")]);
}

/// Measured against 8,192 where the buffer is longer.
#[test]
fn an_image_of_8192_bytes() {
    let full = |less: usize| World::empty().set("f", "0".repeat(8_192 - 6 - less)).variables_buffer(9_999);
    leaves(&full(6), "$((u=1))", &["1"], &[("u", "1")]);
    undoes(&full(5), "$((u=1))", NoRoomForVariable, 0);
    undoes(&full(6), "$((u=10))", NoRoomForVariable, 0);
    leaves(&full(0), "$((f=f)) $((u=10))", &["0", "10"], &[("f", "0"), ("u", "10")]);
    undoes(&full(0), "$((u=10)) $((f=f))", NoRoomForVariable, 0);
}

/// The sides that are not needed want no room.
#[test]
fn no_room_is_wanted_where_nothing_is_stored() {
    let full = world().variables_buffer(world().variables_image().len());
    for text in ["0&&(u=1)", "0||1||(n=10)", "0?u=1:0", "n==7", "n=n", "m=n", "1?n=9:(n=10)"] {
        assert!(full.expand(format!("$(({text}))")).is_ok(), "{text}");
    }
}

/// All stores of a line go with its refusal; `undoes` looks at every byte.
#[test]
fn a_refusal_undoes_all() {
    let world = world().set("long", "0000000000000000000001");
    for (line, number, place) in [
        ("$((n=5)) $((1/0))", ZeroDivisor, 9),
        ("$((n=5))$((1/0))", ZeroDivisor, 0),
        ("$(((n=5)+1/0))", ZeroDivisor, 0),
        ("$((long=1)) ${u?}", Missing, 12),
        ("$((long=1))${x#[[:a:]]}", BracketClass, 0),
        ("$((long=u=1)) [[:a:]", BracketClass, 14),
        ("$((n=m=5)) $((n=))", ArithmeticSyntax, 11),
        ("$((n=5)) $((x))", NotANumber, 9),
        ("$((n=5)) a|", Operator, 9),
    ] {
        undoes(&world, line, number, place);
    }
    let tight = world.clone().out(1);
    let left = tight.call(reference::expand, b"$((long=1))");
    assert_eq!((left.answer.number, left.answer.used), (NoRoomForOutput as u8, world.variables_image().len()));
    assert!(left.variables.starts_with(&world.variables_image()));
    demands(&world, "$((n=5))${u?setup $((n+=1)) of $m}", 0, "setup 6 of 12");
    undoes(&world, "${u?setup $((n+=1))}", Missing, 0);
}

/// "Demand 3 is unaffected": a field that reads like an assignment stays a field.
#[test]
fn quoted_lines_store_nothing() {
    for field in ["$((n=5))", "n=5", "$((n+=1)) $n", "'$((n=5))'"] {
        let mut line = [0; 100];
        let length = reference::quote(&of_texts(&[field]), &mut line).length;
        leaves(&world(), &line[..length], &[field], &[]);
    }
    gives(&world(), world().normalise("$((n=5))$x '$((n=6))'"), &["5a", "b", "$((n=6))"]);
}
