//! E14, unset names must shout: what the switch refuses and what it spares, sentence by sentence, and the readings its open points were given.

use reference::case::replay;
use reference::number::Number::{
    ArithmeticSyntax, BracketClass, LineEnds, Missing, NoRoomForOutput, NotANumber, Operator, Overflow, Unset,
    ZeroDivisor,
};

use crate::support::{assigns, demands, gives, leaves, refuses, refuses_to_assign, undoes, World};

/// A world with the switch off, in which `u`, `w` and `bsae` are unset.
fn off() -> World {
    World::empty().set("base", "b07").set("e", "").set("n", "7").set("v", "08").set("x", "ab").parameters(&["one", ""])
}

fn on() -> World {
    off().shout(true)
}

/// These lines are refused with 25 in their first word, and in a later one; with the switch off they are not.
#[track_caller]
fn shout(lines: &[&str]) {
    for line in lines {
        undoes(&on(), line, Unset, 0);
        undoes(&on(), format!("a  {line}"), Unset, 3);
        let answer = off().expand(line).map(drop);
        assert!(!matches!(answer, Err((number, _)) if number == Unset as u8), "{line}");
    }
}

/// These lines give the same with the switch on and off.
#[track_caller]
fn are_spared(lines: &[(&str, &[&str])]) {
    for (line, fields) in lines {
        gives(&off(), line, fields);
        gives(&on(), line, fields);
    }
}

/// "A mistyped `$bsae` gave nothing": it does no longer, and with the switch off it does.
#[test]
fn a_mistyped_name() {
    gives(&off(), "cp $bsae out", &["cp", "out"]);
    refuses(&on(), "cp $bsae out", Unset, 3);
    gives(&on(), "cp $base out", &["cp", "b07", "out"]);
}

/// "Add a switch, off by default": a case that does not say is one with the switch off.
#[test]
fn off_by_default() {
    let case = |switch: &str| format!("expand 2475 01 1 1 01 01 65536 9 01 0{switch}");
    for (switch, answer) in [("", "0 0 1 01 1 01 0 -"), (" 0", "0 0 1 01 1 01 0 -"), (" 1", "25 0 0 - 1 - 0 -")] {
        assert_eq!(replay(&format!("{} = {answer}", case(switch))), Ok(()));
    }
    assert!(replay(&format!("{} = 25 0 0 - 1 - 0 -", case(" 2"))).is_err());
}

/// "the plain form, the length, the four removals [...] are refused on an unset parameter".
#[test]
fn forms() {
    shout(&["$u", "${u}", "\"$u\"", "a$u", "$u*", "${#u}", "\"${#u}\"", "$bsae$base", "$base$bsae"]);
    shout(&["${u%a}", "${u%%*}", "${u#a}", "${u##*}", "\"${u%}\"", "${u%}", "${u##}", "x${u#?}y"]);
}

/// Numbered parameters beyond the list too, and `$#` never.
#[test]
fn numbered_parameters() {
    shout(&["$3", "${3}", "${10}", "${#3}", "${99%a}", "${3%%a}", "${3#a}", "${12##a}", "\"$9\"", "${4294967297}"]);
    are_spared(&[("$1 \"$2\" ${#2} ${1%e} $# ${#}", &["one", "", "0", "on", "2", "2"])]);
    gives(&on().parameters::<&str>(&[]), "$# \"$#\"", &["0", "0"]);
    refuses(&on().parameters::<&str>(&[]), "$1", Unset, 0);
}

/// "and a name read in arithmetic".
#[test]
fn arithmetic() {
    shout(&["$((u))", "$((u+1))", "$((1+u))", "$((-u))", "$((u?1:2))", "$((1?u:2))", "$((0?1:u))", "$((u&&1))"]);
    shout(&["$((1&&u))", "$((0||u))", "$((x=u))", "$((u=u))", "$((u+=1))", "$((u-=1))", "$((u*=1))", "$((u%=1))"]);
    shout(&["$((u+(u=1)))", "\"$((u))\"", "$(($u+1))", "$((${u%a}+1))", "$((n+${#u}))"]);
    are_spared(&[("$((n)) $((e)) $((n+e)) $((x=3)) $((n+=1))", &["7", "0", "7", "3", "8"])]);
}

/// An empty value is set, and shouts nowhere.
#[test]
fn empty_values_are_set() {
    are_spared(&[("$e\"$e\"${#e} ${e%a}b ${e##*}c $((e)) $((e+=1))", &["0", "b", "c", "0", "1"])]);
}

/// "at the moment it is looked up": after what stands before it, and before what stands behind.
#[test]
fn the_moment() {
    for (line, number, place) in [
        ("$((1/0)) $u", ZeroDivisor, 0),
        ("$u $((1/0))", Unset, 0),
        ("$((1/0+u))", ZeroDivisor, 0),
        ("$((u+1/0))", Unset, 0),
        ("$((v+u))", NotANumber, 0),
        ("$((u+v))", Unset, 0),
        ("$((u+08))", NotANumber, 0),
        ("$((u+))", ArithmeticSyntax, 0),
        ("$u|", Operator, 0),
        ("$u ${x", LineEnds, 3),
        ("$u[[:a:]]", Unset, 0),
        ("[[:a:]] $u", BracketClass, 0),
        ("${x%[[:a:]]}$u", BracketClass, 0),
        ("${x%$u[[:a:]]}", Unset, 0),
        ("a $((9223372036854775807+1+u))", Overflow, 2),
        ("${w=a}$w$u", Unset, 0),
        ("a ${n-$u}${u-$w}", Unset, 2),
    ] {
        undoes(&on(), line, number, place);
    }
    leaves(
        &on(),
        "${u=a}$u ${#u} ${u%a}b $((w=1)) $w $((w+1))",
        &["aa", "1", "b", "1", "1", "2"],
        &[("u", "a"), ("w", "1")],
    );
    refuses(&on().out(0), "$u", NoRoomForOutput, 0);
}

/// "The forms with `-`, `=`, `?`, `+` are exempt".
#[test]
fn choices_are_exempt() {
    are_spared(&[
        ("${u-a} ${u:-b} \"${u-}\" ${9-c} ${9:-d}", &["a", "b", "", "c", "d"]),
        ("${u+a}b ${u:+a}c \"${u+a}\" ${9+a}d", &["b", "c", "", "d"]),
        ("${x-$u} ${x:-$u} ${u+$u}a ${n-$((u))}", &["ab", "ab", "a", "7"]),
        ("${x?$u} ${1?$9}", &["ab", "one"]),
        ("${u-${w-a}} ${u-${w+b}c}", &["a", "c"]),
    ]);
    for world in [off(), on()] {
        leaves(&world, "${u=a} ${w:=b c}", &["a", "b", "c"], &[("u", "a"), ("w", "b c")]);
        leaves(&world, "${e:=${u-a}}", &["a"], &[("e", "a")]);
        demands(&world, "${u?gone}", 0, "gone");
        demands(&world, "a ${9:?no $x}", 2, "no ab");
    }
    shout(&["${u-$w}", "${u:-${#w}}", "${x+$u}", "${u=$w}", "${u-$((w))}", "${u-${w%a}}", "\"${u-$w}\""]);
}

/// "and so are `$@`, `$*` and tilde", and what splitting and `"$*"` look up.
#[test]
fn lists_and_tildes_are_exempt() {
    let none = |world: World| world.parameters::<&str>(&[]);
    for world in [off(), on()] {
        gives(&world, "$@ $* \"$@\" \"$*\"", &["one", "one", "one", "", "one "]);
        gives(&none(world.clone()), "$@ $* \"$@\" \"$*\" ${@} a$*", &["", "a"]);
        gives(&world, "~ ~/a ~nobody ${u-~}", &["~", "~/a", "~nobody", "~"]);
        gives(&world.set("x", "a b"), "$x", &["a", "b"]);
    }
    refuses(&on(), "$HOME", Unset, 0);
    refuses(&on(), "\"$IFS\"", Unset, 0);
    refuses(&on(), "$((HOME))", Unset, 0);
}

/// "A removal is refused before its operand is expanded."
#[test]
fn removals_are_refused_before_their_operand() {
    shout(&["${u%${u=1}}", "${u##${u=1}}", "${u%$((u=1))}", "${9%${w=1}}"]);
    for line in ["${u%$((1/0))}", "${u#${w?gone}}", "${u%%[[:a:]]}", "${u##$((08))}", "${u%${w=0123456789}}"] {
        undoes(&on(), line, Unset, 0);
        undoes(&on().variables_buffer(on().variables_image().len()), line, Unset, 0);
    }
    gives(&off(), "${u%${u=1}}a", &["a"]);
    gives(&on(), "${x%${u=b}} $u", &["a", "b"]);
    gives(&on(), "${n#${n%7}}", &["7"]);
    refuses(&on(), "${x%$u}", Unset, 0);
    refuses(&on(), "${x%${x#$u}}", Unset, 0);
}

/// `n=1` reads nothing; the other signs read their name behind the right side, and before the operation and the store.
#[test]
fn assignments_in_arithmetic() {
    for world in [off(), on()] {
        leaves(&world, "$((u=1)) $((w=u+1))", &["1", "2"], &[("u", "1"), ("w", "2")]);
        leaves(&world, "$((u+=u=2))", &["4"], &[("u", "4")]);
        leaves(&world, "$((u=w=3))", &["3"], &[("u", "3"), ("w", "3")]);
    }
    for (line, number) in [
        ("$((u+=1/0))", ZeroDivisor),
        ("$((u+=v))", NotANumber),
        ("$((v+=u))", Unset),
        ("$((u/=0))", Unset),
        ("$((u%=0))", Unset),
        ("$((w=u+=1))", Unset),
        ("$((u=1/0))", ZeroDivisor),
        ("$((n=u))", Unset),
    ] {
        undoes(&on(), line, number, 0);
    }
    undoes(&on().variables_buffer(on().variables_image().len()), "$((u+=1))", Unset, 0);
}

/// A side that is not needed does not shout.
#[test]
fn sides_that_are_not_needed() {
    are_spared(&[("$((0&&u)) $((1||u)) $((1?2:u)) $((0?u:3))", &["0", "1", "2", "3"])]);
    are_spared(&[("$((0&&(u+=1))) $((1||(u=w))) $((0&&u||1))", &["0", "1", "1"])]);
    refuses(&on(), "$((1?2:08+u))", NotANumber, 0);
    shout(&["$((1&&u))", "$((0||u))", "$((0?1:u))", "$((0&&w||u))"]);
}

/// An unset name in the message of a `?` is 25 in place of 13, and there is no message.
#[test]
fn messages() {
    for line in ["${u?no $w}", "${u:?$((w))}", "${u?${#w}}", "${e:?${w%a}}", "${u?${9}}"] {
        let left = on().call(reference::expand, line.as_bytes());
        assert_eq!((left.answer.number, left.answer.message), (Unset as u8, 0), "{line}");
        assert!(left.message.iter().all(|&byte| byte == b'.'), "{line}");
    }
    demands(&on(), "${u?${w-none} ${w+a}$e}", 0, "none ");
    demands(&on(), "${u?${w?inner} $w}", 0, "inner");
    refuses(&on(), "${u?$w ${w?inner}}", Unset, 0);
}

/// Assignment lines have the switch too.
#[test]
fn assignment_lines() {
    for (line, place) in [("a=$u", 0), ("b=c a=${#u}", 4), ("a=${u%b}", 0), ("a=$((u))", 0), ("a=~:$9", 0)] {
        refuses_to_assign(&on(), line, Unset, place);
    }
    for world in [off(), on()] {
        assigns(&world, "u=a w=$u", &[("u", "a"), ("w", "a")]);
        assigns(&world, "a=${u-b}:~ c=${u+d}", &[("a", "b:~"), ("c", "")]);
        assigns(&world, "a=$((u=1)) b=$u", &[("a", "1"), ("b", "1"), ("u", "1")]);
    }
    refuses_to_assign(&on(), "w=$u u=a", Unset, 0);
    refuses_to_assign(&on(), "a=${u?$w}", Unset, 0);
    refuses_to_assign(&on(), "a=${u?gone}", Missing, 0);
}

/// 25 comes behind all reading, and leaves all as it was.
#[test]
fn a_refusal_undoes_stores() {
    for line in ["${w=kept}$u", "$((n=8)) $u", "${w=a} ${e:=b} ${#u}", "$((w=1))$((u+=1))"] {
        let place = line.rfind(' ').map_or(0, |at| at + 1);
        undoes(&on(), line, Unset, place);
    }
    assert_eq!(Unset as u8, 25);
}
