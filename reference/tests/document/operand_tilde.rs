//! E1, tilde inside an operand: its sentences one by one, and the readings its open points were given.

use reference::limits;
use reference::number::Number::{ArithmeticSyntax, BracketClass, LineEnds, Missing, NoRoomForVariable, TooManyUnits};

use crate::support::{gives, refuses, stores, World};

const REMOVALS: [&str; 4] = ["#", "##", "%", "%%"];

fn world() -> World {
    World::empty()
        .set("HOME", "/h *")
        .set("e", "")
        .set("x", "/h */out")
        .set("y", "/h abc")
        .home("crew", "/c d")
        .home("none", "")
        .home("x-y.z_1", "/d")
        .path("/h a")
        .path("a")
}

#[test]
fn a_crews_line() {
    let world = World::recipes();
    gives(&world, "${out:-~/export}", &["/home/crew/export"]);
    gives(&world, "~/out '~'/out ~nobody", &["/home/crew/out", "~/out", "~nobody"]);
}

#[test]
fn the_login_ends_at_the_first_slash_or_the_operands_end() {
    for (line, fields) in [
        ("${u-~} ${u-~/} ${u-~/a/b}", &["/h *", "/h */", "/h */a/b"][..]),
        ("${u-~crew} ${u:-~crew/y} ${u-~none}a ${u-~none}", &["/c d", "/c d/y", "a", ""]),
        ("${u-~x-y.z_1/~} a${u-~}b", &["/d/~", "a/h *b"]),
        ("${u-${w-~}} ${u-${w-~}/${w-~crew}}", &["/h *", "/h *//c d"]),
        ("${u-~/'q'$e\\z}", &["/h */qz"]),
    ] {
        gives(&world(), line, fields);
    }
    refuses(&world(), "${u-~", LineEnds, 0);
    refuses(&world(), "${u-~crew/a", LineEnds, 0);
}

#[test]
fn a_tilde_that_does_not_begin_the_operand_or_is_not_bare() {
    for (line, fields) in [
        ("${u-a~} ${u-''~} ${u-$e~} ${u-~/~crew}", &["a~", "~", "~", "/h */~crew"][..]),
        ("${u-\\~} ${u-'~'} ${u-\"~\"/a}", &["~", "~", "~/a"]),
    ] {
        gives(&world(), line, fields);
    }
}

/// `:` and blanks are no login bytes, and the bytes of the line decide as they are written.
#[test]
fn bytes_that_are_no_login_bytes() {
    for (line, fields) in [
        ("${u-~:a} ${u-~crew:/a} ${u-~+} ${u-~~}", &["~:a", "~crew:/a", "~+", "~~"][..]),
        ("${u-~ a} ${u-~crew b} ${u-~\tc}", &["~", "a", "~crew", "b", "~", "c"]),
        ("${u-~c'rew'} ${u-~\\crew} ${u-~\"\"/a} ${u-~$e/a}", &["~crew", "~crew", "~/a", "~/a"]),
        ("${u-~${e}crew} ${u-~\\}} ${u-~'}'}", &["~crew", "~}", "~}"]),
    ] {
        gives(&world(), line, fields);
    }
    stores(&world(), "${u=~:~crew}", "u", "~:~crew");
}

/// In `-` and `+` the directory is neither split nor a pattern, and an empty one is a field.
#[test]
fn the_directory_counts_as_quoted() {
    let world = world().set("IFS", "/ *");
    gives(&world, "${u-~} ${e+~} ${u:-~crew}", &["/h *", "/h *", "/c d"]);
    gives(&world, "${u-~none} ${e+~none}", &["", ""]);
    gives(&world, "${u-~/b/c}", &["/h *", "b", "c"]);
    let wild = World::empty().set("HOME", "*").home("set", "[ab]").path("a").path("b").path("*/c");
    gives(&wild, "${u-~} ${u+~}${u-~set} ${u-~/?}", &["*", "[ab]", "*/c"]);
}

/// Not found: literal, and so E in `-` and `+`.
#[test]
fn a_login_that_is_not_found() {
    let world = World::empty().set("e", "").set("IFS", "~o").path("~a*").path("~ab");
    gives(&world, "${u-~nobody} ~nobody", &["", "n", "b", "dy", "~nobody"]);
    gives(&world, "${e+~} ${u:-~/~}", &["", "", "/"]);
    let world = World::empty().set("x", "~/a/b").set("IFS", ":").path("~/p").path("~/q");
    gives(&world, "${u-~/*} ${x#~/} ${x#~} ${x##~*/}", &["~/p", "~/q", "a/b", "/a/b", "b"]);
    stores(&world, "${u=~nobody/a}", "u", "~nobody/a");
}

#[test]
fn home_is_looked_up_at_that_moment() {
    let world = World::empty();
    gives(&world, "${u-~} ${HOME=/n}${u-~}", &["~", "/n/n"]);
    gives(&world, "${u-${HOME=/n}${w-~}} ${u-~}", &["/n/n", "/n"]);
    stores(&world, "${HOME=~}", "HOME", "~");
    gives(&world, "${HOME=~}${u-~/a}", &["~~/a"]);
    gives(&World::empty().set("HOME", ""), "${u-~}${HOME:=~} ${HOME:=/n}${u-~}", &["", "/n/n"]);
}

/// `=` stores the directory's bytes, and gives the value as E, whatever was quoted.
#[test]
fn stores_of_a_directory() {
    for operand in ["~", "~/b", "~crew", "~none", "~none/c"] {
        let value = operand.replace("~crew", "/c d").replace("~none", "").replace('~', "/h *");
        stores(&world(), &format!("${{u={operand}}}"), "u", &value);
        stores(&world(), &format!("${{e:={operand}}}"), "e", &value);
    }
    gives(&world(), "${u=~} \"$u\" ${w=~crew}", &["/h", "a", "/h *", "/c", "d"]);
    gives(&world().set("IFS", "/"), "${u=~} ${w=~none}", &["", "h *"]);
    gives(&world(), "${u=~none} \"$u\" ${x=~}", &["", "/h", "*/out"]);
}

#[test]
fn alternatives() {
    gives(&world(), "${e+~} ${x:+~crew/a} ${u+~} ${e:+~}", &["/h *", "/c d/a"]);
}

#[test]
fn removals_of_a_directory() {
    for (line, fields) in [
        ("\"${x#~}\" \"${x##~/}\" \"${x#~/o?t}\"", &["/out", "out", ""][..]),
        ("\"${x#~/*}\" \"${x##~/*}\" \"${x#~nobody}\"", &["out", "", "/h */out"]),
        ("\"${y#~}\" \"${x#~*}\" \"${u#~}\"", &["/h abc", "/h */out", ""]),
        ("\"${x%~none}\" \"${x%%~none/*}\"", &["/h */out", ""]),
    ] {
        gives(&world(), line, fields);
    }
    let behind = World::empty().set("HOME", "t*").set("x", "out*").set("y", "outer").set("n", "~");
    gives(&behind, "${x%~} ${x%%~} ${y%~} ${n%~} ${x%\\~}", &["ou", "ou", "outer", "~", "out*"]);
    for removal in REMOVALS {
        let bracket = World::empty().set("HOME", "[[:a").set("x", "[[:a");
        gives(&bracket, format!("${{x{removal}~}}"), &[]);
        refuses(&bracket, format!("a ${{x{removal}~/[[:}}"), BracketClass, 2);
    }
}

#[test]
fn operands_read_as_double_quoted_text_stay_without_it() {
    for (line, fields) in [
        ("\"${u-~}\" \"${u:-~/a}\" \"${e+~crew}\"", &["~", "~/a", "~crew"][..]),
        ("\"${u=~}\" $u", &["~", "~"]),
        ("\"${u-${w-~}}\" ${u-\"${w-~}\"}", &["~", "~"]),
        ("$((${u-1}${e+2})) \"$((${#u}))\"", &["12", "0"]),
    ] {
        gives(&world(), line, fields);
    }
    stores(&world(), "\"${u=~crew/a}\"", "u", "~crew/a");
    let number = world().set("HOME", "7");
    for line in ["$((${u-~}))", "$((${e+~/}))"] {
        refuses(&number, line, ArithmeticSyntax, 0);
    }
    gives(&number, "$((${u=~crew})) $((${w-~5}))", &["-1", "-6"]);
}

/// A removal's operand is bare text in quotes and in arithmetic too, with all inside it.
#[test]
fn removals_in_quotes_and_arithmetic() {
    gives(&world(), "\"${x#~}\" \"a${u-${x##~/}}\" \"${x#${u-~}}\"", &["/out", "aout", "/out"]);
    gives(&world(), "\"${x#\"${u-~}\"}\"", &["/h */out"]);
    let numbers = World::empty().set("HOME", "12").set("n", "1234").home("crew", "3");
    gives(&numbers, "$((${n#~}+1)) $((${n%${u-~crew}4}))", &["35", "12"]);
    gives(&numbers, "\"$((${u-${n##~}}))\" $((${u-${n#~crew}}))", &["34", "1234"]);
}

/// `?` has its operand expanded by no request before E7: 13 on a missing value, and else the value.
#[test]
fn demands() {
    refuses(&world(), "a ${u?~}", Missing, 2);
    refuses(&world(), "${e:?~nobody/x}", Missing, 0);
    gives(&world(), "${y?~} \"${e?~crew}\"", &["/h", "abc", ""]);
}

/// N and the directory are units of the operand's row, and then of the row around.
#[test]
fn the_row_is_full() {
    let home = |length: usize| World::empty().set("HOME", "y".repeat(length)).set("e", "");
    let fits = home(limits::ROW - 1);
    for line in ["${u-~}", "${e+~}", "${u=~}", "${HOME#~}", "${HOME%%~}", "\"${HOME##~}\"", "${u-~}$e", "a${u=~}"] {
        assert!(fits.expand(line).is_ok(), "{line}");
    }
    for line in ["a${u-~}", "${u-~}''", "${u-~/}", "${e+~/}", "${u=~/}", "${HOME#~/}", "${u-${w-~}\\a}", "ab${u=~}"] {
        refuses(&fits, line, TooManyUnits, 0);
    }
    let over = home(limits::ROW);
    for line in ["${u-~}", "${e+~}", "${u=~}", "${HOME#~}", "${HOME##~}", "${HOME%~}", "\"${HOME%%~}\""] {
        refuses(&over, format!("a {line}"), TooManyUnits, 2);
    }
    assert!(over.expand("${e-~}${u+~}${HOME?~}").is_ok());
    refuses(&fits.variables_buffer(2_100), "a ${u=~}", NoRoomForVariable, 2);
}

/// A line that uses it, and the quoted line that comes of it, which gives itself under other tables.
#[test]
fn demand_3() {
    let line = world().normalise("${out:-~/export} ${e+~crew} \"${x#~}\" ${u-~nobody} \"${u-~}\"");
    assert_eq!(line, r"'/h */export' '/c d' /out '~nobody' '~'");
    for other in [World::empty(), World::empty().set("HOME", "/n").home("nobody", "/m").path("~")] {
        assert_eq!(other.normalise(&line), line);
    }
}
