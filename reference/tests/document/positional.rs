//! E5: what positional parameters give, sentence by sentence, and the readings of its open points.

use reference::limits;
use reference::number::Number::{Missing, TooDeep, TooManyUnits};

use crate::support::{gives, refuses, stores, World};

pub fn lent(parameters: &[&str]) -> World {
    World::empty().set("e", "").set("x", "ab").parameters(parameters)
}

/// "Recipes shall take positional parameters, lent as a fields image."
#[test]
fn parameters_are_a_fields_image() {
    let world = lent(&["north", "base 07.dat", ""]);
    gives(&world, r#"cp "$2" $2 "$3" $3 $1"#, &["cp", "base 07.dat", "base", "07.dat", "", "north"]);
    stores(&world, "${u=$2}", "u", "base 07.dat");
}

/// "`$1` to `$9`, `${10}` and on (a leading zero stays 10), `$#`, `$@`, `$*` and these three in braces are served".
#[test]
fn numbers_and_counts() {
    let texts: Vec<String> = (1..=12).map(|number| format!("p{number}")).collect();
    let world = World::empty().parameters(&texts);
    gives(&world, "$1 $9 ${1} ${9} ${10} ${12}", &["p1", "p9", "p1", "p9", "p10", "p12"]);
    gives(&world, "$10 $12 $1a ${1}0", &["p10", "p12", "p1a", "p10"]);
    gives(&world.clone().parameters(&["q"]), "$10 $12 $1a", &["q0", "q2", "qa"]);
    gives(&world, r#"$# ${#} "$#" "${#}" $#x $##"#, &["12", "12", "12", "12", "12x", "12#"]);
    gives(&world, r#""${13}" ${13} $((${13}1))"#, &["", "1"]);
    let list: Vec<&str> = texts.iter().map(String::as_str).collect();
    for line in ["$@", "$*", "${@}", "${*}", r#""$@""#, r#""${@}""#] {
        gives(&world, line, &list);
    }
    for line in [r#""$*""#, r#""${*}""#] {
        gives(&world, line, &[&list.join(" ")]);
    }
    gives(&World::empty().set("IFS", "2").parameters(&texts), "$#", &["1"]);
}

/// Numbers of any size beyond the list are unset; none of them wraps round.
#[test]
fn numbers_beyond_the_list() {
    let world = lent(&["one"]);
    for number in ["2", "9", "10", "257", "65537", "4294967297", "18446744073709551617", "99999999999999999999999"] {
        gives(&world, format!("${{{number}-none}}a${{#{number}}}"), &["nonea0"]);
    }
    gives(&world, format!("${{1{}-none}}", "0".repeat(2_000)), &["none"]);
}

/// "with the length and the operators of 01 on numbered parameters": each form gives on `${2...}` what it gives on a variable of the same value.
#[test]
fn forms_on_numbers() {
    let forms = [
        "}", "-c d}", ":-c d}", "+c d}", ":+c d}", "?}", ":?}", "?$1}", "%b}", "%%b*}", "#a}", "##*b}", "%\"$x\"}",
        "-\"$@\"}", "+$*}", ":-~/a}",
    ];
    for value in [Some("a b ab"), Some(""), None] {
        let list: Vec<&str> = [Some("one"), value].into_iter().flatten().collect();
        let mut world = lent(&list).set("HOME", "/h");
        if let Some(value) = value {
            world = world.set("v", value);
        }
        let outcome = |line: String| world.expand(&line).map(|outcome| outcome.fields);
        for form in forms {
            assert_eq!(outcome(format!("a${{2{form}b")), outcome(format!("a${{v{form}b")), "{form}");
            assert_eq!(outcome(format!("\"${{2{form}\"")), outcome(format!("\"${{v{form}\"")), "{form}");
        }
        assert_eq!(outcome("${#2}".into()), outcome("${#v}".into()));
    }
    refuses(&lent(&[""]), "a ${1:?}", Missing, 2);
    refuses(&lent(&[]), "a ${1?}", Missing, 2);
}

/// "`"$@"` gives each parameter as its own field, text before joined to the first and text after to the last".
#[test]
fn quoted_lists() {
    let world = lent(&["a b", "", "*"]).path("p");
    gives(&world, r#""$@""#, &["a b", "", "*"]);
    gives(&world, r#"x"y$@z"w"#, &["xya b", "", "*zw"]);
    gives(&world, r#""$@$@""#, &["a b", "", "*a b", "", "*"]);
    gives(&world, r#""$@"$1"$@""#, &["a b", "", "*a", "ba b", "", "*"]);
    gives(&world, r#"${u-"$@"} "${u-<$@>}" ${e+x"$@"}"#, &["a b", "", "*", "<a b", "", "*>", "xa b", "", "*"]);
    gives(&lent(&[""]), r#""$@""#, &[""]);
    gives(&lent(&["", ""]), r#""$@" "$e$@$e""#, &["", "", "", ""]);
    gives(&lent(&["a"]), r#""x$@y""#, &["xay"]);
}

/// "if there are none and nothing else came of those quotes, they give no field, not even an empty mark".
#[test]
fn quoted_lists_of_none() {
    let world = lent(&[]);
    for line in [
        r#""$@""#, r#""${@}""#, r#""$e$@""#, r#""$@$@$u""#, r#""${u-$@}""#, r#""${e+$@}""#, r#"${u-"$@"}"#,
        r#""$*$@""#, r#"$e"$@"$@"#, r#""${u-${e:-$@}}""#, "$@", "$*", r#""$@${x#ab}""#, r#""$@""$@""#,
    ] {
        gives(&world, line, &[]);
    }
    for line in [
        r#""$*""#, r#""$@"''"#, r#"""$@"#, r#""${u+$@}""#, r#""$@""$e""#, r#""$e""$@""#, r#"${u-"$@"}"""#,
        r#""${u-$*}""#, r#""${e-$@}""#,
    ] {
        gives(&world, line, &[""]);
    }
    gives(&world, r#""${x-$@}${x%ab}""#, &["ab"]);
    gives(&world, r#"a"$@" "$@"b "c$@" "$#$@""#, &["a", "b", "c", "0"]);
    gives(&world, r#""$@${x%"a"b}""#, &[]);
}

/// "`"$*"` joins with the first byte of IFS as it then stands, a space if IFS is unset, nothing if empty."
#[test]
fn joined_lists() {
    let world = lent(&["a", "", "b c"]);
    gives(&world, r#""$*" "x${*}y" ${u-"$*"} "${u-$*}""#, &["a  b c", "xa  b cy", "a  b c", "a  b c"]);
    gives(&world.clone().set("IFS", ":;"), r#""$*""#, &["a::b c"]);
    gives(&world.clone().set("IFS", ""), r#""$*""#, &["ab c"]);
    gives(&world, r#""$*${IFS=-}$*""#, &["a  b c-a--b c"]);
    gives(&world.clone().set("IFS", "xy"), r#""$*""${u-$*}""#, &["axxb caxxb c"]);
    gives(&lent(&[]).set("IFS", ":"), r#""$*" "<$*>""#, &["", "<>"]);
    gives(&lent(&["a"]).set("IFS", ":"), r#""$*""#, &["a"]);
}

/// "Bare `$@` and `$*` break between parameters, each part is split by itself, and an empty one gives nothing."
#[test]
fn bare_lists() {
    for list in ["$@", "$*", "${@}", "${*}", "${u-$@}", "${e+$*}"] {
        let world = lent(&["a b", "", " ", "c"]);
        gives(&world, list, &["a", "b", "c"]);
        gives(&world, format!("x{list}y"), &["xa", "b", "cy"]);
        gives(&world, format!("'' {list}''"), &["", "a", "b", "c"]);
        gives(&world.set("IFS", ""), list, &["a b", " ", "c"]);
        let hard = lent(&[":", "a:", ":b", "", "c:d"]).set("IFS", ":");
        gives(&hard, list, &["", "a", "", "b", "c", "d"]);
        gives(&lent(&["p?", "q*"]).path("p1").path("p2"), list, &["p1", "p2", "q*"]);
    }
    gives(&lent(&["a", "b"]), "$@$*x$@", &["a", "ba", "bxa", "b"]);
    gives(&lent(&["", ""]), "a$@b", &["a", "b"]);
    gives(&lent(&["a", "b"]).set("IFS", ":"), "$*${u-:}$@", &["a", "b", "a", "b"]);
    gives(&lent(&["a:b", "c"]), "$*${IFS=:}", &["a", "b", "c"]);
    gives(&lent(&["a b"]), "${u-$@ '$@'}", &["a", "b", "$@"]);
}

/// `${@}` and `${#}` are open expansions, `$@` and `$#` are none.
#[test]
fn depth() {
    let world = lent(&["a", "b"]);
    let nested = |depth: usize, inside: &str| format!("{}{inside}{}", "${u-".repeat(depth), "}".repeat(depth));
    gives(&world, nested(8, "$@$#"), &["a", "b2"]);
    gives(&world, nested(7, "${@}${1}${#}"), &["a", "ba2"]);
    for inside in ["${@}", "${1}", "${#}", "${@", "${0"] {
        refuses(&world, nested(8, inside), TooDeep, 0);
    }
}

/// "The row gains a break mark, in quotes an empty mark after it, each a unit": rows of just 2,048 units pass, and one unit more is 14.
#[test]
fn break_marks_are_units() {
    for (parameters, length) in [(1, 0), (2, 0), (2, 1), (5, 3), (9, 100), (700, 0), (1_000, 0)] {
        let list = vec!["y".repeat(length); parameters];
        let bytes = parameters * length;
        for (open, close, marks, quotes) in
            [("$@", "", 1, 0), ("$*", "", 1, 0), ("\"$@", "\"", 2, 1), ("${u-$@", "}", 1, 0), ("\"$*", "\"", 1, 1)]
        {
            let units = bytes + marks * (parameters - 1) + quotes;
            let world = |more: usize| lent(&[]).parameters(&list).set("v", "x".repeat(limits::ROW - units + more));
            let line = format!("{open}$v{close}");
            assert!(world(0).expand(&line).is_ok(), "{line} {parameters} of {length}");
            refuses(&world(1), &line, TooManyUnits, 0);
        }
    }
}

/// The whole list is one expansion, worked out before it is added; the mark of quotes is added at once, and is a unit until it is taken back.
#[test]
fn full_rows() {
    let full = lent(&[]).set("v", "x".repeat(limits::ROW));
    gives(&full, "$v$@$*", &[&"x".repeat(limits::ROW)]);
    refuses(&full, "$v\"$@\"", TooManyUnits, 0);
    let nearly = lent(&[]).set("v", "x".repeat(limits::ROW - 1));
    gives(&nearly, "$v\"$@\"a", &[&("x".repeat(limits::ROW - 1) + "a")]);
    gives(&nearly, "$v\"$@\"\"$@\"''", &[&"x".repeat(limits::ROW - 1)]);
    refuses(&nearly, "$v\"$@a\"", TooManyUnits, 0);
    refuses(&nearly, "$v\"$@\"''\"$@\"", TooManyUnits, 0);
    let list = lent(&["", "a"]).set("v", "x".repeat(limits::ROW - 1));
    refuses(&list, "$v$@", TooManyUnits, 0);
    refuses(&list, "$v${u-$@${w?}}", Missing, 0);
}

/// "Demand 3 holds for any well-formed lent parameters too."
#[test]
fn quoted_lines_come_back() {
    for list in [vec![], vec![""], vec!["it's", "", "$1", "\"$@\"", "*", "a b"]] {
        let world = lent(&list).path("p");
        let line = world.normalise(r#""$@" "$*" '$@' \$1 '"$*"'"#);
        assert_eq!(world.normalise(&line), line);
        let other = lent(&["other", ""]).path("*");
        assert_eq!(other.normalise(&line), line);
    }
}
