//! E5: what of positional parameters is refused, and the list that is none.

use reference::number::Number::{self, CommandSubstitution, LineEnds, NotServed, Parameters, Syntax};
use reference::number::ACCEPTED;
use reference::{image, limits, Tables};

use crate::positional::lent;
use crate::support::{gives, refuses, World};

fn refused(world: &World, cases: &[(&str, Number)]) {
    for (line, number) in cases {
        refuses(world, line, *number, 0);
    }
}

/// "a leading zero stays 10", and what else cannot stand there.
#[test]
fn numbers_that_are_refused() {
    refused(
        &lent(&["one"]),
        &[
            ("$0", NotServed),
            ("\"$0\"", NotServed),
            ("$((1+$0))", NotServed),
            ("${0}", NotServed),
            ("${01}", NotServed),
            ("${00", NotServed),
            ("${#01}", NotServed),
            ("${#0", NotServed),
            ("${1a}", Syntax),
            ("${1_}", Syntax),
            ("${1@}", Syntax),
            ("${1:1}", Syntax),
            ("${#1a}", Syntax),
            ("${#1-}", Syntax),
            ("${1", LineEnds),
            ("${12:", LineEnds),
            ("${#1", LineEnds),
            ("${1-", LineEnds),
            ("${1`", CommandSubstitution),
            ("${1:`", CommandSubstitution),
            ("${#1`", CommandSubstitution),
        ],
    );
}

/// "`=` on one stays 10", at the operator, before its operand.
#[test]
fn nothing_is_stored_under_a_number() {
    let world = lent(&["one"]);
    for line in ["${1=a}", "${1:=a}", "${2=", "${12:=`", "\"${1=\"", "$((${1=1}))", "${u-${9:=${"] {
        refuses(&world, line, NotServed, 0);
    }
}

/// "At any depth in operands of `=`, `?`, of removals and in arithmetic, `$@` and `$*` stay 10".
#[test]
fn lists_in_forbidden_places() {
    let world = lent(&["a", "b"]);
    for list in ["$@", "$*", "${@}", "${*}", "${@", "\"$@\"", "${u-$*}", "${x-\"${u+$@}\"}", "${1:+a$@}"] {
        for (open, close) in
            [("${u=", "}"), ("${x:=", "}"), ("${x?", "}"), ("${1:?", "}"), ("${x%", "}"), ("${1##", "}"), ("${x#", "}")]
        {
            refuses(&world, format!("{open}{list}{close}"), NotServed, 0);
            refuses(&world, format!("${{u-{open}{list}{close}}}"), NotServed, 0);
            refuses(&world, format!("{open}a{list}"), NotServed, 0);
        }
    }
    for line in
        ["$(($@))", "$((1+${u-$*}))", "\"$((${@}))\"", "${x-$((${u-${u-$*", "$((${x%$@}))", "\"${x%${u-\"$@\"}}\""]
    {
        refuses(&world, line, NotServed, 0);
    }
    gives(&world, "${x?$#$1} ${u=$1$#} ${x%$2} $(($#+${#1}))", &["ab", "a2", "a", "3"]);
    gives(&world, "${x=a}$@ ${x%b}$* $((1))$@", &["aba", "b", "aa", "b", "1a", "b"]);
}

/// "so do length and operators on them and on `#`".
#[test]
fn forms_on_lists_and_on_the_count() {
    let world = lent(&["a", "b"]);
    for list in ["@", "*"] {
        refuses(&world, format!("${{#{list}}}"), NotServed, 0);
        for operator in ["-", ":-", "=", ":=", "?", ":?", "+", ":+", "%", "%%", "#", "##"] {
            refuses(&world, format!("${{{list}{operator}a}}"), NotServed, 0);
            refuses(&world, format!("\"${{{list}{operator}"), NotServed, 0);
            refuses(&world, format!("${{{list}{operator}`"), NotServed, 0);
        }
        for (behind, number) in [
            ("x}", Syntax),
            (":x}", Syntax),
            ("1}", Syntax),
            (" }", Syntax),
            ("\\}", Syntax),
            ("", LineEnds),
            (":", LineEnds),
            ("`", CommandSubstitution),
            (":`", CommandSubstitution),
        ] {
            refuses(&world, format!("${{{list}{behind}"), number, 0);
        }
    }
    for behind in ["-a}", ":-a}", "+}", "?}", "=}", "%a}", "#}", "##a}", "$}", "!}", " }", "0}", "\\}"] {
        refuses(&world, format!("${{#{behind}"), NotServed, 0);
    }
    refused(&world, &[("${#", LineEnds), ("${#`", CommandSubstitution)]);
}

/// "A malformed or too long list is new refusal 23, place 0, checked after 4."
#[test]
fn lists_that_are_refused() {
    let number = |parameters: &[u8]| {
        let tables = Tables { homes: &[1], paths: &[1], parameters, shout: false };
        let mut out = vec![7; 100];
        let work = &mut vec![3; limits::WORK_AREA];
        let answer = reference::expand(b"$#", &mut [1, 9], 1, tables, work, &mut out, &mut []);
        assert!(answer.number == ACCEPTED || out == vec![7; 100]);
        assert_eq!((answer.place, answer.used), (0, 1));
        answer.number
    };
    let bad: [&[u8]; 8] =
        [b"", b"\0", b"\x02", b"\x01\0", b"\x01\0\x01", b"\x01\0\x02a", b"\x01\0\x01\0", b"\x01\0\x01a\0"];
    for parameters in bad {
        assert_eq!(number(parameters), Parameters as u8);
    }
    assert_eq!(number(b"\x01\0\0\0\0"), ACCEPTED);
    assert_eq!(number(&image::of_texts(&[vec![b'x'; limits::IMAGE - 3]])), ACCEPTED);
    assert_eq!(number(&image::of_texts(&[vec![b'x'; limits::IMAGE - 2]])), Parameters as u8);
    assert_eq!(number(&image::of_texts(&vec![""; 4_096])), Parameters as u8);
}
