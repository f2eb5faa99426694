//! E9, assignment lines: how words are read and values expanded, sentence by sentence, and the readings its open points were given.

use reference::number::Number::{
    ArithmeticSyntax, BracketClass, CommandSubstitution, LineEnds, NotANumber, NotServed, Operator, Overflow, Syntax,
    TooDeep, TooManyUnits, ZeroDivisor,
};

use crate::support::{assigns, refuses_to_assign, World};

fn world() -> World {
    World::empty()
        .set("HOME", "/h *")
        .set("IFS", ":")
        .set("base", "base 07.dat")
        .set("e", "")
        .set("n", "7")
        .set("x", "a:b  *")
        .home("crew", "/c:d")
        .home("none", "")
        .parameters(&["one", "two  2", ""])
}

#[test]
fn a_crews_line() {
    let world = World::recipes().set("base", "north");
    assigns(&world, "out=~/jobs:$base", &[("out", "/home/crew/jobs:north")]);
    assigns(&world, "", &[]);
    assigns(&world, " \t\n ", &[]);
}

#[test]
fn every_word_is_a_name_an_equals_sign_and_a_value() {
    for (line, changed) in [
        ("a=b", &[("a", "b")][..]),
        ("  a=b \t_=1\nA_9z=c  ", &[("A_9z", "c"), ("_", "1"), ("a", "b")]),
        ("a=", &[("a", "")]),
        ("a=b=c", &[("a", "b=c")]),
        ("a==", &[("a", "=")]),
        ("a=#b", &[("a", "#b")]),
        ("a=b#c d=#", &[("a", "b#c"), ("d", "#")]),
        ("a=''", &[("a", "")]),
        ("a=' b '\" \"c", &[("a", " b  c")]),
        ("a=b\\ c", &[("a", "b c")]),
        ("a={b}[c]~!", &[("a", "{b}[c]~!")]),
        ("x= e=a", &[("e", "a"), ("x", "")]),
    ] {
        assigns(&world(), line, changed);
    }
}

/// All that does not fit is 11, whatever it would be elsewhere, and met before anything behind it.
#[test]
fn other_words_are_11_at_the_first_byte_that_does_not_fit() {
    for word in [
        "a", "_", "1", "1a=b", "=", "=b", "a+=b", "a.b=c", "a-b=c", "'a'=b", "\"a\"=b", "a'=b", "a\"=b", "a''=b",
        "\\a=b", "a\\=b", "a\\", "\\", "$x=b", "${x}=b", "$", "${", "a$x=b", "a${x=b", "a$((=", "$(a)=b", "`a=b",
        "a`=b", "a`", "~=b", "a~=b", "*=b", "[a]=b", "a[1]=b", "{=b", "a}=b", "a:=b", "\u{e9}=b", "a\u{e9}=b", "a|=b",
        "a|b=c", "a&", "a;b=c", "a<b=c", "a>", "a(=b", "a)", "a#=b", "%=b", "'", "\"", "a'",
    ] {
        refuses_to_assign(&world(), word, Syntax, 0);
        refuses_to_assign(&world(), format!("c=d  {word}"), Syntax, 5);
        refuses_to_assign(&world(), format!("{word} d=`"), Syntax, 0);
    }
    for (line, place) in [("a b=c", 0), ("a=b c", 4), ("a =b", 0), ("a\t=b", 0), ("a\n", 0), ("a= =b", 3), ("a=b =", 4)]
    {
        refuses_to_assign(&world(), line, Syntax, place);
    }
}

#[test]
fn an_operator_with_no_word_open_is_8() {
    for operator in ["|", "&", ";", "<", ">", "(", ")", "#"] {
        for behind in ["", "a=b", "`", "'"] {
            refuses_to_assign(&world(), format!("{operator}{behind}"), Operator, 0);
            refuses_to_assign(&world(), format!("c=d  {operator}{behind}"), Operator, 5);
        }
        if operator != "#" {
            refuses_to_assign(&world(), format!("c=d{operator}"), Operator, 0);
            refuses_to_assign(&world(), format!("c={operator}"), Operator, 0);
        }
    }
}

/// Behind the `=` the faults are those of any word, the first one met from the left.
#[test]
fn the_usual_faults_in_values() {
    for (value, number) in [
        ("'b", LineEnds),
        ("\"b", LineEnds),
        ("${x", LineEnds),
        ("$((1", LineEnds),
        ("b\\", LineEnds),
        ("b|c", Operator),
        ("(b)", Operator),
        ("`b`", CommandSubstitution),
        ("$(b)", CommandSubstitution),
        ("~`", CommandSubstitution),
        ("$'b", LineEnds),
        ("$'\\z'", Syntax),
        ("$0", NotServed),
        ("$?", NotServed),
        ("b\\\nc", Syntax),
        ("\"\\\n\"", Syntax),
        ("${x.}", Syntax),
        ("$((1)", Syntax),
        ("${u-${u-${u-${u-${u-${u-${u-${u-${u-}}}}}}}}}", TooDeep),
    ] {
        refuses_to_assign(&world(), format!("c=d a={value}"), number, 4);
        if number != LineEnds {
            refuses_to_assign(&world(), format!("a={value}\n1=b"), number, 0);
        }
    }
    refuses_to_assign(&world(), "a='b c", LineEnds, 0);
    refuses_to_assign(&world(), "a=$((1/0)) 1=b", Syntax, 11);
}

#[test]
fn tilde_behind_the_equals_sign() {
    for (line, value) in [
        ("a=~", "/h *"),
        ("a=~/jobs", "/h */jobs"),
        ("a=~crew", "/c:d"),
        ("a=~crew/b", "/c:d/b"),
        ("a=~none", ""),
        ("a=~nobody/b", "~nobody/b"),
        ("a=~b", "~b"),
        ("a=b~", "b~"),
        ("a=b=~", "b=~"),
        ("a==~", "=~"),
        ("a=\\~", "~"),
        ("a='~'", "~"),
        ("a=\"~\"", "~"),
        ("a=~\"\"", "~"),
        ("a=~$e", "~"),
        ("a=~''/b", "~/b"),
        ("a=$e~", "~"),
        ("a=''~", "~"),
        ("a=~+/b", "~+/b"),
    ] {
        assigns(&world(), line, &[("a", value)]);
    }
    assigns(&World::empty(), "a=~ b=~crew", &[("a", "~"), ("b", "~crew")]);
    assigns(&world(), "a=~ b=c c=~", &[("a", "/h *"), ("b", "c"), ("c", "/h *")]);
}

#[test]
fn tilde_behind_each_bare_literal_colon() {
    for (line, value) in [
        ("a=:~", ":/h *"),
        ("a=~:~", "/h *:/h *"),
        ("a=~crew:~:~none:b", "/c:d:/h *::b"),
        ("a=b:~/c:~crew/d:e", "b:/h */c:/c:d/d:e"),
        ("a=::~", "::/h *"),
        ("a=~:", "/h *:"),
        ("a=~crew:/b", "/c:d:/b"),
        ("a=~/b:c", "/h */b:c"),
        ("a='b':~", "b:/h *"),
        ("a=$e:~", ":/h *"),
        ("a=$x:~", "a:b  *:/h *"),
        ("a=b:=~", "b:=~"),
        ("a=b=:~", "b=:/h *"),
        ("a=:~nobody:~", ":~nobody:/h *"),
        ("a=:~b$e:~", ":~b:/h *"),
        ("a=\\:~", ":~"),
        ("a=':'~", ":~"),
        ("a=\":\"~", ":~"),
        ("a=\":~\"", ":~"),
        ("a=':~'", ":~"),
        ("a=:'~'", ":~"),
        ("a=:\\~", ":~"),
        ("a=:''~", ":~"),
        ("a=${x%b*}~", "a:~"),
    ] {
        assigns(&world(), line, &[("a", value)]);
    }
}

/// In operands E1's rule stays: a tilde at their start alone, with a login that no colon ends.
#[test]
fn tildes_in_operands_of_values() {
    for (line, value) in [
        ("a=${u-~}", "/h *"),
        ("a=${u-~/b}:~", "/h */b:/h *"),
        ("a=${u-b:~}", "b:~"),
        ("a=${u-~:b}", "~:b"),
        ("a=${u-~crew:~}", "~crew:~"),
        ("a=\"${u-~}\"", "~"),
        ("a=b:${u-~}", "b:/h *"),
        ("a=${u-:}~", ":~"),
        ("a=${u-b}:~", "b:/h *"),
        ("a=$((1)):~", "1:/h *"),
    ] {
        assigns(&world(), line, &[("a", value)]);
    }
}

#[test]
fn parameters_arithmetic_and_quote_removal() {
    for (line, value) in [
        ("a=$x", "a:b  *"),
        ("a=\"$x\"", "a:b  *"),
        ("a=${x}${e}$u", "a:b  *"),
        ("a=${#x}", "6"),
        ("a=${x%%:*}${x##*:}", "ab  *"),
        ("a=${u-b c}", "b c"),
        ("a=${u:-'b  c'\"$x\"}", "b  ca:b  *"),
        ("a=${x+b}${e:+c}", "b"),
        ("a=${x?no}", "a:b  *"),
        ("a=$((n*6+1))", "43"),
        ("a=\"$((n << 2)) 'b'\"", "28 'b'"),
        ("a=$1:$2:$#:${3}", "one:two  2:3:"),
        ("a=${9-none}", "none"),
        ("a='b'\"c\"\\d\\\\", "bcd\\"),
        ("a=\"\\$x\\a\"", "$x\\a"),
        ("a=$", "$"),
        ("a=$:~", "$:/h *"),
    ] {
        assigns(&world(), line, &[("a", value)]);
    }
    assigns(&world(), "a=${u=b}${u}", &[("a", "bb"), ("u", "b")]);
    assigns(&world(), "a=${u:=~}", &[("a", "/h *"), ("u", "/h *")]);
}

/// Neither IFS nor a list of paths decides anything; a value that would be several fields or none is one text.
#[test]
fn no_splitting_and_no_paths() {
    for ifs in ["", " ", ":", "a*", "\n"] {
        let world = world().set("IFS", ifs).path("a").path("b");
        assigns(&world, "a=$x$e b=* c=[a-b] d=?", &[("a", "a:b  *"), ("b", "*"), ("c", "[a-b]"), ("d", "?")]);
        assigns(&world, "a=$u b=\"$e\"", &[("a", ""), ("b", "")]);
    }
}

#[test]
fn lists_in_values_are_10() {
    for value in [
        "$@", "$*", "${@}", "${*}", "\"$@\"", "\"$*\"", "b$@c", "${u-$@}", "${x-$@}", "${u+\"$*\"}", "\"${u-$@}\"",
        "${u=$*}", "$((${u-$@}))", ":$*", "~/$@", "${@-b}", "${#@}", "${#*}",
    ] {
        for given in [&[][..], &["one"], &["one", "two"]] {
            refuses_to_assign(&world().parameters(given), format!("c=d a={value}"), NotServed, 4);
        }
    }
    assigns(&world().parameters::<&str>(&[]), "a=$#$1", &[("a", "0")]);
}

/// 19 comes of removals alone; what would be a pattern elsewhere is a text.
#[test]
fn brackets_are_texts_outside_removals() {
    assigns(&world(), "a=[[:word:]] b=[[.", &[("a", "[[:word:]]"), ("b", "[[.")]);
    assigns(&world(), "a=${x#[[:alpha:]]}", &[("a", ":b  *")]);
    refuses_to_assign(&world(), "a=b c=${x#[[:word:]]}", BracketClass, 4);
    refuses_to_assign(&world(), "a=b c=\"${u%[[.a.]]}\"", BracketClass, 4);
}

#[test]
fn faults_of_expansion_come_from_left_to_right() {
    let world = world().set("v", "x".repeat(2_047));
    for (value, number) in [
        ("\"$v\"b", TooManyUnits),
        ("$v:~", TooManyUnits),
        ("$((08))", NotANumber),
        ("$((x))", NotANumber),
        ("$((1+))", ArithmeticSyntax),
        ("$((1<<64))", Overflow),
        ("$((1/0))", ZeroDivisor),
        ("$((!!!!!!!!!!!!!!!!!!!!!!!!!!!!!!!!!1))", TooDeep),
        ("${u?$((1/0))}", ZeroDivisor),
    ] {
        refuses_to_assign(&world, format!("c=d a={value} u=$((1%0))"), number, 4);
    }
    refuses_to_assign(&world, "a=$((1/0)) b=${x#[[:a:]]}", ZeroDivisor, 0);
}

/// A row holds a value alone: the name before it does not count, and a tilde's empty mark does.
#[test]
fn the_value_alone_counts_toward_2048() {
    let v = "x".repeat(2_048);
    let world = world().set("v", &v).set("HOME", &v[1..]);
    let name = "n".repeat(1_900);
    assigns(&World::empty().set("v", &v), format!("{name}=$v"), &[(&name, &v)]);
    assigns(&world, "a=~", &[("a", &v[1..])]);
    refuses_to_assign(&world, "a=~/", TooManyUnits, 0);
    refuses_to_assign(&world, "a=:~", TooManyUnits, 0);
    refuses_to_assign(&world, "b=c a=\"$v\"", TooManyUnits, 4);
    assigns(&world, "a=$v$e", &[("a", &v)]);
}
