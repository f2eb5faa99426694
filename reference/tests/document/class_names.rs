//! E3, the names of classes: between active `[:` and the first active `:]`, all their bytes active; and when what is no name is refused.

use reference::number::Number::{BracketClass, Missing};

use crate::classes::{digits_and, refused};
use crate::support::{gives, refuses, World};

/// L and E bytes are active, so a class may come from a value, whole or in parts; a quoted one is plain text.
#[test]
fn names_from_expansions() {
    let world = World::empty()
        .set("p", "[[:digit:]]")
        .set("n", "digit")
        .set("d", "Digit")
        .set("x", "1a")
        .path("1")
        .path("[[:digit:]]")
        .path("a");
    for (line, fields) in [
        ("$p \"$p\" '[[:digit:]]' \\[[:digit:]]", &["1", "[[:digit:]]", "[[:digit:]]", "[[:digit:]]"][..]),
        ("[[:$n:]] [[:${u-dig}it:]] ${u-[[:$n:]]} ${x#$p} ${x#[[:$n:]]}", &["1", "1", "1", "a", "a"]),
        ("${x#\"$p\"} ${x#${u-$p}} \"${x#$p}\" ${x%%$p*}x", &["1a", "a", "a", "x"]),
        ("\"${u-[[:digit:]]}\" ${u-\"[[:digit:]]\"} $((7${x%[[:alpha:]]}))", &["[[:digit:]]", "[[:digit:]]", "71"]),
    ] {
        gives(&world, line, fields);
    }
    for line in ["[[:\"$n\":]]", "[[:$d:]]", "${x#[[:'digit':]]}", "${u-[[:\"$n\":]]}", "[[:$u:]]"] {
        refuses(&world, format!("a {line}"), BracketClass, 2);
    }
    let split = world.set("IFS", ":");
    gives(&split, "$p [[:$n:]]", &["[[", "digit", "]]", "1"]);
}

#[test]
fn unknown_names_and_others_stay_refused() {
    for name in [
        "", "Digit", "DIGIT", "digi", "digits", "dig\\ it", "d", "alph", "alphanum", "word", "ascii", "xdigits",
        "^digit", "!digit", ":digit", "digit:", "digit]", "[digit", "\u{e9}", "digit'0'",
    ] {
        refused(&format!("[[:{name}:]]"));
        refused(&format!("[a[:{name}:]"));
        refused(&format!("[![:digit:][:{name}:]"));
    }
    for pattern in
        ["[[.a.]]", "[[.", "[a[.hyphen.]]", "[[=a=]]", "[[=", "[![=a=]b]", "[[:digit:][.a.]]", "[[:digit:][=a"]
    {
        refused(pattern);
    }
    for pattern in
        ["[[:", "[[:]", "[[:]]", "[[:digit", "[[:digit]", "[[:digit:", "[[:digit:\\ ]]", "[[:digit:x]]", "[[:digit.]]"]
    {
        refused(pattern);
    }
}

/// N in a name vanishes, at any place of `[:digit:]` or around it.
#[test]
fn empty_marks_in_names() {
    let pattern = "[[:digit:]]";
    let world = World::empty().set("x", "4a").set("e", "").path("4").path("d");
    for at in 0..=pattern.len() {
        for quotes in ["''", "\"\"", "\"$e\""] {
            let spelled = [&pattern[..at], quotes, &pattern[at..]].concat();
            gives(&world, format!("{spelled} ${{x#{spelled}}}"), &["4", "a"]);
        }
    }
}

/// A quoted byte in a name, or of its end, is 19; a quoted `[` or `:` of its beginning makes no class.
#[test]
fn quoted_bytes_in_names() {
    let pattern = "[[:digit:]]";
    let quote = |at: usize, byte: &str| [&pattern[..at], byte, &pattern[at + 1..]].concat();
    for at in 3..10 {
        let byte = &pattern[at..=at];
        for quoted in [format!("'{byte}'"), format!("\"{byte}\""), format!("\\{byte}")] {
            refused(&quote(at, &quoted));
        }
    }
    for at in 0..3 {
        for sign in ["'", "\""] {
            let spelled = quote(at, &[sign, &pattern[at..=at], sign].concat());
            let world = World::empty().set("x", "d]").set("y", "[d]");
            let wanted: &[&str] = if at == 0 { &["d]x", "x"] } else { &["x", "[x"] };
            gives(&world, format!("\"${{x%{spelled}}}x\" \"${{y%{spelled}}}x\""), wanted);
        }
    }
    let world = World::empty().set("x", "7]");
    gives(&world, "\"${x%[[:digit:]']'}\"", &["7]"]);
    refuses(&world, "${x%[[:digit':']]}", BracketClass, 0);
    refuses(&world, "${x%[[:digit:\\]]}", BracketClass, 0);
}

/// The end of a name is the first active `:]`.
#[test]
fn the_first_end_ends_a_name() {
    digits_and("[[:digit:]:]", ":");
    let world = World::empty().set("x", "7:]").set("y", ":]");
    gives(&world, "\"${x%[[:digit:]:]]}\" \"${y%[[:digit:]:]]}\"", &["7", ""]);
    refused("[[:digit':]':]]");
    refused("[[:alpha:digit:]]");
    refused("[[:x:][:digit:]]");
}

/// 19 comes after a removal's operand is expanded, whatever the value; for fields in their order, before the word's output.
#[test]
fn when_it_is_refused() {
    let world = World::empty().set("x", "a").set("f", "[[:digit:]] [[:Digit:]]");
    refuses(&world, "a $f", BracketClass, 2);
    refuses(&world, "${u?} [[:x:]]", Missing, 0);
    refuses(&world, "${u%[[:x:]${w?}}", Missing, 0);
    refuses(&world, "a ${x-[[:x:]]}${u%[[:x:]]}", BracketClass, 2);
    gives(&world, "${x-[[:x:]]} ${x?[[:x:]]} '[[:x:]]'", &["a", "a", "[[:x:]]"]);
    refuses(&world.clone().out(4), "${u-aaaaa [[:x:]]}", BracketClass, 0);
    gives(&world.out(1), "${x#[[:alpha:]]}", &[]);
}
