//! Patterns: stars, brackets and their ranges, class refusals, and the rules of paths.

use std::time::{Duration, Instant};

use reference::number::Number::BracketClass;

use crate::support::{gives, refuses, World};

/// Whether the operand matches the whole value, seen by the longest prefix it drops.
fn matches(operand: &str, value: &str) -> bool {
    let world = World::empty().set("x", value).set("IFS", "");
    let line = format!("${{x##{operand}}}");
    let outcome = world.expand(&line);
    let fields = outcome.unwrap_or_else(|refusal| panic!("{line}: {refusal:?}")).fields;
    fields.is_empty()
}

fn set(bracket: &str, members: &str, others: &str) {
    for member in members.chars() {
        assert!(matches(bracket, &member.to_string()), "{bracket} {member}");
    }
    for other in others.chars() {
        assert!(!matches(bracket, &other.to_string()), "{bracket} {other}");
    }
}

#[test]
fn brackets() {
    set("[abc]", "abc", "d]");
    set("[!abc]", "d]!", "abc");
    set("[^a]", "^a", "b");
    set("[]a]", "]a", "[b");
    set("[!]a]", "b[", "]a");
    set("['!'a]", "!a", "b");
    set("[''!a]", "b!", "a");
    set("[a']'b]", "a]b", "c");
    set("[:x]", ":x", "[");
    set("[a[]", "a[", "]");
    set("[!]", "", "!]");
    assert!(matches("[!]", "[!]") && matches("[", "[") && matches("[]", "[]") && matches("[a", "[a"));
}

#[test]
fn ranges() {
    set("[a-c]", "abc", "d-");
    set("[a-c-e]", "abc-e", "d");
    set("[a-c--e]", "abcde-0AZ", "f,");
    set("[--a]", "-.09Za", "b,");
    set("[a--]", "", "a-b");
    set("[a-]", "a-", "b");
    set("[-a]", "-a", "b");
    set("[c-a]", "", "abc-");
    set("[!c-a]", "abc-", "");
    set("[a'-'c]", "a-c", "b");
    set("['a'-'c']", "abc", "d-");
    set("[]-a]", "]^_`a", "-b");
    set("[!-a]", "b", "-a");
}

#[test]
fn whole_text_and_active_bytes() {
    assert!(matches("*", "") && matches("a*c?", "abbcd") && matches("**", "a/.b"));
    assert!(!matches("??", "a") && !matches("a", "ab"));
    assert!(matches("'*'\\?\"[a]\"", "*?[a]"));
    let world = World::empty().set("p", "\\*").set("x", "\\abc");
    gives(&world, "${x##$p}${x##\\\\*}", &[]);
    gives(&world.clone().path("*").path("\\z"), "$p", &["\\z"]);
}

#[test]
fn classes_are_refused() {
    let world = World::empty().set("x", "a");
    for operand in ["[[:a]", "[a[.]", "[![=", "[[''=x]", "[][:]", "*[a-[:]", "a[[:"] {
        refuses(&world, format!("${{x%{operand}}}"), BracketClass, 0);
        refuses(&world, format!("a {operand}"), BracketClass, 2);
    }
    for operand in ["[:a:]", "[a][:b]", "[[':'a]", "['['=]", "[:", "a[="] {
        assert!(world.expand(format!("${{x%{operand}}}")).is_ok(), "{operand}");
    }
    gives(&world, "[a/[:x]", &["[a/[:x]"]);
    refuses(&world, "[[:/", BracketClass, 0);
    refuses(&world, "[a/[[:x]", BracketClass, 0);
}

#[test]
fn fields_are_checked_in_order_before_the_output() {
    let world = World::empty().out(4);
    refuses(&world, "${u-aaaaa [[:]}", BracketClass, 0);
    refuses(&world, "[[:", BracketClass, 0);
}

#[test]
fn paths() {
    let world = [".a", ".b/.c", "/r", "[x", "a", "a.b", "b/.c", "b/c", "b/d/e"]
        .iter()
        .fold(World::empty(), |world, path| world.path(path));
    for (line, fields) in [
        ("*", &["[x", "a", "a.b"][..]),
        ("?", &["a"]),
        ("*/*", &["/r", "b/c"]),
        (".*", &[".a"]),
        ("'.'*", &[".a"]),
        ("''.?", &[".a"]),
        ("?a", &["?a"]),
        ("[.]a", &["[.]a"]),
        ("[!z]a", &["[!z]a"]),
        ("*.a", &["*.a"]),
        (".*/.*", &[".b/.c"]),
        ("*/.c", &["b/.c"]),
        ("b/*", &["b/c"]),
        ("b/*c", &["b/c"]),
        ("b*c", &["b*c"]),
        ("b[/]c", &["b[/]c"]),
        ("b?c", &["b?c"]),
        ("b[!a]c", &["b[!a]c"]),
        ("b/[c'/']", &["b/[c/]"]),
        ("[x*", &["[x"]),
        ("a*b", &["a.b"]),
        ("*/*/*", &["b/d/e"]),
        ("[b-a]", &["[b-a]"]),
        ("\"*\"", &["*"]),
        ("a", &["a"]),
    ] {
        gives(&world, line, fields);
    }
    gives(&world.set("x", "? /*"), "$x", &["a", "/r"]);
}

#[test]
fn many_stars_are_not_slow() {
    let start = Instant::now();
    let world = World::empty().set("x", "a".repeat(2_000));
    let stars = "*a".repeat(60);
    let value = "a".repeat(2_000);
    gives(&world, format!("${{x%%{stars}b}}"), &[&value]);
    gives(&world, format!("${{x##{stars}b*}}"), &[&value]);
    assert!(start.elapsed() < Duration::from_secs(10));
}
