//! Splitting: white and hard delimiters, IFS after the word's own stores, N as a unit.

use crate::support::{gives, World};

fn split(ifs: &str, value: &str, fields: &[&str]) {
    gives(&World::empty().set("IFS", ifs).set("x", value), "$x", fields);
}

#[test]
fn white_delimiters() {
    let world = World::empty().set("x", " a \t\n b ");
    gives(&world, "$x", &["a", "b"]);
    gives(&world, ".$x.", &[".", "a", "b", "."]);
    gives(&World::empty().set("x", " \n"), "$x", &[]);
    split(" ", "\ta b\t", &["\ta", "b\t"]);
}

#[test]
fn hard_delimiters() {
    split(":", ":a::b:", &["", "a", "", "b"]);
    split(":", ":", &[""]);
    split(":", "::", &["", ""]);
    split(" :", " : a : : b : ", &["", "a", "", "b"]);
    split(" :", "a : ", &["a"]);
    split(":,", "a:,b", &["a", "", "b"]);
    split("", " a:b ", &[" a:b "]);
    split("\\", "a\\b", &["a", "b"]);
}

#[test]
fn only_expansions_are_split() {
    let world = World::empty().set("IFS", "x:");
    gives(&world, "axb \"$y\"x ${u-axb}${u-'x'}", &["axb", "x", "a", "bx"]);
    gives(&world, "${u-:}''${u-:}", &["", ""]);
    gives(&world, "a${u-:}''", &["a", ""]);
    gives(&World::empty(), "${u- }''${u- }", &[""]);
    gives(&World::empty(), "${u- }''${u- }''", &["", ""]);
}

#[test]
fn ifs_after_the_words_own_stores() {
    let world = World::empty().set("x", "a:b c");
    gives(&world, "$x${IFS=:}", &["a", "b c"]);
    gives(&world, "$x ${IFS=:} $x", &["a:b", "c", "", "a", "b c"]);
}
