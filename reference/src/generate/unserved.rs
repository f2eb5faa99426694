//! Positional parameters that are refused in reading: numbers, lists and counts that are not served, and lists in places where none is.

use super::lists::LISTS;
use super::random::Random;

const REFUSED_NUMBERS: [&str; 14] = [
    "$0", "${0}", "${01}", "${00}", "${#01}", "${#0}", "${1a}", "${1_}", "${#1a}", "${1=a}", "${1:=a}", "${9:=}",
    "${10=$@}", "${1!}",
];
/// Lists and counts that are not served, or not so; some end the line.
const REFUSED_LISTS: [&str; 36] = [
    "${@-a}", "${@:-a}", "${*+b}", "${*:+b}", "${@=c}", "${*?}", "${@:?d}", "${*%b}", "${@%%b}", "${@#a}", "${*##a}",
    "${#@}", "${#*}", "${#@", "${##}", "${#-a}", "${#:-a}", "${#+a}", "${#%a}", "${#?}", "${#=a}", "${#$}", "${#!}",
    "${@x}", "${@:x}", "${*1}", "${@@}", "${* }", "${@", "${*", "${@`", "${@:`", "${@:", "${#", "${1:", "${2`",
];
/// Where a list is not served.
const PLACES: [(&str, &str); 11] = [
    ("${u=", "}"),
    ("${x:=", "}"),
    ("${x?", "}"),
    ("${u:?", "}"),
    ("${1?", "}"),
    ("${x%", "}"),
    ("${x##", "}"),
    ("${1%%", "}"),
    ("${2#", "}"),
    ("$((", "))"),
    ("$((1+", "))"),
];
/// What may stand between such a place and its list, and around such a place.
const WITHIN: [(&str, &str); 10] = [
    ("", ""),
    ("", ""),
    ("a", ""),
    ("${u-", "}"),
    ("${x+", "}"),
    ("${u-${1-", "}}"),
    ("${1:+", "}"),
    ("\"", "\""),
    ("${x-\"", "\"}"),
    ("${u-$1", "}"),
];
const AROUND: [(&str, &str); 5] = [("", ""), ("", ""), ("${u-", "}"), ("\"", "\""), ("\"${x+", "}\"")];

/// One of them.
pub fn text(random: &mut Random) -> Vec<u8> {
    match random.below(6) {
        0 => random.text(&REFUSED_NUMBERS),
        1..=2 => random.text(&REFUSED_LISTS),
        _ => forbidden(random),
    }
}

/// A list in an operand or a text that has none.
fn forbidden(random: &mut Random) -> Vec<u8> {
    let (around, behind) = *random.pick(&AROUND);
    let (open, close) = *random.pick(&PLACES);
    let (within, out) = *random.pick(&WITHIN);
    let list = random.text(&LISTS);
    [around.into(), open.into(), within.into(), list, out.into(), close.into(), behind.into()].concat()
}
