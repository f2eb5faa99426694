//! Numbers, names and limits are those of include/drunquill.h. The words are held against commands/numbers.txt by tests/quick/numbers.

use std::fs;
use std::path::Path;

use drunquill::Number;

fn read(path: &str) -> String {
    fs::read_to_string(Path::new(env!("CARGO_MANIFEST_DIR")).join("..").join(path)).expect("a file of the repository")
}

/// `DRUNQUILL_BAD_HOMES` of `BadHomes`.
fn in_c(name: &str) -> String {
    let letter = |c: char| if c.is_ascii_uppercase() { format!("_{c}") } else { c.to_ascii_uppercase().to_string() };
    format!("DRUNQUILL{}", name.chars().map(letter).collect::<String>())
}

#[test]
fn numbers_are_those_of_the_header() {
    let header = read("include/drunquill.h");
    let listed: Vec<(String, u8)> = header
        .lines()
        .filter_map(|line| line.trim().strip_prefix("DRUNQUILL_")?.split_once(" = "))
        .map(|(name, rest)| {
            (format!("DRUNQUILL_{name}"), rest.chars().take_while(char::is_ascii_digit).collect::<String>())
        })
        .map(|(name, number)| (name, number.parse().expect("a number")))
        .collect();
    let accepted = [("DRUNQUILL_ACCEPTED".to_string(), 0)];
    let known = Number::ALL.iter().map(|number| (in_c(&format!("{number:?}")), *number as u8));
    assert_eq!(listed, accepted.into_iter().chain(known).collect::<Vec<_>>());
    assert!((1..=25).all(|number| Number::of(number).is_some_and(|known| known as u8 == number)));
}

#[test]
fn limits_are_those_of_the_header() {
    let limits = [
        ("WORK_LEAST", drunquill::WORK_LEAST),
        ("LINE_MAX", drunquill::LINE_MAX),
        ("IMAGE_MAX", drunquill::IMAGE_MAX),
        ("PATHS_MAX", drunquill::PATHS_MAX),
        ("UNITS_MAX", drunquill::UNITS_MAX),
        ("MESSAGE_MAX", drunquill::MESSAGE_MAX),
        ("DEPTH_MAX", drunquill::DEPTH_MAX),
        ("OPEN_MAX", drunquill::OPEN_MAX),
        ("ELEMENTS_MAX", drunquill::ELEMENTS_MAX),
        ("COMPARED_MAX", drunquill::COMPARED_MAX),
        ("STACK", drunquill::STACK),
    ];
    let header = read("include/drunquill.h");
    let listed: Vec<(&str, usize)> = header
        .lines()
        .filter_map(|line| line.strip_prefix("#define DRUNQUILL_")?.split_once(' '))
        .map(|(name, rest)| (name, rest.split(' ').next().and_then(|limit| limit.parse().ok()).expect("a limit")))
        .collect();
    assert_eq!(listed, limits);
}
