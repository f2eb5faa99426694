//! Tables of a case: short ones with telling records, and images malformed in every way there is.

use std::collections::BTreeMap;

use super::quoting;
use super::random::Random;
use crate::image::of_texts;
use crate::limits;

pub const NAMES: [&str; 12] = ["x", "y", "z", "v", "e", "n", "t", "A1", "_a", "name_9", "HOME", "IFS"];

const IFS: [&str; 14] = ["", " ", ":", " :", " \t\n", "0", "a-", "-", "$~", "\\", "*/", "\n,", "'\"", "\u{e9} "];

const VALUES: [&str; 37] = [
    "", "", "a", "a b", " a  b ", ":a::b:", " : a :", "*", "?", "[a-c]", "[!a]", "[[:a]", "a/b", ".", ".hid", "~",
    "\\*", "'", "\"a\"", "$x", "`a`", "}", "-1", "+7", "0x10", "010", "08", "1+1", "(1", "9223372036854775807",
    "-9223372036854775808", "9223372036854775808", "-0x8000000000000000", "a\tb\nc", "[[:alpha:]]", "[[:digit:]",
    "[:a-c:]",
];

pub const LOGINS: [&str; 7] = ["-", ".", "1", "_", "a", "crew", "x-y.z"];
const DIRECTORIES: [&str; 8] = ["", "/", "/home/crew", "/a b", "*", "~", "/h *", "[a-c]"];

const PATHS: [&str; 34] = [
    ".", "..", ".a", ".hid", ".hid/.x", "/", "/a", "//", "1", "[a]", "[ab", "a", "a b", "a'b", "a*b", "a-c", "a.b",
    "a/.b", "a/b", "a/b/c", "a/b/d", "a:b", "ab", "abc", "b", "b/c", "c", "d/.e/f", "d/e/f", "x", "x y", "{a}", "~",
    "\u{e9}",
];

pub type Table = BTreeMap<Vec<u8>, Vec<u8>>;

/// Variables with a few of the names, so that others stay unset.
pub fn variables(random: &mut Random) -> Table {
    let mut table = Table::new();
    for name in NAMES {
        if name == "IFS" {
            if random.once_in(3) {
                table.insert(name.into(), random.text(&IFS));
            }
        } else if random.once_in(2) {
            table.insert(name.into(), value(random));
        }
    }
    table
}

pub fn value(random: &mut Random) -> Vec<u8> {
    if random.once_in(8) {
        let length = random.below(12);
        return (0..length).map(|_| random.byte().max(1)).collect();
    }
    if random.once_in(8) {
        return quoting::field(random);
    }
    random.text(&VALUES)
}

pub fn homes(random: &mut Random) -> Table {
    let mut table = Table::new();
    for login in LOGINS {
        if random.once_in(3) {
            table.insert(login.into(), random.text(&DIRECTORIES));
        }
    }
    table
}

pub fn paths(random: &mut Random) -> Vec<Vec<u8>> {
    let sparse = random.between(1, 6);
    let mut paths: Vec<Vec<u8>> = PATHS.iter().map(|path| path.as_bytes().to_vec()).collect();
    paths.retain(|_| random.once_in(sparse));
    paths.sort();
    paths
}

pub fn image(table: &Table) -> Vec<u8> {
    let texts: Vec<&Vec<u8>> = table.iter().flat_map(|(key, value)| [key, value]).collect();
    of_texts(&texts)
}

/// The kinds of tables, by the shape of their records.
#[derive(Clone, Copy, PartialEq, Eq)]
pub enum Kind {
    Pairs,
    Paths,
    Fields,
}

/// An image that is malformed or too long.
pub fn malformed(random: &mut Random, kind: Kind) -> Vec<u8> {
    let good = match kind {
        Kind::Pairs => of_texts(&["a", "b c", "crew", "/d"]),
        Kind::Paths => of_texts(&["a", "a/b", "b"]),
        Kind::Fields => of_texts(&["it's", "", "a b"]),
    };
    let mut image = good.clone();
    match random.below(8) {
        0 => image.clear(),
        1 => image[0] = *random.pick(&[0, 2, 255]),
        2 => image.truncate(cut(random, &good)),
        3 => image.push(random.byte()),
        4 => image[3] = 0,
        5 => image.extend_from_slice(&[0, 5, b'a']),
        6 => image = too_long(random, kind),
        _ => image = bad_texts(random, kind),
    }
    image
}

/// A length inside the last text, so that what is left is no image.
fn cut(random: &mut Random, image: &[u8]) -> usize {
    image.len() - random.between(1, 2)
}

fn too_long(random: &mut Random, kind: Kind) -> Vec<u8> {
    let limit = if kind == Kind::Paths { limits::PATHS_IMAGE } else { limits::IMAGE };
    if kind == Kind::Paths && !random.once_in(6) {
        return bad_texts(random, kind);
    }
    filled(kind, limit + 1)
}

/// A good image of just this length, but for its length.
pub fn filled(kind: Kind, length: usize) -> Vec<u8> {
    match kind {
        Kind::Pairs => of_texts(&[b"f".to_vec(), vec![b'x'; length - 6]]),
        _ => of_texts(&[vec![b'x'; length - 3]]),
    }
}

fn bad_texts(random: &mut Random, kind: Kind) -> Vec<u8> {
    // The first three have keys that are logins but not names.
    let pairs: [&[&str]; 13] = [
        &["1", ""],
        &["a.b", ""],
        &["-", ""],
        &["a", "", "a", ""],
        &["b", "", "a", ""],
        &["ab", "", "a", ""],
        &["a", "", "b"],
        &["", "x"],
        &["a b", ""],
        &["a/", ""],
        &["\u{e9}", ""],
        &["a", "", "~", ""],
        &["a", "", "A", ""],
    ];
    let paths: [&[&str]; 5] = [&[""], &["a", "a"], &["b", "a"], &["a/b", "a"], &["", "a"]];
    match kind {
        Kind::Pairs => of_texts(pairs[random.below(pairs.len())]),
        Kind::Paths => of_texts(paths[random.below(paths.len())]),
        Kind::Fields => vec![1, 0, 1],
    }
}
