//! Cases about many stars: texts of repeated bytes that patterns of several stars match or nearly match, as values and as paths, and
//! long lists of paths such as a season's card has.

use std::collections::BTreeSet;

use super::focus::lend;
use super::random::Random;
use super::tables::Table;
use super::MOST_STEPS;
use crate::case::Lent;
use crate::image::of_texts;
use crate::limits;

const SHAPES: [&str; 24] = [
    "*aab", "a*a*b", "*[ab]*[!a]b", "*a*b*c*", "*a*a*a*a*b", "**a**b", "*?*?*b", "[!b]*[!b]*a", "*[!a]*", "?*?*?*",
    "*a*/*a*", "*/*/*b", ".*a*", "*.*.*", "a*?a*?b", "*ab*ab*", "*[[:alpha:]]*[[:digit:]]*", "*a*[b-a]*",
    "*[]a]*[!]a]*", "*a*[*b*", "*[!a-]*[a-", "*b*\u{e9}*", "***", "*a*a*a*a*a*a*a*a*a*a*",
];
/// What makes a pattern miss a text that ends otherwise.
const LAST: [&str; 8] = ["b", "ab", "aab", "[!a]b", "?c", "[c-a]", "*[!ab]", "*b"];
const RARE: &[u8] = b"bbbbcc.//-]1\xe9\xff";
const FORMS: [&str; 4] = ["%", "%%", "#", "##"];

/// A value, a list of paths, and one to three words with a pattern of stars.
pub fn case(random: &mut Random, lent: &mut Lent) {
    if random.once_in(6) {
        return long(random, lent);
    }
    let value = run(random, 60);
    let paths = if random.once_in(5) { card(random) } else { runs(random) };
    let carried = starred(random, &value, false);
    let words = (0..*random.pick(&[1, 1, 2, 3])).map(|_| word(random, &value, &paths));
    lent.line = words.collect::<Vec<_>>().join(&b' ');
    lent.paths = of_texts(&paths);
    lend(lent, &Table::from([(b"x".to_vec(), value), (b"p".to_vec(), carried)]));
}

/// A removal from a value of thousands of bytes: by a few stars, or by a pattern of hundreds of elements without any.
fn long(random: &mut Random, lent: &mut Lent) {
    let few = random.once_in(2);
    let length = if few { random.between(700, 1_500) } else { random.between(1_000, 6_000) };
    let mut value = vec![b'a'; length];
    for _ in 0..random.below(4) {
        value[random.below(length)] = *random.pick(RARE);
    }
    let form = random.text(&FORMS);
    let cut = random.between(1, length.min(1_900).min(MOST_STEPS / length - 1));
    let end = if form[0] == b'%' { &value[length - cut..] } else { &value[..cut] };
    let mut carried: Vec<u8> = end.iter().flat_map(|&byte| taking(random, byte, false)).take(2_000).collect();
    if random.once_in(4) {
        carried.extend(random.text(&["b", "[!a]", "a", "[c-a]"]));
    }
    let operand = match few {
        true => random.text(&["*b", "b*", "*ab", "a*b", "*ba*", "*[!a]", "[!a]*", "*b*", "*c*b", "a*a*b", "*aab", "*"]),
        false => random.text(&["$p", "$p", "\"$p\"", "${u-$p}"]),
    };
    lent.line = [b"\"${x".to_vec(), form, operand, b"}\"".to_vec()].concat();
    lend(lent, &Table::from([(b"x".to_vec(), value), (b"p".to_vec(), carried)]));
}

/// One byte again and again, now and then another.
pub fn run(random: &mut Random, most: usize) -> Vec<u8> {
    let rare = *random.pick(&[3, 6, 12, 100]);
    let byte = |random: &mut Random| if random.once_in(rare) { *random.pick(RARE) } else { b'a' };
    (0..random.between(1, most)).map(|_| byte(random)).collect()
}

fn runs(random: &mut Random) -> Vec<Vec<u8>> {
    let most = *random.pick(&[4, 12, 40]);
    let paths: BTreeSet<Vec<u8>> = (0..random.between(1, 20)).map(|_| run(random, most)).collect();
    paths.into_iter().collect()
}

/// Hundreds of paths, up to 1,500.
pub fn card(random: &mut Random) -> Vec<Vec<u8>> {
    let count = *random.pick(&[300, 600, 1_000, 1_500]);
    let mut paths = BTreeSet::new();
    let mut length = 1;
    while paths.len() < count && length < limits::PATHS_IMAGE - 40 {
        let mut path = random.text(&["p", "a", "ab", "n/", "card/a", ".a", "b/.c"]);
        path.extend(random.below(2_000).to_string().bytes());
        path.extend((0..random.below(6)).map(|_| *random.pick(b"aabc")));
        path.extend(random.text(&[".raw", ".csv", "b", "c", "/b"]));
        length += 2 + path.len();
        paths.insert(path);
    }
    paths.into_iter().collect()
}

/// A pattern from the line or from a variable, over the paths or as the operand of a removal.
fn word(random: &mut Random, value: &[u8], paths: &[Vec<u8>]) -> Vec<u8> {
    match random.below(20) {
        0 => random.text(&["$p", "$p*", "\"$p\"*", "${u-$p}", "*$p"]),
        1..=3 => random.text(&SHAPES),
        4..=8 => {
            let path = random.pick(paths).clone();
            starred(random, &path, true)
        }
        9 => [b"${u-".to_vec(), random.text(&SHAPES), b"}".to_vec()].concat(),
        _ => removal(random, value),
    }
}

/// A removal whose pattern is like one end of the value, one that is carried in a variable, or any.
fn removal(random: &mut Random, value: &[u8]) -> Vec<u8> {
    let cut = random.below(value.len() + 1);
    let form = random.text(&FORMS);
    let operand = match (random.below(8), form[0]) {
        (0..=1, _) => random.text(&SHAPES),
        (2..=3, _) => random.text(&["$p", "$p*", "*$p", "*\"$p\"", "${u-$p}", "*a$p"]),
        (_, b'%') => starred(random, &value[cut..], true),
        _ => starred(random, &value[..cut], true),
    };
    let removal = [b"${x".to_vec(), form, operand, b"}".to_vec()].concat();
    match random.below(3) {
        0 => removal,
        _ => [b"\"".to_vec(), removal, b"\"".to_vec()].concat(),
    }
}

/// A pattern that the text likely matches, or but for its end: bytes, sets and `?`, and stars that stand for some bytes.
fn starred(random: &mut Random, text: &[u8], in_line: bool) -> Vec<u8> {
    let (often, most) = *random.pick(&[(2, 3), (4, 8), (8, 40)]);
    let mut pattern = Vec::new();
    let mut rest = text;
    while let [byte, behind @ ..] = rest {
        rest = behind;
        if random.once_in(often) {
            rest = &rest[random.below(most).min(rest.len())..];
            pattern.push(b'*');
        } else {
            pattern.extend(taking(random, *byte, in_line));
        }
    }
    if random.once_in(3) {
        pattern.extend(random.text(&LAST));
    }
    pattern
}

/// An element that takes the byte; in a line it may be quoted.
fn taking(random: &mut Random, byte: u8, in_line: bool) -> Vec<u8> {
    match random.below(12) {
        _ if byte == b'/' => vec![byte],
        0 => b"?".to_vec(),
        1 => vec![b'[', byte, b'b', b']'],
        2 => b"[!z]".to_vec(),
        3 => vec![b'[', byte, b'-', byte, b']'],
        4 if in_line => vec![b'\\', byte],
        5 if in_line => vec![b'\'', byte, b'\''],
        _ => vec![byte],
    }
}
