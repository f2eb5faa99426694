//! Assignment lines on which document 02 and POSIX agree: names that the lines use, and values of tildes, colons and whatever stands in words.

use super::lines::Lines;
use crate::generate::lists::Setting;
use crate::generate::random::Random;

const NAMES: [&str; 11] = ["x", "x", "y", "v", "e", "n", "A1", "_a", "name_9", "u", "w"];
/// Values of HOME are not empty: what an empty one gives is listed.
const HOMES: [&str; 5] = ["HOME=/h", "HOME=/home/crew", "HOME=/a:b", "HOME='/c d'", "HOME=$HOME/x"];
/// Values of IFS have no byte 127, which bash loses then: that is listed too.
const IFS: [&str; 5] = ["IFS=:", "IFS=", "IFS=' '", "IFS=${n}a", "IFS=x^"];
/// Parts of a path. Behind a tilde and a login that is not found nothing else stands: then it is no tilde at all.
const PARTS: [&str; 16] = [
    "~", "~", "~/", "~/a", "~/jobs", "~nologin9", "~nologin9/a", "", "a", "/b", "~/$x", "$x", "\"~\"", "'~'/a", "\\~",
    "a~",
];
const BEHIND: [&str; 8] = ["", "", "", ":", "=~", "'a:~'", "\":~\"", "\\:~"];

/// A few assignments, with numbered parameters in them if they are wanted; never with a list.
pub fn line(random: &mut Random, positional: bool) -> Vec<u8> {
    let words: Vec<Vec<u8>> = (0..random.between(1, 4)).map(|_| word(random, positional)).collect();
    words.join(random.text(&[" ", " ", "  ", "\t"]).as_slice())
}

fn word(random: &mut Random, positional: bool) -> Vec<u8> {
    if random.once_in(12) {
        return random.text(&HOMES);
    }
    if random.once_in(20) {
        return random.text(&IFS);
    }
    let name = random.text(&NAMES);
    let value = match random.below(8) {
        0 => Vec::new(),
        1..=4 => path(random, positional),
        _ => Lines::new(random, positional, false).pieces(Setting::Word),
    };
    [name, b"=".to_vec(), value].concat()
}

fn path(random: &mut Random, positional: bool) -> Vec<u8> {
    let mut parts = Vec::new();
    for _ in 0..random.between(1, 4) {
        parts.push(match random.below(5) {
            0 => Lines::new(random, positional, false).pieces(Setting::Word),
            _ => random.text(&PARTS),
        });
    }
    [parts.join(&b':'), random.text(&BEHIND)].concat()
}
