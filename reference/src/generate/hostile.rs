//! Lines that are slow in any matcher which tries things again: long values and lists that a pattern nearly matches, and as many
//! patterns in one line as it holds.

use std::collections::BTreeSet;

use super::focus::lend;
use super::random::Random;
use super::stars::{card, run};
use super::tables::Table;
use super::{job, ordinary};
use crate::case::Call;
use crate::image::of_texts;
use crate::limits;

const LONGEST_VALUE: usize = 6_000;
const LONGEST_PATTERN: usize = 2_047;
const PIECES: [&str; 16] = [
    "*a", "a", "[ab]", "[!b]", "*[!a]", "?", "*?", "[", "[!", "[a-", "[[:alpha:]", "[]", "[/", "*[", "[a-[:alpha:]",
    "*aa",
];

/// The hostile call of this case; the same for the same seed and case.
pub fn call(seed: u64, case: u64) -> Call {
    let random = &mut Random::new(seed, case);
    let mut lent = ordinary(random);
    let pattern = pattern(random);
    let word = random.text(&["${x%%$p}", "${x##$p}", "${x%$p}", "${x#$p}", "$p", "${x##*$p}", "${y%%$p}", "$p*"]);
    let many = if random.once_in(3) { limits::LINE / (word.len() + 1) } else { 1 };
    let between: &[u8] = if random.once_in(2) { b" " } else { b"" };
    lent.line = vec![word; many].join(between);
    lent.paths = match random.below(4) {
        0 => of_texts(&[run(random, 30_000)]),
        1 => of_texts(&BTreeSet::from([vec![b'a'; 30_000], pattern.clone()]).iter().collect::<Vec<_>>()),
        _ => of_texts(&card(random)),
    };
    let value = if random.once_in(2) { run(random, LONGEST_VALUE) } else { vec![b'a'; LONGEST_VALUE] };
    let short = run(random, 2_000).into_iter().take(limits::IMAGE - value.len() - pattern.len() - 20).collect();
    lend(&mut lent, &Table::from([(b"p".to_vec(), pattern), (b"x".to_vec(), value), (b"y".to_vec(), short)]));
    Call::Lines(job(random), lent)
}

/// One piece or two again and again, between a beginning and an end.
fn pattern(random: &mut Random) -> Vec<u8> {
    let piece = [random.text(&PIECES), if random.once_in(3) { random.text(&PIECES) } else { Vec::new() }].concat();
    let length = random.between(1, LONGEST_PATTERN - 10);
    let mut pattern = random.text(&["", "*", "*", "a*", "[!b]*"]);
    while pattern.len() + piece.len() <= length {
        pattern.extend(&piece);
    }
    pattern.extend(random.text(&["", "*", "*", "b", "*b", "[!a]"]));
    pattern
}
