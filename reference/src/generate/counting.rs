//! Cases about assignments in arithmetic: texts of `counters` in every place of a line and in values, over numbers that are longer than their shortest text, with
//! little room, and with what sees the stores or undoes them behind.

use super::assignments::leave_behind;
use super::counters::{long, text, NAMES};
use super::random::Random;
use super::tables::{filled, image, Kind, Table};
use super::{finished, job, lists, ordinary};
use crate::case::{Call, Job, Lent};
use crate::image::of_texts;
use crate::limits;

/// Numbers as they may stand in a variable, many of them longer than their shortest text; a few that are none or too large.
const VALUES: [&str; 30] = [
    "", "0", "1", "7", "9", "-1", "-9", "10", "99", "100", "+7", "007", "-010", "0x1F", "0XfF", "00000000000017",
    "0x0000000000ff", "-0000000", "+000000000000000001", "4611686018427387904", "9223372036854775807",
    "-9223372036854775808", "-0x8000000000000000", "9223372036854775806", "12345678901234", "5", "12", "3", "08",
    "9223372036854775808",
];

/// Where a text `T` stands in a word, and what stands beside it.
const PLACES: [&str; 40] = [
    "$((T))", "$((T))", "$((T))", "$((T))", "$((T))", "$((T))", "\"$((T))\"", "\"$((T))\"", "a$((T))b", "$((T))$n",
    "$n$((T))$n", "\"$n $((T)) $x\"", "${u-$((T))}", "${u=$((T))}", "${e:=$((T))}$e", "${n+$((T))}", "${n-$((T))}",
    "${u+$((T))}", "${x%$((T))}", "${n##$((T))}", "${n%$((n=12))}$((T))", "$(($((T))+n))", "$((n+$((T))))",
    "${#n}$((T))${#n}", "$((T)) $n ${#n}", "$((T)) $((T))", "$((T))$((T))", "$((T)) $((n+=1)) $n", "$(($t))",
    "$(($t))", "$(($t)) $((n+1))", "\"$(($t))\"$n", "${u?$((T))}", "${n?$((T))}", "~$((T))", "$((T)) ~/a",
    "$((IFS=1))$((T))", "$x$((T))$((IFS=n))", "$((HOME=n)) ~ $((T))", "$((T+(T)))",
];
/// Names that come from expansions, whole or in part.
const EXPANDED: [&str; 16] = [
    "$(($p=3))", "$((${p}+=1))", "$(($p =n)) $n", "$((x$n=1))", "$((x$e=1))", "$((n$p-=1))", "$(($1=5))",
    "$(($2$1=4))", "$((${u-w}=3))", "$((${u-n}+=2))", "$(($t))", "$(($t))", "$(($p=$p+1))", "$((${x+n}*=2))",
    "$((${p#?}=1))", "$(($1+=$#))",
];
const BEFORE: [&str; 12] =
    ["", "", "", "", "", "a ", "$n ", "$((n=n+1)) ", "$((x=12345678901234)) ", "${w=1} ", "$((w=u=0))", "'' "];
/// Behind it what sees the stores, and what undoes them.
const BEHIND: [&str; 34] = [
    "", "", "", "", "", "", "", "", "", "", " $n", " $n", " \"$n$x\"", " $((n+=1))", " ${n#?}", " $((x=0))", "$n",
    " $((n*=n)) $n", " ${u-$n}", " $((y=n)) $y", " $((1/0))", "$((n/0))", " ${u?gone}", " ${u?no $n of $((x+=1))}",
    " ${n#[[:a:]]}", "[[.b.]", " $((v))", " $((n=))", " $((most+=1))", " ${w=0123456789 no room}",
    " $((w_8=1))$((w_9=12345))", "\n|", " $((x=1))", " ${#n}",
];

/// The call of this case, about assignments in arithmetic alone; the same for the same seed and case.
pub fn call(seed: u64, case: u64) -> Call {
    let random = &mut Random::new(seed, case);
    let call = made(random);
    finished(random, call)
}

/// A line for any of the three jobs that take one.
pub fn made(random: &mut Random) -> Call {
    if random.once_in(4) {
        let mut lent = ordinary(random);
        values(random, &mut lent);
        return Call::Lines(Job::Assign, lent);
    }
    words(random)
}

/// A line of words, often with a list of parameters among them.
pub fn words(random: &mut Random) -> Call {
    let mut lent = ordinary(random);
    lend(random, &mut lent);
    lent.line = line(random);
    if random.once_in(30) {
        lent.line = [b"$((".to_vec(), long(random), b"))".to_vec()].concat();
    } else if random.below(8) < 5 {
        lists::join(random, &mut lent);
    }
    if random.once_in(4) {
        leave_behind(random, &mut lent);
    }
    Call::Lines(job(random), lent)
}

/// An assignment line whose values have such texts.
pub fn values(random: &mut Random, lent: &mut Lent) {
    lend(random, lent);
    let words: Vec<Vec<u8>> = (0..*random.pick(&[1, 1, 2, 3]))
        .map(|_| {
            let place =
                random.text(&["$((T))", "$((T))", "$((T))", "$n$((T))$n", "${u-$((T))}", "$(($t))", "a", "$n", ""]);
            [random.text(&NAMES), b"=".to_vec(), placed(random, &place)].concat()
        })
        .collect();
    lent.line = words.join(&b' ');
    if random.once_in(5) {
        lent.line.extend(random.text(&[" x=$((1/0))", " y=${w?no $n}", " n=$((n=))", " x=012345678901234567", " |"]));
    }
}

/// Numbers under most of the names, and what is none under `v`.
pub fn variables(random: &mut Random) -> Table {
    let mut table = Table::from([(b"least".to_vec(), b"-9223372036854775808".to_vec())]);
    table.insert(b"most".to_vec(), b"9223372036854775807".to_vec());
    let over = random.text(&["9223372036854775808", "-9223372036854775809", "99999999999999999999"]);
    table.insert(b"over".to_vec(), over);
    table.insert(b"v".to_vec(), random.text(&["08", "1+1", " 1", "a b", "--1", "0x", "1 "]));
    for name in ["n", "n", "x", "y", "A1", "e", "name_9"] {
        if !random.once_in(4) {
            table.insert(name.into(), random.text(&VALUES));
        }
    }
    if random.once_in(3) {
        table.insert(b"e".to_vec(), Vec::new());
    }
    table
}

/// Lends these, a text in `t`, a name in `p`, perhaps IFS and HOME, and room for little more.
fn lend(random: &mut Random, lent: &mut Lent) {
    let mut table = variables(random);
    table.insert(b"p".to_vec(), random.text(&["n", "n", "x", "u", "name_9", "n=", "5", "-n"]));
    for name in ["IFS", "HOME"] {
        if random.once_in(4) {
            table.insert(name.into(), random.text(&["", "1", "-", "5 ", "0x10", " "]));
        }
    }
    let text = if random.once_in(12) { long(random) } else { text(random) };
    table.insert(b"t".to_vec(), text);
    lent.variables = image(&table);
    lent.used = lent.variables.len();
    lent.variables_buffer = lent.used + random.pick(&[0, 1, 3, 6, 20, 60, 200, 200, 200, 200, 200, 200, 200]);
    if random.once_in(40) {
        lent.variables = filled(Kind::Pairs, limits::IMAGE - random.below(12));
        lent.used = lent.variables.len();
        lent.variables_buffer = *random.pick(&[8_192, 8_193, 9_000]);
    }
    if random.once_in(2) {
        lent.parameters = of_texts(&["n", "x", "12"]);
    }
}

fn line(random: &mut Random) -> Vec<u8> {
    let place = if random.once_in(8) { random.text(&EXPANDED) } else { random.text(&PLACES) };
    [random.text(&BEFORE), placed(random, &place), random.text(&BEHIND)].concat()
}

/// A place with texts at each `T`.
fn placed(random: &mut Random, place: &[u8]) -> Vec<u8> {
    let mut word = Vec::new();
    for &byte in place {
        match byte {
            b'T' => word.extend(text(random)),
            _ => word.push(byte),
        }
    }
    word
}
