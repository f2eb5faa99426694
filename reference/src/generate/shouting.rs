//! Cases about the switch: parameters that are unset or set in every form and in arithmetic, those that are exempt, sides and operands that are not needed, and
//! faults that come before 25 or behind it.

use super::random::Random;
use super::tables::{image, Table};
use super::{finished, job, lists, ordinary};
use crate::case::{Call, Job, Lent};
use crate::image::of_texts;

/// Names that are seldom set, and names that mostly are.
const UNSET: [&str; 6] = ["u", "w", "bsae", "bsae", "q_1", "Base"];
const SET: [&str; 6] = ["x", "x", "e", "n", "base", "y"];
/// Numbers that a list seldom has.
const NUMBERS: [&str; 6] = ["1", "2", "9", "12", "99", "4294967297"];

/// What asks for a value: `N` is a name, `P` a name or a number, `S` a name that is mostly set.
const ASKING: [&str; 34] = [
    "$N", "$N", "$N", "${P}", "${P}", "${#P}", "${#P}", "${P%a}", "${P%%*}", "${P#a}", "${P##*b}", "${P%[!a]}",
    "$((N))", "$((N+1))", "$((1+N))", "$((N+=1))", "$((N-=1))", "$((N*=N))", "$((N/=2))", "$((N%=n))", "$((S=N))",
    "$((N=N+1))", "$((-N))", "$((!N))", "$((N?1:2))", "$((N&&1))", "$((1&&N))", "$((0||N))", "$((1?N:2))", "$((N==0))",
    "$((N+(N=1)))", "$9", "$8", "$((S+N))",
];
/// What does not, or only of what is set by then.
const SPARED: [&str; 48] = [
    "${P-a}", "${P:-a b}", "${N=a}", "${N:=a}", "${P+a}", "${P:+a}", "${P-}", "${P+}", "${N=}", "$@", "$*", "\"$@\"",
    "\"$*\"", "${@}", "\"a$*\"", "$#", "${#}", "~", "~/a", "~nobody", "${u-~}", "$((N=1))", "$((N=n))", "$((0&&N))",
    "$((1||N))", "$((1?2:N))", "$((0?N:3))", "$((0&&(N+=1)))", "$((1||(N=N)))", "${S-$N}", "${S+a}", "${N+$N}",
    "${N-${N-b}}", "${N=1}$N", "${N=1}${#N}", "$((N=1))$N", "$((N=1)) $((N+=1))", "${N=ab}${N%b}", "$((N+=N=1))",
    "${N-$x}", "'$N'", "\\$N", "\"\\$N\"", "${S?$N}", "${N?gone}", "${P:?no $x}", "${N:=$x}$N", "${N-'$N'}",
];
/// Faults beside 25: which comes first is told by the order in which things are looked up.
const BESIDE: [&str; 30] = [
    "${N%${N=1}}",
    "${N%$((1/0))}",
    "${N#[[:a:]]}",
    "${N##${w?gone}}",
    "${x%$N}",
    "${x%%$((N))}",
    "$((1/0+N))",
    "$((N+1/0))",
    "$((N+=1/0))",
    "$((N/=0))",
    "$((N%=0))",
    "$((v+N))",
    "$((N+v))",
    "$((v+=N))",
    "$((N=v))",
    "$((08+N))",
    "$((N+))",
    "$((N N))",
    "${w?$N}",
    "${w:?a ${N-b} ${#N}}",
    "${w?${N?gone}}",
    "${w?$((N))}",
    "${w=$N}",
    "${w:-$((N))}",
    "$((9223372036854775807+1+N))",
    "${#N}[[.a.]",
    "${w=kept}$N",
    "${N=0123456789012345678901234567}",
    "$((N=12345678))${#u}",
    "$((w=5))$N",
];
/// Where it stands.
const PLACES: [&str; 18] = [
    "T", "T", "T", "T", "\"T\"", "\"T\"", "aTb", "\"a T\"", "${u-T}", "\"${u-T}\"", "${x+T}", "${x-T}", "$((1${x+T}))",
    "${w=T}", "${x%T}", "${w-${u-T}}", "T T", "${e:-T}",
];

/// The call of this case, about the switch alone; the same for the same seed and case.
pub fn call(seed: u64, case: u64) -> Call {
    let random = &mut Random::new(seed, case);
    let call = made(random);
    finished(random, call)
}

/// A line for any of the three jobs that take one, mostly with the switch on.
pub fn made(random: &mut Random) -> Call {
    let mut lent = ordinary(random);
    lend(random, &mut lent);
    lent.shout = !random.once_in(6);
    if random.once_in(4) {
        lent.line = values(random);
        return Call::Lines(Job::Assign, lent);
    }
    let words: Vec<Vec<u8>> = (0..*random.pick(&[1, 1, 2, 3])).map(|_| word(random)).collect();
    lent.line = words.join(&b' ');
    if random.once_in(4) {
        lists::join(random, &mut lent);
    }
    Call::Lines(job(random), lent)
}

/// Few of the names are set, HOME and IFS too, and there are few parameters or none.
fn lend(random: &mut Random, lent: &mut Lent) {
    let mut table = Table::from([(b"v".to_vec(), b"08".to_vec())]);
    for name in SET {
        if !random.once_in(8) {
            table.insert(name.into(), random.text(&["1", "7", "ab", "", "12", "a b"]));
        }
    }
    table.insert(b"e".to_vec(), Vec::new());
    for name in ["u", "w", "bsae", "q_1", "Base"] {
        if random.once_in(5) {
            table.insert(name.into(), random.text(&["1", "", "ab", "a b", "0"]));
        }
    }
    for (name, values) in [("HOME", ["/home/crew", "", "/h"]), ("IFS", [":", "", " "])] {
        if random.once_in(3) {
            table.insert(name.into(), random.text(&values));
        }
    }
    lent.variables = image(&table);
    lent.used = lent.variables.len();
    lent.variables_buffer = lent.used + random.pick(&[0, 12, 60, 200, 200]);
    lent.parameters = match random.below(3) {
        0 => of_texts::<&str>(&[]),
        1 => of_texts(&["ab", ""]),
        _ => of_texts(&lists::parameters(random)),
    };
}

fn values(random: &mut Random) -> Vec<u8> {
    let mut words = Vec::new();
    for _ in 0..*random.pick(&[1, 1, 2, 3]) {
        let name = random.text(&["x=", "u=", "bsae=", "out=", "w=", "IFS="]);
        words.push([name, random.text(&["", "", "~:", "a"]), one_word(random)].concat());
    }
    words.join(&b' ')
}

/// A word without a blank outside its expansions, and without a list.
fn one_word(random: &mut Random) -> Vec<u8> {
    loop {
        let word = word(random);
        let list = word.windows(2).any(|two| matches!(two, b"$@" | b"$*" | b"{@"));
        if !list && !word.contains(&b' ') {
            return word;
        }
    }
}

fn word(random: &mut Random) -> Vec<u8> {
    let mut word = Vec::new();
    for byte in random.text(&PLACES) {
        match byte {
            b'T' => word.extend(piece(random)),
            _ => word.push(byte),
        }
    }
    word
}

fn piece(random: &mut Random) -> Vec<u8> {
    let piece = match random.below(20) {
        0..=7 => random.text(&ASKING),
        8..=15 => random.text(&SPARED),
        _ => random.text(&BESIDE),
    };
    let (name, set) = (name(random), random.text(&SET));
    let parameter = if random.once_in(3) { random.text(&NUMBERS) } else { name.clone() };
    let mut filled = Vec::new();
    for byte in piece {
        match byte {
            b'N' => filled.extend(&name),
            b'P' => filled.extend(&parameter),
            b'S' => filled.extend(&set),
            _ => filled.push(byte),
        }
    }
    filled
}

fn name(random: &mut Random) -> Vec<u8> {
    if random.once_in(4) {
        return random.text(&SET);
    }
    random.text(&UNSET)
}
