//! Cases about `?` on a missing value: what its operand gives as the message, tildes and quotes in it, what refuses in place of 13, one `?` inside another,
//! stores that are undone, and words before and behind.

use super::random::Random;
use super::tables::{self, image, Table};
use super::tildes::tilde;
use super::{about, answered, finished, lone};
use crate::case::{Call, Job, Lent};
use crate::limits;
use crate::number::Number;

const MISSING: [&str; 14] =
    ["u?", "u?", "u:?", "u:?", "w?", "w:?", "e:?", "e:?", "99?", "12:?", "9:?", "7?", "q_1?", "A:?"];
const THERE: [&str; 7] = ["x?", "x:?", "e?", "n:?", "1?", "2:?", "v?"];
const TEXTS: [&str; 18] = [
    "no base file chosen", "no", "base", "gone: ", "a", " ", "  ", "#1", "(see log)", "; | & <>", "*", "[a-c]", "~",
    "/~", "\u{e9}", "\t", "\n", "$",
];
const QUOTES: [&str; 16] = [
    "'it is'", "\"no $x\"", "\"\"", "''", "\"~\"", "'~'", "\\}", "\\\"", "\\\\", "\\'", "\\~", "'}'", "\"}\"",
    "\"${w-~}\"", "\"$1 '\"", "\"\\$x\"",
];
/// In double quotes a backslash is itself before all but a few bytes, and a single quote is plain.
const ESCAPES: [&str; 9] = ["\\}", "\\\"", "\\\\", "\\$", "\\a", "'", "'a b'", "~", "\\`"];
const EXPANSIONS: [&str; 20] = [
    "$x", "${x}", "$e", "$u", "${#x}", "${x%b}", "${x##* }", "$((n+1))", "$#", "$1", "${2}", "${99-none}", "${HOME}",
    "${x+${e:-y}}", "${u-a  b}", "${w-~}", "${w:-'q r'}", "${x#[[:alpha:]]}", "${e+$x }", "${x:?never shown}",
];
const STORES: [&str; 10] = [
    "${w=kept}", "${w:=$x}", "${e:=a}", "${u=b c}", "${IFS=:}", "${q_1=${w=1}2}", "${w='a  b'}", "${u:=${u:=c}d}",
    "${HOME=/}", "$((${w=3}+1))",
];
/// What refuses when it is expanded: 12 of an arithmetic text, 14, 15, 16, 17, 18, 19, 20.
const REFUSED: [&[&str]; 8] = [
    &["$((!!!!!!!!!!!!!!!!!!!!!!!!!!!!!!!!!1))", "$((-----------------((((((((((((((((1))))))))))))))))))"],
    &["$v$v$v$v", "$((1$v$v$v$v))", "${v+$v$v}a$v$v", "\"$v$v$v\"$v"],
    &["$((08))", "$((t))", "$((n+0x))"],
    &["$((1+))", "$(( ))", "$((1 1))", "$((n=))"],
    &["$((9223372036854775807+1))", "$((9223372036854775808))", "$((1<<64))"],
    &["$((1/0))", "$((n%0))", "$((1/e))"],
    &["${x#[[:word:]]}", "${x%[[.a.]]}", "${e##[a-[:digit:]]}", "${u%%[[=a=]]}"],
    &[
        "${w=$v$v}",
        "${w=no room for all of this in the buffer that is lent}",
        "${e:=0123456789012345678901234567890123456789}",
        "${q_1=${w=0123456789}0123456789012345678901234567890123456789}",
    ],
];
/// What is refused in reading, whatever the value is.
const UNREAD: [&str; 8] = ["$@", "\"$*\"", "${@}", "`", "$(a)", "${x", "${x.}", "$0"];

/// Where a `?` stands in a word, and whether its operand is read as bare text there.
const PLACES: [(&str, &str, bool); 24] = [
    ("", "", true),
    ("", "", true),
    ("", "", true),
    ("", "", true),
    ("", "", true),
    ("a", "b", true),
    ("$x", "", true),
    ("~/", "", true),
    ("''", "$e", true),
    ("\"", "\"", false),
    ("\"", "\"", false),
    ("\"a $x", " \"", false),
    ("$((1+", "))", false),
    ("\"$((", "))\"", false),
    ("${w-", "}", true),
    ("${x+a ", "}", true),
    ("${w=", "c}", true),
    ("${x%", "}", true),
    ("\"${x##", "}\"", true),
    ("$((${n#", "}))", true),
    ("${w-\"", "\"}", false),
    ("\"${w:-", "}\"", false),
    ("${w?${x+", "}}", true),
    ("${w:?a ", "}", true),
];
const BEFORE: [&str; 20] = [
    "", "", "", "", "", "", "", "a ", "$x ", "${w=kept} ", "${e:=b c}\t", "\"$@\" ", "$*\n", "a$@ ", "\"$*\" ", "~ ",
    "* ", "${IFS:=,} ", "${x?fine} ", "'' ",
];
const BEHIND: [&str; 13] =
    ["", "", "", "", "", " b", " $x", " ${u?behind}", " $((1/0))", "\t\"$@\"", " $*", " ${u=late}", " ${x#[[:a:]]}"];
/// Faults of reading, which come before any demand.
const FAULTS: [&str; 4] = ["\n|", " ${x", " $0", "'"];

/// The call of this case, about a `?` alone; the same for the same seed and case.
pub fn call(seed: u64, case: u64) -> Call {
    let random = &mut Random::new(seed, case);
    let call = lone(random, self::case);
    finished(random, call)
}

/// A line with a `?`, mostly on a missing value.
pub fn case(random: &mut Random, lent: &mut Lent) {
    let mut table = Table::from([(b"e".to_vec(), vec![]), (b"n".to_vec(), b"7".to_vec())]);
    table.insert(b"t".to_vec(), b"1+1".to_vec());
    table.insert(b"x".to_vec(), if random.once_in(2) { b"north field b".to_vec() } else { tables::value(random) });
    if random.once_in(2) {
        let length = random.between(520, 700);
        table.insert(b"v".to_vec(), vec![*random.pick(b"x1 "); length]);
    }
    if !random.once_in(3) {
        table.insert(b"HOME".to_vec(), random.text(&["/home/crew", "/home/crew", "/a b", "", "*"]));
    }
    if random.once_in(3) {
        table.insert(b"IFS".to_vec(), random.text(&["", ":", " ", "o", "/"]));
    }
    lent.variables = image(&table);
    lent.used = lent.variables.len();
    lent.variables_buffer = lent.used + random.pick(&[5, 20, 60, 200, 200, 5_000]);
    let mut words = Words { random, depth: 0 };
    lent.line = words.line();
}

/// A `?`, mostly on a missing value, as it may stand in bare text or in double quotes.
pub fn demand(random: &mut Random, bare: bool) -> Vec<u8> {
    Words { random, depth: 0 }.demand(bare)
}

struct Words<'a> {
    random: &'a mut Random,
    depth: usize,
}

impl Words<'_> {
    fn line(&mut self) -> Vec<u8> {
        let (open, close, bare) = *self.random.pick(&PLACES);
        let demand = self.demand(bare);
        let before = self.random.text(&BEFORE);
        let behind = if self.random.once_in(40) { self.random.text(&FAULTS) } else { self.random.text(&BEHIND) };
        [before, open.into(), demand, close.into(), behind].concat()
    }

    fn demand(&mut self, bare: bool) -> Vec<u8> {
        let demand = if self.random.once_in(16) { self.random.text(&THERE) } else { self.random.text(&MISSING) };
        self.depth += 1;
        let operand = self.operand(bare);
        self.depth -= 1;
        [b"${".to_vec(), demand, operand, b"}".to_vec()].concat()
    }

    fn operand(&mut self, bare: bool) -> Vec<u8> {
        let mut operand = match self.random.below(12) {
            0 => return Vec::new(),
            1..=2 if bare => return tilde(self.random, true),
            3 => tilde(self.random, true),
            4 => self.random.text(&["~/", "~crew/", "~a/"]),
            _ => Vec::new(),
        };
        for _ in 0..self.random.between(1, 4) {
            operand.extend(self.piece(bare));
        }
        operand
    }

    fn piece(&mut self, bare: bool) -> Vec<u8> {
        match self.random.below(40) {
            0..=14 => self.random.text(&TEXTS),
            15..=20 if bare => self.random.text(&QUOTES),
            15..=20 => self.random.text(&ESCAPES),
            21..=28 => self.random.text(&EXPANSIONS),
            29..=31 => self.random.text(&STORES),
            32..=33 => self.refused(),
            34 if self.random.once_in(6) => self.random.text(&UNREAD),
            35..=37 if self.depth < 4 => self.demand(bare),
            38 if self.depth < 4 => self.choice(bare),
            _ => self.random.text(&TEXTS),
        }
    }

    /// Something that refuses, each number about as often.
    fn refused(&mut self) -> Vec<u8> {
        let refused = *self.random.pick(&REFUSED);
        self.random.text(refused)
    }

    /// Another form, with an operand that is used or not.
    fn choice(&mut self, bare: bool) -> Vec<u8> {
        let form = self.random.text(&["u-", "w:-", "x+", "e+", "x-", "u+", "w=", "99-"]);
        self.depth += 1;
        let operand = self.operand(bare);
        self.depth -= 1;
        [b"${".to_vec(), form, operand, b"}".to_vec()].concat()
    }
}

/// Lends a message buffer: of any length, or, if a message is demanded, mostly of about as many bytes as it has.
pub fn lend_room(random: &mut Random, job: Job, lent: &mut Lent) {
    lent.message = limits::ROW;
    let answer = answered(job, lent);
    lent.message = match random.below(10) {
        0..=5 if answer.number == Number::Missing as u8 => about(random, answer.message),
        6 if answer.number == Number::Missing as u8 => random.below(answer.message + 1),
        7 => 0,
        _ => *random.pick(&[0, 1, 2, 3, 8, 10, 64, 64, 64, 100, 2_048, 3_000]),
    };
}
