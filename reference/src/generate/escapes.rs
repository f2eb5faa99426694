//! Cases about `$'...'`: texts of every escape, digits that run on, bytes that mean something elsewhere, texts that are refused or do not end, in every place
//! of a word and of operands, over values, paths and an IFS of the same bytes.

use super::random::Random;
use super::tables::{image, Table};
use super::{assignments, finished, job, lists, ordinary, quoting};
use crate::case::{Call, Job, Lent};
use crate::image::of_texts;
use crate::limits;

const LETTERS: [&str; 11] = ["\\\"", "\\'", "\\\\", "\\a", "\\b", "\\e", "\\f", "\\n", "\\r", "\\t", "\\v"];
/// Numbers, and such as stand before a digit that is theirs or not.
const NUMBERS: [&str; 32] = [
    "\\x1", "\\x0d", "\\x7f", "\\xFF", "\\x4", "\\x41", "\\x411", "\\x0D0", "\\x1g", "\\x9", "\\xaF", "\\x4\\x4",
    "\\1", "\\7", "\\15", "\\015", "\\0015", "\\101", "\\1011", "\\177", "\\377", "\\3777", "\\18", "\\79", "\\018",
    "\\1a", "\\40", "\\001", "\\1\\1", "\\200", "\\x80", "\\52",
];
/// Bytes that are themselves here, whatever they are elsewhere.
const PLAIN: [&[u8]; 30] = [
    b"a", b"b", b"1", b"0", b" ", b"  ", b"\t", b"\n", b"\r", b"`", b"`a`", b"$x", b"$", b"${", b"$((1))", b"\"", b"}",
    b"{", b"*", b"?", b"[a-c]", b"~", b"~/", b"|", b"#", b":", b"/", b"\xe9", b"\x80", b"\x01",
];
/// A zero byte, an octal value above 255, or another escape.
const REFUSED: [&str; 32] = [
    "\\0", "\\00", "\\000", "\\0000", "\\x0", "\\x00", "\\08", "\\x0g", "\\400", "\\777", "\\501", "\\4000", "\\x",
    "\\xg", "\\x ", "\\x\\", "\\8", "\\9", "\\c", "\\cA", "\\u0041", "\\z", "\\E", "\\?", "\\$", "\\`", "\\ ", "\\\n",
    "\\}", "\\X41", "\\N", "\\\u{e9}",
];
/// The ends of lines that end in a text.
const UNENDED: [&str; 18] = [
    "$'", "$'a", "$'\\", "$'a\\", "$'a\\x", "$'\\\\", "$'\\'", "$'\\x", "$'\\x4", "$'\\x41", "$'\\4", "$'\\40",
    "$'\\101", "$'\\0", "$'\\x0", "$'\\400", "$'\\n", "$'\\z",
];

/// Where a text `T` stands and is read as one.
const PLACES: [&str; 44] = [
    "T", "T", "T", "T", "T", "aT", "Tb", "aTb", "TT", "T''", "''T", "\"$x\"T", "$xT", "T$x", "~T", "~/T", "T*", "*T",
    "[T]", "[!T]*", "?T", "${u-T}", "${u:-aT b}", "${e:-T$x}", "${x+T}", "${e+T*}", "${u=T}", "${u=T}$u", "${w:=aT}",
    "${u?T}", "${e:?no T}", "${x?T}", "${x%T}", "${x%%T*}", "${x#T}", "${x##*T}", "\"${x%T}\"", "\"${x##*T}\"",
    "$((${n%T}))", "${u-${w-T}}", "${u-\"${x%T}\"}", "${u-~T}", "${u-~/T}", "${x%[T]}",
];
/// Where it does not begin a text: a `$` and a quote, or 11.
const ELSEWHERE: [&str; 12] = [
    "\"T\"", "\"a T\"", "\"${u-T}\"", "\"${x+T}\"", "\"${u=T}\"", "\"${u?T}\"", "$((T))", "$((1+T))", "$((${u-T}))",
    "'a'$\"T\"", "\\T", "$\\T",
];
const VALUES: [&[u8]; 18] = [
    b"a\rb", b"\r", b"a\n", b"\nb", b"\x7f", b"\x1b[1m", b"\ta\t", b"a", b"a b", b"*", b"\\", b"'", b"A", b"\x01",
    b"a\x01b", b"\xff", b"b\x07", b"$'a'",
];
const PATHS: [&[u8]; 16] = [
    b"\x01", b"\ta", b"\n", b"\r", b"*", b"A", b"a", b"a\x01b", b"a\nb", b"a\r", b"a\rb", b"a'b", b"a\\b", b"b\x7f",
    b"d/a\r", b"\xff",
];

/// The call of this case, about `$'...'` and the fields that are written so alone; the same for the same seed and case.
pub fn call(seed: u64, case: u64) -> Call {
    let random = &mut Random::new(seed, case);
    let call = made(random);
    finished(random, call)
}

/// A line of any of the three jobs that take one, or fields for the quoter.
fn made(random: &mut Random) -> Call {
    if random.once_in(8) {
        return quoting::call(random);
    }
    let mut lent = ordinary(random);
    if random.once_in(8) {
        values(random, &mut lent);
        return Call::Lines(Job::Assign, lent);
    }
    case(random, &mut lent);
    if random.once_in(4) {
        lists::join(random, &mut lent);
    }
    Call::Lines(job(random), lent)
}

/// A line of words, over tables for it.
pub fn case(random: &mut Random, lent: &mut Lent) {
    if random.once_in(40) {
        return row(random, lent);
    }
    lend(random, lent);
    let words: Vec<Vec<u8>> = (0..*random.pick(&[1, 1, 1, 2, 3])).map(|_| word(random)).collect();
    lent.line = words.join(&b' ');
    if random.once_in(9) {
        lent.line.extend(random.text(&UNENDED));
    }
}

/// An assignment line whose values have such texts.
pub fn values(random: &mut Random, lent: &mut Lent) {
    lend(random, lent);
    let mut words = Vec::new();
    for _ in 0..*random.pick(&[1, 1, 2, 3]) {
        let before = random.text(&["", "", "a:", "~/", "$x", ":~"]);
        words.push([random.text(&["x=", "y=", "out=", "u=", "HOME=", "IFS="]), before, word(random)].concat());
    }
    lent.line = words.join(&b' ');
    if random.once_in(6) {
        assignments::leave_behind(random, lent);
    }
}

fn lend(random: &mut Random, lent: &mut Lent) {
    let mut table = Table::from([(b"e".to_vec(), vec![]), (b"n".to_vec(), b"17".to_vec())]);
    for name in ["x", "y"] {
        table.insert(name.into(), random.pick(&VALUES).to_vec());
    }
    if random.once_in(3) {
        table.insert(b"IFS".to_vec(), random.text(&["\r", "\n", "", " ", "a", "\x01\t"]));
    }
    if random.once_in(2) {
        table.insert(b"HOME".to_vec(), random.text(&["/home/crew", "/a\r", ""]));
    }
    lent.variables = image(&table);
    lent.used = lent.variables.len();
    lent.variables_buffer = lent.used + random.pick(&[8, 60, 200, 200]);
    let mut paths: Vec<Vec<u8>> = PATHS.iter().map(|path| path.to_vec()).collect();
    paths.retain(|_| !random.once_in(3));
    paths.sort();
    lent.paths = of_texts(&paths);
}

/// A place with a text at each `T`.
fn word(random: &mut Random) -> Vec<u8> {
    let place = if random.once_in(10) { random.text(&ELSEWHERE) } else { random.text(&PLACES) };
    let mut word = Vec::new();
    for byte in place {
        match byte {
            b'T' => word.extend(text(random)),
            _ => word.push(byte),
        }
    }
    word
}

/// `$'`, what stands in it, and `'`.
pub fn text(random: &mut Random) -> Vec<u8> {
    let count = *random.pick(&[0, 1, 1, 1, 2, 2, 3, 5]);
    let mut inside: Vec<u8> = (0..count).flat_map(|_| piece(random)).collect();
    if random.once_in(9) {
        inside.extend(random.text(&REFUSED));
        inside.extend(piece(random));
    }
    [b"$'".as_slice(), &inside, b"'"].concat()
}

fn piece(random: &mut Random) -> Vec<u8> {
    match random.below(9) {
        0..=2 => random.text(&LETTERS),
        3..=5 => random.text(&NUMBERS),
        6 => random.text(&["\\\\n", "\\\\x41", "\\'a\\'", "\\\"a", "\\\\\\'", "\\015\\012"]),
        _ => random.pick(&PLAIN).to_vec(),
    }
}

/// A value about the limit of a row, and a text beside it: the empty mark and each escape are a unit.
fn row(random: &mut Random, lent: &mut Lent) {
    let value = vec![b'x'; random.between(limits::ROW - 4, limits::ROW)];
    lent.variables = image(&Table::from([(b"v".to_vec(), value)]));
    lent.used = lent.variables.len();
    lent.variables_buffer = limits::IMAGE;
    lent.line = random.text(&[
        "$v$''", "$v$'\\r'", "$v$'\\x41\\101'", "$'\\n'$v", "$v$'ab'", "${u-$v$'\\t'}", "${u=$v$'\\t'}", "$v$''$''",
        "${u?$v$'\\r'}", "$v$'\\\\\\''", "$v$'`'",
    ]);
}
