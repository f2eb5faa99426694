//! Cases about the limits: lines and rows of 2,047 to 2,049, with break marks too, images of 8,191 to 8,193, paths of 32,768 and one more.

use super::ordinary;
use super::random::Random;
use super::tables::{filled, image, Kind, Table};
use crate::case::{Call, Job, Lent};
use crate::image::of_texts;
use crate::limits;

pub fn call(random: &mut Random) -> Call {
    let mut lent = ordinary(random);
    match random.below(67) {
        0..=5 => lent.line = line(random),
        54..=57 | 6..=13 => row(random, &mut lent),
        14..=15 => variables(random, &mut lent),
        16..=17 => lent.homes = filled(Kind::Pairs, about(random, limits::IMAGE)),
        18..=19 => output(random, &mut lent),
        20..=21 => store(random, &mut lent),
        58..=62 | 22..=24 => return quoter(random),
        25..=27 => {
            quoted(random, &mut lent);
            return Call::Lines(Job::Normalise, lent);
        }
        28..=29 => paths(random, &mut lent),
        30..=46 => list(random, &mut lent),
        47..=48 => full_list(random, &mut lent),
        _ => directory(random, &mut lent),
    }
    let job = *random.pick(&[Job::Expand, Job::Expand, Job::Normalise]);
    Call::Lines(job, lent)
}

/// The limit, one less or one more.
fn about(random: &mut Random, limit: usize) -> usize {
    random.between(limit - 1, limit + 1)
}

/// A line of bytes about the limit.
fn line(random: &mut Random) -> Vec<u8> {
    let length = about(random, limits::LINE);
    let (open, fill, close) = *random.pick(&[
        ("", "x", ""),
        ("", " ", ""),
        ("'", "x", "'"),
        ("\"", "x", "\""),
        ("${e+", "x", "}"),
        ("", "''", ""),
        ("", "$u", ""),
        ("$((1", " ", "))"),
        ("a ", "\\x", ""),
        ("'", "x", ""),
        ("~", "a", "/"),
    ]);
    let mut line = open.as_bytes().to_vec();
    while line.len() + close.len() < length {
        line.extend_from_slice(fill.as_bytes());
    }
    line.extend_from_slice(close.as_bytes());
    line
}

/// A value of a length about the limit, and lines that make rows of it.
fn row(random: &mut Random, lent: &mut Lent) {
    let length = random.between(limits::ROW - 2, limits::ROW + 1);
    let fill = *random.pick(&[b'x', b'x', b'x', b' ', b':', b'1']);
    let table = Table::from([(b"e".to_vec(), vec![]), (b"v".to_vec(), vec![fill; length])]);
    lent.line = random.text(&[
        "$v", "\"$v\"", "a$v", "$v$e", "$v''", "$v\"\"", "$v\\a", "a ${u-$v}", "${u-\"$v\"}", "${u=$v}$u",
        "${u=${v}a}", "${v%x}$e", "$v${v%%x*}", "x$v${v##*}", "$(( 1$v ))", "$((0$v))", "$v$((1/0))", "$v${u?}",
        "${#v}$v", "${v+a$v}", "\"${u:-$v}\"a", "${e:=a}$v", "${v#${v}}a", "${v%%\"$v\"}a", "${u?$v}", "${u?\"$v\"}",
        "\"${e:?$v}\"", "${u?$v''}", "a$v${u?$v}", "$((${u?$v\\a}))", "${u?${w?$v}a}",
    ]);
    given(lent, image(&table));
}

/// A directory of a length about the limit, HOME's or a login's, and lines that make rows of it at the start of a word or an operand.
fn directory(random: &mut Random, lent: &mut Lent) {
    let length = random.between(limits::ROW - 2, limits::ROW + 1);
    let directory = vec![*random.pick(&[b'x', b'x', b'x', b' ', b':', b'1']); length];
    let mut line = random.text(&[
        "~", "~/", "a ~", "~ b", "${u-~}", "${u:-~}a", "a ${u-~/}", "${u-~}$e", "${e+~}", "${e+~/}", "a${e+~}",
        "${u=~}", "b${u=~}", "${u=~/}", "${u-${w-~}''}", "${v#~}", "\"${v##~}\"", "${v%~}a", "${v%%~}", "${v%%~/}",
        "${v#~/}", "${e?~}", "\"${u-~}\"", "$((1${v#~}))", "${u?~}", "${e:?~/}", "a ${u?~}", "\"${u?~}\"",
    ]);
    let mut table = Table::from([(b"e".to_vec(), vec![]), (b"v".to_vec(), directory.clone())]);
    if random.once_in(4) {
        line = String::from_utf8(line).expect("a line of ASCII").replace('~', "~crew").into_bytes();
        lent.homes = image(&Table::from([(b"crew".to_vec(), directory)]));
    } else {
        table.insert(b"HOME".to_vec(), directory);
    }
    lent.line = line;
    given(lent, image(&table));
}

/// Parameters whose list makes a row about the limit: so many bytes, break marks and, in quotes, empty marks. `v` fills a row but for a unit or two.
fn list(random: &mut Random, lent: &mut Lent) {
    let (line, quoted) = *random.pick(&[
        ("$@", false),
        ("$*", false),
        ("a$@", false),
        ("$@b", false),
        ("${@}$e", false),
        ("${u-$@}", false),
        ("${u-$*}''", false),
        ("$@${u?}", false),
        ("a ${e+$@}", false),
        ("\"$@\"", true),
        ("\"$@\"$e", true),
        ("\"a$@\"", true),
        ("\"${u-$@}\"", true),
        ("${u-\"$@\"}", true),
        ("\"$@\"\"\"", true),
        ("\"$*\"", false),
        ("\"${e+$*}\"b", false),
        ("$v\"$@\"", true),
        ("$v\"$e$@\"a", true),
        ("$v\"$@\"''", true),
        ("$v$@$*", false),
        ("$v\"$*\"", false),
    ]);
    let units = random.between(limits::ROW - 3, limits::ROW + 1);
    let mut table = Table::from([(b"e".to_vec(), vec![]), (b"v".to_vec(), vec![b'x'; units])]);
    if random.once_in(2) {
        table.insert(b"IFS".to_vec(), random.text(&["", ":", "x", "a "]));
    }
    given(lent, image(&table));
    lent.line = line.into();
    let none = line.starts_with("$v") && !random.once_in(8);
    lent.parameters = if none { of_texts::<&str>(&[]) } else { of_texts(&texts(random, units, quoted)) };
}

/// Parameters of just so many units, break marks and, in quotes, empty marks counted.
fn texts(random: &mut Random, units: usize, quoted: bool) -> Vec<Vec<u8>> {
    let marks = if quoted { 2 } else { 1 };
    let length = *random.pick(&[0, 0, 1, 1, 2, 7, 100, 900]);
    let byte = *random.pick(b"xx: 1");
    let count = units / (length + marks);
    let last = units - count * (length + marks);
    let mut texts = vec![vec![byte; length]; count];
    texts.push(vec![byte; last]);
    texts
}

/// An image of parameters about its limit, one long or many.
fn full_list(random: &mut Random, lent: &mut Lent) {
    let length = about(random, limits::IMAGE);
    lent.parameters = match random.below(3) {
        0 => filled(Kind::Fields, length),
        1 => of_texts(&[vec![""; 4_000], vec![&"x".repeat(length - 8_003)]].concat()),
        _ => of_texts(&[vec!["a"; 2_000], vec![&"x".repeat(length - 6_003)]].concat()),
    };
    lent.line = random.text(&["$#", "${#1} ${#2001}", "${4001}", "$1", "${2001#x}", "a", "|", "$@", "\"$*\""]);
}

/// Lends an image of variables in a buffer with room for more.
fn given(lent: &mut Lent, image: Vec<u8>) {
    lent.used = image.len();
    lent.variables_buffer = image.len().max(limits::IMAGE);
    lent.variables = image;
}

/// An image of variables about the limit, in a buffer just as long or longer.
fn variables(random: &mut Random, lent: &mut Lent) {
    let length = about(random, limits::IMAGE);
    given(lent, filled(Kind::Pairs, length));
    lent.variables_buffer = length + random.pick(&[0, 0, 1, 900]);
    lent.line = random.text(&["${#f}", "a", "${f%x}", "${u=}", "|", ""]);
}

/// Fields whose image is about the limit, and an output that has room for it or just about.
fn output(random: &mut Random, lent: &mut Lent) {
    let length = about(random, limits::IMAGE);
    let value = 1_000;
    given(lent, image(&Table::from([(b"v".to_vec(), vec![b'x'; value])])));
    let last = length - 1 - 8 * (value + 2) - 2;
    lent.line = [b"$v ".repeat(8), vec![b'y'; last]].concat();
    lent.out = *random.pick(&[8_191, 8_192, 8_193, 9_000]);
}

/// A store that makes the variables' image about its limit or its buffer's.
fn store(random: &mut Random, lent: &mut Lent) {
    let table = filled(Kind::Pairs, limits::IMAGE - 20);
    given(lent, table);
    lent.variables_buffer = *random.pick(&[8_191, 8_192, 8_193, 9_000]);
    lent.line = format!("a ${{u={}}}", "x".repeat(random.between(13, 16))).into_bytes();
}

/// Fields whose quoted line is about its limit, bare ones, quoted ones or both, or an image of fields about its own.
fn quoter(random: &mut Random) -> Call {
    let out = *random.pick(&[2_047, 2_048, 2_049, 9_000, 0]);
    let length = about(random, limits::LINE);
    let fields = match random.below(12) {
        10..=11 => of_texts(&escaped(random, length)),
        0 => of_texts(&[",".repeat(length - 2)]),
        1 => of_texts(&["x".repeat(length)]),
        2 => of_texts(&["'".to_string(), "x".repeat(length - 7)]),
        3 => of_texts(&vec![""; length / 3 + 1]),
        4..=6 => fields(random, length),
        _ => filled(Kind::Fields, about(random, limits::IMAGE)),
    };
    Call::Quote { fields, out }
}

/// Many short fields of one kind or two, and a last one that makes their quoted line just this long.
fn fields(random: &mut Random, length: usize) -> Vec<u8> {
    let (short, bytes) = *random.pick(&[(["a", "-"], 4), (["", "b"], 5), ([" ", ""], 7), (["/", ":"], 6)]);
    let count = random.between(1, (length - 3) / bytes);
    let rest = length - count * bytes;
    let last = if random.once_in(2) { "x".repeat(rest) } else { "~".repeat(rest - 2) };
    of_texts(&[short.repeat(count), vec![&last]].concat())
}

/// A field with control bytes, quotes and backslashes, perhaps one beside it, whose quoted line is just this long.
fn escaped(random: &mut Random, length: usize) -> Vec<Vec<u8>> {
    let (byte, written) = *random.pick(&[(b'\r', 4), (b'\x7f', 4), (b'\'', 2), (b'\\', 2), (b'"', 1), (b'\xe9', 1)]);
    let (first, taken) = *random.pick(&[("\n", 7), ("\x01a", 8), ("a\\\t", 10)]);
    let beside = if random.once_in(2) { vec![b"a b".to_vec()] } else { Vec::new() };
    let rest = length - taken - beside.len() * "'a b' ".len();
    let field = [first.as_bytes(), &vec![byte; rest / written], &vec![b'x'; rest % written]].concat();
    [beside, vec![field]].concat()
}

/// A field or two whose quoted line is about the limit, in quotes or bare.
fn quoted(random: &mut Random, lent: &mut Lent) {
    let length = about(random, limits::LINE);
    let table = Table::from([(b"v".to_vec(), vec![b'x'; length - 3])]);
    given(lent, image(&table));
    lent.line = random.text(&[
        "$v\\,", "${v}:", "\"$v\"=", "${w=}$v\\ ", "$v ''", "\"\" $v", "$v ab", "ab \"$v\"", "\"${v}a\" b", "${v}ab/",
    ]);
    lent.out = *random.pick(&[2_047, 2_048, 2_049, 9_000]);
}

/// Paths whose image is 32,768 bytes or one more: one long path, or many of one byte more each.
fn paths(random: &mut Random, lent: &mut Lent) {
    let length = limits::PATHS_IMAGE + random.below(2);
    lent.paths = if random.once_in(2) { filled(Kind::Paths, length) } else { many_paths(length) };
    lent.line = random.text(&["a*", "*", "[x]?*", "x*y", "q", "0?", "00[0-3]?"]);
}

/// Paths of four bytes counting up, then one that fills the image.
fn many_paths(length: usize) -> Vec<u8> {
    let mut paths: Vec<String> = (0..5_000).map(|number| format!("{number:04}")).collect();
    let rest = length - 1 - 6 * paths.len() - 2;
    paths.push("x".repeat(rest));
    of_texts(&paths)
}
