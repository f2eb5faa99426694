//! Cases about assignment lines: names and values of every kind, tildes behind `=` and `:`, values that shrink, images about their limit, words that are no
//! assignments, and tables that are none.

use super::random::Random;
use super::tables::{self, filled, image, Kind, Table, LOGINS};
use super::tildes::tilde;
use super::{counting, damage, demands, escapes, finished, grammar, lists, malformed, ordinary, unserved};
use crate::case::{Call, Job, Lent};
use crate::image::of_texts;
use crate::limits;

const NAMES: [&str; 16] =
    ["x", "x", "x", "y", "y", "e", "u", "u", "w", "out", "base", "HOME", "IFS", "_a", "A1", "name_9"];
const TEXTS: [&str; 26] = [
    "a", "b", "jobs", "/", "a/b", "=", "=~", "b=~", ":", ":", "::", "~", "a~", "*", "?", "[a-c]", "#", "{", "}", "%",
    "+", "!", "\u{e9}", "1", ".", "-",
];
const QUOTES: [&str; 16] = [
    "'a b'", "\"a  b\"", "''", "\"\"", "'~'", "\"~\"", "':~'", "\":~\"", "\\:~", "\\~", ":\\~", "\\ ", "'*'", "\"$x\"",
    "\"${x}:~\"", "\\=",
];
const EXPANSIONS: [&str; 36] = [
    "$x", "$x", "$y", "$u", "$e", "${out}", "${base}", "${#x}", "${x%:*}", "${x##*/}", "${x#?}", "${y%%[a-c]*}",
    "${u-~}", "${u-a:~}", "${x+~/b}", "${w-$x:$y}", "\"${u-~}\"", "${w='c d'}", "${e:=$x}", "${u=~}", "$((n+1))",
    "$((n+=1))", "$((x=12))", "$((${#x}*2))", "$((x))", "$1", "$#", "${2}", "${99-none}", "$HOME", "${HOME=/}",
    "${w:=longer and longer}", "${x-unused}", "${x:+$x$x}", "$x$x", "${y#\"$x\"}",
];
/// Words that are no assignment, or whose value cannot be read, and some beside them that are good.
const WORDS: [&str; 76] = [
    "a", "ab", "_", "1a=b", "1=b", "=b", "=", "a+=b", "a.b=c", "a-=1", "'a'=b", "\"a\"=b", "a\\=b", "a\\", "\\",
    "\\a=b", "$x=b", "${x}=b", "$=b", "a$x=b", "a${x=b", "a`=b", "`a=b", "a'=b", "a\"=b", "a|b=c", "a&=b", "a;", "a<",
    "a(=b", "|", "&", "&a=b", ";", "<a=b", ">", "(a=b)", ")", "#a=b", "#", "a#=b", "~=b", "a~=b", "*=b", "\u{e9}=b",
    "a\u{e9}=b", "a[1]=b", "{=b", "a}=b", "-a=b", "a =b", "a:=b", "a=(b)", "a=b|c", "a=b;c=d", "a=`b`", "a=$(b)",
    "a='b", "a=\"b", "a=\\", "a=\\\nb", "a=\"\\\n\"", "a=${x", "a=${x.}", "a=$'b'", "a=~|", "a=~`", "a=:~\\",
    "a=$((1)", "a=b\\\n", "a=b=c", "a==b", "a=#b", "a=b#c", "_=b", "a= b=",
];

/// The call of this case, about an assignment line alone; the same for the same seed and case.
pub fn call(seed: u64, case: u64) -> Call {
    let random = &mut Random::new(seed, case);
    let call = made(random);
    finished(random, call)
}

/// An assignment line over tables for it.
pub fn made(random: &mut Random) -> Call {
    let mut lent = ordinary(random);
    match random.below(110) {
        0..=8 => return spoiled(random),
        9..=20 => shrinking(random, &mut lent),
        21..=27 => rows(random, &mut lent),
        28..=31 => images(random, &mut lent),
        32..=35 => lent.line = if random.once_in(2) { grammar::line(random) } else { damage::random_bytes(random) },
        36..=45 => counting::values(random, &mut lent),
        46..=51 => escapes::values(random, &mut lent),
        _ => {
            lend(random, &mut lent);
            lent.line = line(random);
        }
    }
    if random.once_in(4) {
        leave_behind(random, &mut lent);
    }
    Call::Lines(Job::Assign, lent)
}

/// Variables with most of the names, short values and long ones, and directories.
fn lend(random: &mut Random, lent: &mut Lent) {
    let mut table = Table::from([(b"n".to_vec(), b"7".to_vec())]);
    for name in NAMES {
        if random.once_in(3) {
            table.insert(name.into(), value_before(random));
        }
    }
    if !random.once_in(3) {
        table.insert(b"HOME".to_vec(), random.text(&["/home/crew", "/home/crew", "/a b", "", ":", "~"]));
    }
    lent.variables = image(&table);
    lent.used = lent.variables.len();
    lent.variables_buffer = lent.used + random.pick(&[0, 10, 50, 200, 200, 200, 200]);
    let homes: Table =
        LOGINS.iter().map(|login| (login.as_bytes().to_vec(), random.text(&["/c", "/d e", "", ":"]))).collect();
    if random.once_in(2) {
        lent.homes = image(&homes);
    }
}

fn value_before(random: &mut Random) -> Vec<u8> {
    match random.below(4) {
        0 => vec![*random.pick(b"l:1"); random.between(5, 60)],
        1 => random.text(&["a:b:c", "/home/crew/x", "abc", "12", "a b", ":", "a"]),
        _ => tables::value(random),
    }
}

/// Bytes behind the image that are not those of an unused buffer.
pub fn leave_behind(random: &mut Random, lent: &mut Lent) {
    let room = lent.variables_buffer.saturating_sub(lent.variables.len());
    if room > 0 && lent.used == lent.variables.len() {
        let count = random.between(1, room.min(30));
        lent.variables.extend((0..count).map(|_| random.byte()));
    }
}

fn line(random: &mut Random) -> Vec<u8> {
    let count = *random.pick(&[1, 1, 2, 2, 3, 4]);
    let mut words: Vec<Vec<u8>> = (0..count).map(|_| assignment(random)).collect();
    if random.once_in(4) {
        let at = random.below(count + 1);
        words.insert(at, random.text(&WORDS));
    }
    if random.once_in(16) {
        let at = random.below(words.len());
        words[at].extend(unserved::text(random));
    }
    let between = random.text(&[" ", " ", " ", "  ", "\t", "\n", " \n"]);
    [random.text(&["", "", "", " ", "\n"]), words.join(between.as_slice()), random.text(&["", "", "", " "])].concat()
}

fn name(random: &mut Random) -> Vec<u8> {
    random.text(&NAMES)
}

fn assignment(random: &mut Random) -> Vec<u8> {
    let value = match random.below(16) {
        0 => Vec::new(),
        1..=4 => path(random),
        5..=7 => grammar::pieces(random, 1, grammar::Setting::Word),
        8 if random.once_in(2) => lists::any(random, 1, false),
        _ => (0..random.between(1, 4)).flat_map(|_| piece(random)).collect(),
    };
    [name(random), b"=".to_vec(), value].concat()
}

/// What folders are set to: parts between colons, many of them tildes.
fn path(random: &mut Random) -> Vec<u8> {
    let parts: Vec<Vec<u8>> = (0..random.between(1, 4))
        .map(|_| match random.below(8) {
            0 => Vec::new(),
            1 => random.text(&["~/jobs", "~crew/a", "~a/", "~crew", "~a"]),
            2..=4 => tilde(random, false),
            5 => random.text(&EXPANSIONS),
            _ => piece(random),
        })
        .collect();
    parts.join(&b':')
}

fn piece(random: &mut Random) -> Vec<u8> {
    match random.below(33) {
        0..=9 => random.text(&TEXTS),
        10..=13 => random.text(&QUOTES),
        14..=26 => random.text(&EXPANSIONS),
        27..=28 => [b":".to_vec(), tilde(random, false)].concat(),
        29 => demands::demand(random, true),
        30 => [b"\"".to_vec(), demands::demand(random, false), b"\"".to_vec()].concat(),
        31 => escapes::text(random),
        _ => random.text(&["$((1/0))", "$((08))", "$((1+))", "$((1<<64))", "${x#[[:a:]]}", "${y%[[.b.]]}", "\"$*\""]),
    }
}

/// Values that fall, rise and fall again within a line, in a buffer with hardly more room than the image has.
fn shrinking(random: &mut Random, lent: &mut Lent) {
    let mut table = Table::new();
    for name in ["e", "x", "y", "z"] {
        table.insert(name.into(), vec![*random.pick(b"lmn:"); random.below(40)]);
    }
    lent.variables = image(&table);
    lent.used = lent.variables.len();
    lent.variables_buffer = lent.used + random.pick(&[0, 0, 1, 5, 20, 60]);
    let mut words = Vec::new();
    for _ in 0..random.between(1, 4) {
        let (name, other) = (random.text(&["x", "y", "z", "e", "w"]), random.text(&["x", "y", "z", "e", "w"]));
        let (name, other) = (String::from_utf8_lossy(&name), String::from_utf8_lossy(&other));
        let (long, short) = ("l".repeat(random.below(40)), "s".repeat(random.below(4)));
        words.push(match random.below(10) {
            0 => format!("{name}="),
            1 => format!("{name}={short}"),
            2 => format!("{name}={long}"),
            3 => format!("{name}={long} {name}={short}"),
            4 => format!("{name}=${{{other}#?????}}"),
            5 => format!("{name}=${other} {other}="),
            6 => format!("{name}=${{w:={long}}} w={short} {name}="),
            7 => format!("{name}=${{#{other}}}"),
            8 => format!("{name}=${{{name}%?}}t"),
            _ => format!("{name}=${{{name}%${{{other}#??}}}}"),
        });
    }
    lent.line = words.join(" ").into_bytes();
}

/// Values about the limit of a row, of a value or a directory; the name does not count.
fn rows(random: &mut Random, lent: &mut Lent) {
    let length = random.between(limits::ROW - 2, limits::ROW + 1);
    let long = vec![*random.pick(b"xx: 1"); length];
    let mut table = Table::from([(b"e".to_vec(), vec![]), (b"v".to_vec(), long.clone())]);
    if random.once_in(2) {
        table.insert(b"HOME".to_vec(), long);
    }
    lent.variables = image(&table);
    lent.used = lent.variables.len();
    lent.variables_buffer = limits::IMAGE + random.below(9);
    let value = random.text(&[
        "$v", "\"$v\"", "a$v", "$v$e", "$v''", "$v\\a", "$v:", "~", "~:", ":~", "~/", "~:a", "$v:~", "'~'$v",
        "${u-$v}", "${u-\"$v\"}", "${u=$v}", "${v%x}", "$(( 1$v ))", "${u?$v}", "${u?a$v}", "${u-~}", "${e:=~}",
        "$v$((1/0))",
    ]);
    let name = match random.below(6) {
        0 => vec![b'n'; random.between(500, 2_000)],
        1 => b"v".to_vec(),
        2 => b"HOME".to_vec(),
        _ => b"x".to_vec(),
    };
    lent.line = [name, b"=".to_vec(), value, random.text(&["", "", " v=", " y=$x", " v=a w=$v"])].concat();
    if random.once_in(6) {
        let length = random.between(limits::LINE - 1, limits::LINE + 1);
        let name = random.between(1, length - 1);
        lent.line = [vec![b'n'; name], b"=".to_vec(), vec![b'a'; length - 1 - name]].concat();
    }
}

/// Stores that make the image about its limit or its buffer's, perhaps after one that made room, or before one that would.
fn images(random: &mut Random, lent: &mut Lent) {
    lent.variables = filled(Kind::Pairs, limits::IMAGE - 20);
    lent.used = lent.variables.len();
    lent.variables_buffer = *random.pick(&[8_191, 8_192, 8_193, 9_000]);
    let long = "x".repeat(random.between(13, 16));
    lent.line = random.text(&[
        "u=L", "u=L f=", "f= u=LL", "f=a u=L u=", "u= u=L", "a=1 u=L", "u=${w=L}", "u=${u:=L} w=a", "f=${f%x} u=L",
    ]);
    lent.line = String::from_utf8_lossy(&lent.line).replace('L', &long).into_bytes();
    if random.once_in(4) {
        lent.parameters = of_texts(&["a"; 9]);
        lent.line.extend(b" w=$9");
    }
}

/// Tables that are none, lines that are too long or hold a zero byte, a work area that is too short; or several of these.
fn spoiled(random: &mut Random) -> Call {
    let mut lent = match malformed(random) {
        Call::Lines(_, lent) if !random.once_in(3) => lent,
        _ => ordinary(random),
    };
    lent.line = line(random);
    match random.below(10) {
        0..=1 => lent.line = [b"x=".to_vec(), vec![b'a'; random.between(limits::LINE - 3, limits::LINE)]].concat(),
        2 => {
            let at = random.below(lent.line.len() + 1);
            lent.line.insert(at, 0);
        }
        3 => lent.work = *random.pick(&[0, 1, 65_535, 65_536, 70_000]),
        _ => (),
    }
    Call::Lines(Job::Assign, lent)
}
