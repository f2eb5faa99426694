//! E4, slow matching on the long list: every answer stays, 19 included, and no line within the limits is slow.

use std::time::{Duration, Instant};

use reference::generate::random::Random;
use reference::number::Number::{BracketClass, NoRoomForOutput, Operator, TooManyUnits};

use crate::classes::{refused, REMOVALS};
use crate::naive::{self, Element};
use crate::support::{gives, refuses, stores, World};

/// No line may take longer, on a machine that does other work beside it.
const SLOW: Duration = Duration::from_secs(10);

/// Some 1,500 paths of one card.
fn card() -> Vec<String> {
    let letters = ["abc", "acb", "ab", "cab", "aabbcc", "bca"];
    (0..1_500).map(|number| format!("p{number:04}{}.raw", letters[number % letters.len()])).collect()
}

fn world(paths: &[String]) -> World {
    paths.iter().fold(World::empty(), |world, path| world.path(path))
}

#[test]
fn a_seasons_card() {
    let card = card();
    let world = world(&card);
    let start = Instant::now();
    for line in ["*a*b*c*", "*a*c*b*", "p*a*b*c.raw", "*b*c*a.*", "*1499*b*a*w", "?*0*0*[!b]*[ab]c.*"] {
        let pattern = naive::read(line.as_bytes(), true).expect("a pattern");
        let matching = card.iter().filter(|path| naive::matches(&pattern, path.as_bytes(), true));
        gives(&world, line, &matching.map(String::as_str).collect::<Vec<_>>());
    }
    gives(&world, "*a*b*c*z *z*a*b*c*", &["*a*b*c*z", "*z*a*b*c*"]);
    refuses(&world, "a *a*b*", NoRoomForOutput, 2);
    assert!(start.elapsed() < SLOW);
}

/// What a star before the last one took never has to be tried again; what the last one took has.
#[test]
fn the_last_star() {
    let paths = ["aaab", "aab", "ab/aab", "ab/ab", "abab", "ababab", "a.ab", "b/.ab", "ab/.aab"];
    let world = paths.iter().fold(World::empty(), |world, path| world.path(path)).set("x", "aabaabaab");
    for (line, fields) in [
        ("*aab", &["aaab", "aab"][..]),
        ("*ab*ab", &["abab", "ababab"]),
        ("a*a*b", &["a.ab", "aaab", "aab", "abab", "ababab"]),
        ("*/*aab", &["ab/aab"]),
        ("*/*ab", &["ab/aab", "ab/ab"]),
        ("*/.*ab", &["ab/.aab", "b/.ab"]),
        ("*/*.ab */**b/", &["*/*.ab", "*/**b/"]),
        ("*.*b", &["a.ab"]),
        ("${x##*ab*ab}x ${x#*ab*ab} ${x%ab*ab} ${x%%aab*aab}x", &["x", "aab", "aaba", "x"]),
        ("${x#*aab} ${x##*b*b*b*b} ${x%%*[!a]*[!a]aa*}x", &["aabaab", "aabaabaab", "x"]),
        ("${x%%a*[!b]*b*ab}x ${x%*[ab]*[!a]} ${x%b*a*}", &["x", "aabaaba", "aabaa"]),
    ] {
        gives(&world, line, fields);
    }
}

/// An element of a few bytes, and how a line has it.
fn element(random: &mut Random) -> (Element, String) {
    let byte = *random.pick(b"aaab./");
    let shown = char::from(byte);
    match random.below(10) {
        0..=2 => (Element::Any, "*".into()),
        3 => (Element::One, "?".into()),
        4 => (Element::Set(b"ab".to_vec()), "[ab]".into()),
        5 => (Element::Set((0..=255).filter(|member| !b"a.".contains(member)).collect()), "[!a.]".into()),
        6 => (Element::Byte(byte), format!("\\{shown}")),
        _ => (Element::Byte(byte), shown.into()),
    }
}

fn pattern(random: &mut Random) -> (Vec<Element>, String) {
    let elements: Vec<(Element, String)> = (0..random.between(1, 8)).map(|_| element(random)).collect();
    elements.into_iter().unzip()
}

/// Texts of these bytes, of each length up to the longest.
fn texts(bytes: &[u8], longest: usize) -> Vec<Vec<u8>> {
    let mut texts = vec![Vec::new()];
    for length in 1..=longest {
        let shorter: Vec<Vec<u8>> = texts.iter().filter(|text| text.len() == length - 1).cloned().collect();
        texts.extend(shorter.iter().flat_map(|text| bytes.iter().map(|byte| [text.as_slice(), &[*byte]].concat())));
    }
    texts
}

/// The four removals on random patterns and values.
#[test]
fn removals_as_by_trying_everything() {
    let random = &mut Random::new(4, 1);
    for _ in 0..4_000 {
        let (elements, pattern) = pattern(random);
        let value: Vec<u8> = (0..random.below(10)).map(|_| *random.pick(b"aaab./")).collect();
        let world = World::empty().set("x", &value);
        for (removal, wanted) in REMOVALS.iter().zip(naive::remaining(&elements, &value)) {
            let line = format!("\"${{x{removal}{pattern}}}\"");
            let fields = world.expand(&line).map(|outcome| outcome.fields);
            assert_eq!(fields, Ok(vec![wanted.to_vec()]), "{line} {}", value.escape_ascii());
        }
    }
}

/// Random patterns over all paths of up to five bytes out of four.
#[test]
fn paths_as_by_trying_everything() {
    let random = &mut Random::new(4, 2);
    let paths: Vec<Vec<u8>> = texts(b"ab./", 5).into_iter().filter(|path| !path.is_empty()).collect();
    let world = paths.iter().fold(World::empty(), |world, path| world.path(path));
    for _ in 0..300 {
        let (elements, pattern) = pattern(random);
        let mut wanted: Vec<Vec<u8>> =
            paths.iter().filter(|path| naive::matches(&elements, path, true)).cloned().collect();
        wanted.sort();
        if wanted.is_empty() || elements.iter().all(|element| matches!(element, Element::Byte(_))) {
            wanted = vec![pattern.replace('\\', "").into_bytes()];
        }
        let fields = world.expand(&pattern).map(|outcome| outcome.fields);
        let room = 1 + wanted.iter().map(|field| 2 + field.len()).sum::<usize>() <= 8_192;
        assert_eq!(fields, if room { Ok(wanted) } else { Err((NoRoomForOutput as u8, 0)) }, "{pattern}");
    }
}

/// Brackets of every company, closed or not: each is read as if it were the first.
#[test]
fn brackets_as_by_searching_anew() {
    let pieces = [
        "[", "[", "[", "]", "]", "!", "-", "-", "a", "c", "[!", "[a-", "[]", "[[:alpha:]", "[:alpha:]", "[:digit:]-",
        "/", "?", "*", ":", "[.", "[:x", "[!]", "c-a",
    ];
    let random = &mut Random::new(4, 3);
    let mut refused = 0;
    for _ in 0..20_000 {
        let pattern: Vec<u8> = (0..random.between(1, 9)).flat_map(|_| random.text(&pieces)).collect();
        let mut value = pattern.clone();
        value.retain(|byte| *byte != b'*' && !random.once_in(4));
        let path = value.clone();
        let line = [b"\"${x##", pattern.as_slice(), b"}\""].concat();
        let world = World::empty().set("x", &value);
        let wanted = naive::read(&pattern, false).map(|read| vec![naive::remaining(&read, &value)[1].to_vec()]);
        refused += usize::from(wanted.is_none());
        let wanted = wanted.ok_or((BracketClass as u8, 0));
        assert_eq!(world.expand(&line).map(|outcome| outcome.fields), wanted, "{}", line.escape_ascii());
        let wanted = naive::read(&pattern, true).map(|read| {
            let active = read.iter().any(|element| !matches!(element, Element::Byte(_)));
            let found = active && naive::matches(&read, &path, true);
            vec![if found && !path.is_empty() { path.clone() } else { pattern.clone() }]
        });
        let world = if path.is_empty() { World::empty() } else { World::empty().path(&path) };
        let fields = world.expand(&pattern).map(|outcome| outcome.fields);
        assert_eq!(fields, wanted.ok_or((BracketClass as u8, 0)), "{} {}", pattern.escape_ascii(), path.escape_ascii());
    }
    assert!((2_000..15_000).contains(&refused), "{refused}");
}

/// 19 is met in reading: whatever the text, however far behind stars that match nothing, and behind unclosed brackets.
#[test]
fn nineteen_stays() {
    for pattern in ["*a*b*[[:x", "z*z*z[[.a.]]", "*[a-[:digit:]]*", "[a*[!*[b-*[[=", "a*b*c*[[:Digit:]]"] {
        refused(pattern);
    }
    let many = "[".repeat(600);
    refused(&format!("{many}[:"));
    refused(&format!("{}[[:digit:]-a", "[!".repeat(300)));
    refuses(&world(&card()), "*a*b*c*[[:x:]]", BracketClass, 0);
    let world = World::empty().set("x", &many);
    gives(&world, format!("${{x%%{many}}}x ${{x#{many}[}}"), &["x", &many]);
}

/// Brackets in quantity: unclosed ones are bytes, closed ones sets, 682 of them in a pattern.
#[test]
fn many_brackets() {
    let texts = ["[".repeat(2_000), "[!".repeat(1_000), "[a-".repeat(600), "[]".repeat(1), "[/".repeat(1_000)];
    for text in texts {
        let world = World::empty().set("x", &text).set("p", format!("{text}*")).path(format!("{text}a"));
        gives(&world, "${x##$p}x ${x%%\"$x\"}x", &["x", "x"]);
        gives(&world, "$p", &[&format!("{text}a")]);
    }
    let byte = |number: usize| char::from(b"abcxyz"[number % 6]);
    let text: String = (0..682).map(byte).collect();
    let sets: String = (0..682).map(|number| format!("[{}]", byte(number))).collect();
    let world = World::empty().set("x", &text).set("p", &sets).set("q", format!("{}?", &sets[..2_043])).path(&text);
    gives(&world, "$p ${x#$p}x ${x%%$p}x", &[&text, "x", "x"]);
    gives(&world, "${x#$q}x \"${x##[!a]$q}\"", &["x", &text]);
    for bracket in ["[!b-z]", "[]a]", "[!]b]", "[[:lower:]]", "[c-ba]", "[a-\u{7f}]", "[![:digit:]]"] {
        let value = "a".repeat(150);
        let world = World::empty().set("x", &value).path(&value);
        let pattern = bracket.repeat(150);
        gives(&world, &pattern, &[&value]);
        gives(&world, format!("${{x%{pattern}}}x"), &["x"]);
        gives(&world, format!("\"${{x%b{pattern}}}\""), &[&value]);
    }
}

/// As many removals of a long pattern from a long value as a line holds, and other lines that try the same again and again.
#[test]
fn no_line_is_slow() {
    let value = "a".repeat(6_000);
    let fill = |word: &str| word.repeat(2_048 / word.len());
    for pattern in [
        "*a".repeat(1_000) + "*",
        format!("*{}*", "a".repeat(2_000)),
        format!("*{}", "[!b]".repeat(511)),
        "[".repeat(2_047) + "*",
        "[[:alpha:]".repeat(204),
        format!("[{}]*", "[:print:]".repeat(220)),
        "?".repeat(2_000) + "*",
        "*?".repeat(1_000),
    ] {
        let world = World::empty().set("x", &value).set("y", "").set("p", &pattern[..pattern.len().min(2_047)]);
        let start = Instant::now();
        for line in [fill("${x%%$p}"), fill("${x##$p}"), fill("${y#$p}")] {
            let answer = world.expand(line).map(|outcome| outcome.fields);
            assert!(answer.is_ok() || answer == Err((TooManyUnits as u8, 0)), "{answer:?}");
        }
        assert!(start.elapsed() < SLOW, "{}", &pattern[..20]);
    }
    let start = Instant::now();
    let paths = world(&card()).path("a".repeat(2_000)).set("q", "*z ".repeat(680));
    gives(&paths.clone().set("p", "*a".repeat(1_000) + "*"), "$p", &[&"a".repeat(2_000)]);
    let missing = "*a".repeat(1_000) + "*b";
    gives(&paths.clone().set("p", &missing), "$p", &[&missing]);
    gives(&paths, "$q", &["*z"; 680]);
    assert!(start.elapsed() < SLOW);
}

/// Above the matcher nothing changes: fields, quoted lines, places and what is stored are those of the plain words.
#[test]
fn nothing_above_notices() {
    let world = world(&card()[..40]).set("x", "aabaab");
    let line = "b ${y:=${x#*a*b}} *1*a*b*c.raw \"*a*b\" ${u-*3?*bc*w}";
    let ones = ["p0010aabbcc.raw", "p0012abc.raw", "p0016aabbcc.raw", "p0018abc.raw"];
    let threes = ["p0030abc.raw", "p0034aabbcc.raw", "p0035bca.raw", "p0036abc.raw"];
    gives(&world, line, &[&["b", "aab"], ones.as_slice(), &["*a*b"], &threes].concat());
    stores(&world, line, "y", "aab");
    let normalised = world.normalise(line);
    assert_eq!(world.normalise(&normalised), normalised);
    refuses(&world, "*a*b*c* |", Operator, 8);
}
