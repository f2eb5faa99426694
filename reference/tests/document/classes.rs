//! E3, character classes in brackets: their members, what stands beside them, ranges, and brackets that are none.

use reference::number::Number::BracketClass;

use crate::support::{gives, refuses, World};

pub const REMOVALS: [&str; 4] = ["#", "##", "%", "%%"];

/// Each class by the standard library's own tests for ASCII, where it has one.
pub const DEFINITIONS: [(&str, fn(u8) -> bool); 12] = [
    ("alnum", |byte| byte.is_ascii_alphanumeric()),
    ("alpha", |byte| byte.is_ascii_alphabetic()),
    ("blank", |byte| byte == b' ' || byte == b'\t'),
    ("cntrl", |byte| byte.is_ascii_control()),
    ("digit", |byte| byte.is_ascii_digit()),
    ("graph", |byte| byte.is_ascii_graphic()),
    ("lower", |byte| byte.is_ascii_lowercase()),
    ("print", |byte| byte.is_ascii_graphic() || byte == b' '),
    ("punct", |byte| byte.is_ascii_punctuation()),
    ("space", |byte| byte == b' ' || (9..=13).contains(&byte)),
    ("upper", |byte| byte.is_ascii_uppercase()),
    ("xdigit", |byte| byte.is_ascii_hexdigit()),
];

/// Whether the pattern takes this one byte, in each of the removals alike.
#[track_caller]
fn takes(pattern: &str, byte: u8) -> bool {
    let world = World::empty().set("x", [byte]);
    let taken = REMOVALS.map(|removal| {
        let line = format!("\"${{x{removal}{pattern}}}\"");
        let outcome = world.expand(&line).unwrap_or_else(|refusal| panic!("{line}: {refusal:?}"));
        outcome.fields == [b""]
    });
    assert_eq!(taken, [taken[0]; 4], "{pattern} {byte}");
    taken[0]
}

/// The pattern takes these bytes and no others.
#[track_caller]
fn set(pattern: &str, wanted: impl Fn(u8) -> bool) {
    for byte in 1..=255 {
        assert_eq!(takes(pattern, byte), wanted(byte), "{pattern} {byte}");
    }
}

/// The pattern takes digits and these bytes, and negated all but them.
#[track_caller]
pub fn digits_and(pattern: &str, others: &str) {
    let wanted = |byte: u8| byte.is_ascii_digit() || others.as_bytes().contains(&byte);
    set(pattern, wanted);
    set(&pattern.replacen('[', "[!", 1), |byte| !wanted(byte));
}

/// 19 as a word and as the operand of each removal.
#[track_caller]
pub fn refused(pattern: &str) {
    let world = World::empty().set("x", "a1").path("a1");
    refuses(&world, format!("b {pattern}"), BracketClass, 2);
    for removal in REMOVALS {
        refuses(&world, format!("b ${{x{removal}{pattern}}}"), BracketClass, 2);
        refuses(&world, format!("\"${{x{removal}a{pattern}}}\""), BracketClass, 0);
        refuses(&world, format!("${{u{removal}*{pattern}*}}"), BracketClass, 0);
    }
}

#[test]
fn an_offices_recipe() {
    let points = ["p1.raw", "p2.raw", "p10.raw", "pa.raw", "p.raw", "px1.raw"];
    let world = points.iter().fold(World::empty(), |world, path| world.path(path)).set("point", "north 217b");
    for (line, fields) in [
        ("p[[:digit:]].raw", &["p1.raw", "p2.raw"][..]),
        ("p[[:digit:]]*.raw", &["p1.raw", "p10.raw", "p2.raw"]),
        ("p[[:digit:]][[:digit:]].raw q[[:digit:]].raw", &["p10.raw", "q[[:digit:]].raw"]),
        ("p[![:digit:]].raw", &["pa.raw"]),
        ("${point##*[[:blank:]]} ${point%%[[:blank:]]*}", &["217b", "north"]),
        ("\"${point%[[:alpha:]]}\" \"${point%%[[:digit:]]*}\"", &["north 217", "north "]),
    ] {
        gives(&world, line, fields);
    }
}

/// The rule over all twelve: a class holds what its definition says, and no byte from 128.
#[test]
fn a_class_holds_what_its_definition_says() {
    for (name, definition) in DEFINITIONS {
        set(&format!("[[:{name}:]]"), definition);
        set(&format!("[![:{name}:]]"), |byte| !definition(byte));
        assert!((128..=255).all(|byte| !takes(&format!("[[:{name}:]]"), byte)));
    }
}

/// The same in paths, where no bracket takes a slash, nor a `.` at the start.
#[test]
fn a_class_holds_the_same_in_paths() {
    let world = (1..=255).fold(World::empty(), |world, byte| world.path([byte]).path([b'a', byte]));
    for (name, definition) in DEFINITIONS {
        for (negated, sign) in [(false, ""), (true, "!")] {
            let holds = |byte: &u8| *byte != b'/' && definition(*byte) != negated;
            let first: Vec<Vec<u8>> =
                (1..=255).filter(|byte| holds(byte) && *byte != b'.').map(|byte| vec![byte]).collect();
            let second: Vec<Vec<u8>> = (1..=255).filter(holds).map(|byte| vec![b'a', byte]).collect();
            for (line, wanted) in [(format!("[{sign}[:{name}:]]"), first), (format!("a[{sign}[:{name}:]]"), second)] {
                let fields = world.expand(&line).map(|outcome| outcome.fields);
                assert_eq!(fields, Ok(wanted), "{line}");
            }
        }
    }
}

#[test]
fn classes_beside_other_members() {
    set("[[:digit:][:upper:]]", |byte| byte.is_ascii_digit() || byte.is_ascii_uppercase());
    set("[![:graph:][:cntrl:]]", |byte| byte == b' ' || byte >= 128);
    for (pattern, others) in [
        ("[[:digit:][:digit:]]", ""),
        ("[[:digit:]_]", "_"),
        ("[_[:digit:]a-c]", "_abc"),
        ("[a-c[:digit:]x]", "abcx"),
        ("[c-a[:digit:]]", ""),
        ("[][:digit:]]", "]"),
        ("[[:digit:]']']", "]"),
        ("[[:digit:][]", "["),
        ("[[[:digit:]]", "["),
        ("[[:digit:]'[':]", "[:"),
        ("[[:digit:]:]", ":"),
        ("[:[:digit:]]", ":"),
        ("[[:digit:]!]", "!"),
        ("[^[:digit:]]", "^"),
    ] {
        digits_and(pattern, others);
    }
}

/// A class at either end is 19, closed or not.
#[test]
fn a_class_as_an_end_of_a_range() {
    for pattern in [
        "[a-[:digit:]]", "[[:digit:]-a]", "[[:digit:]-[:alpha:]]", "[--[:digit:]]", "[[:digit:]--]", "[!-[:digit:]-a]",
        "[]-[:digit:]]", "[x[:digit:]-a]", "[a-c[:digit:]-e]", "[[:digit:]-'a']", "['a'-[:digit:]]", "[[:digit:]-\\]]",
        "[[:digit:]-[]", "[[:digit:]-!]", "[a-c--[:digit:]]", "[![:digit:]-a]",
    ] {
        refused(pattern);
        refused(pattern.strip_suffix(']').expect("a closed bracket"));
    }
    refused("[a-[:Digit:]]");
}

/// A `-` that is none of a range: before the `]`, behind a range, or quoted.
#[test]
fn a_dash_beside_a_class() {
    for (pattern, others) in [
        ("[[:digit:]-]", "-"),
        ("[-[:digit:]]", "-"),
        ("[[:digit:]'-'z]", "-z"),
        ("[z\\-[:digit:]]", "-z"),
        ("[a-c-[:digit:]]", "-abc"),
        ("[a-c-[:digit:]-]", "-abc"),
    ] {
        digits_and(pattern, others);
    }
    let world = World::empty().set("x", "[4-");
    gives(&world, "${x%[[:digit:]-}x ${x%%[[:alpha:]-}", &["[4-x", "[4-"]);
}

/// A served class in an unclosed bracket is no 19: `[` is itself, and what stands behind it is read on its own.
#[test]
fn unclosed_brackets() {
    let world = World::empty().set("x", "[d").set("y", "[7").path("[d").path("[7").path("d");
    gives(&world, "[[:digit:] [[:digit:]* ${x%[[:digit:]}x ${y%[[:digit:]}", &["[d", "[d", "x", "[7"]);
    gives(&world, "\"${x%%[![:digit:]}\" \"${y%%[[:digit:]-}\"", &["[d", "[7"]);
    let parts = World::empty().set("x", "[h7").set("y", "[[:d").set("z", "[]t").set("w", "[ad-");
    gives(&parts, "${x%%[[:alpha:][:digit:]}", &["[h7"]);
    gives(&parts.clone().set("x", "[hd"), "${x%%[[:alpha:][:digit:]}x", &["x"]);
    gives(&parts, "\"${y%%[[[:digit:]}\" \"${y%%[[[[:digit:]}\"", &["[[:d", "[[:d"]);
    gives(&parts.clone().set("y", "[[d"), "${y%%[[[:digit:]}x", &["x"]);
    gives(&parts, "${z%%[][:digit:]}x ${w%%[a[:digit:]-}x", &["x", "x"]);
}

/// For paths the search ends at a slash, which stands in no range; one inside a name makes it unknown.
#[test]
fn slashes() {
    let world = World::empty().set("x", "/1").path("1/x").path("[d-/x]").path("a/1").path("a/b");
    for (line, fields) in [
        ("[[:digit:]-/x]", &["[d-/x]"][..]),
        ("[[:digit:]-'/'x] [[:digit:]/x] [[:digit:]/[:Digit:]]", &["[d-/x]", "[[:digit:]/x]", "[[:digit:]/[:Digit:]]"]),
        ("[[:digit:]]/[[:alpha:]] [[:alpha:]]/[[:alnum:]]", &["1/x", "a/1", "a/b"]),
        ("[[:alpha:]][[:punct:]]1 a[![:alpha:]]1", &["[[:alpha:]][[:punct:]]1", "a[![:alpha:]]1"]),
        ("\"${x#[[:punct:]]}\" \"${x#[/[:digit:]]}\"", &["1", "1"]),
    ] {
        gives(&world, line, fields);
    }
    for pattern in ["[[:digit:]-x/]", "[a-[:digit:]/]", "[[:di/git:]]", "[[:/:]]", "[[:digit/:]]", "[[:digit:/]]"] {
        refused(pattern);
    }
    refuses(&world, "[[:di'/'git:]]", BracketClass, 0);
    for removal in REMOVALS {
        refuses(&world, format!("${{x{removal}[[:digit:]-/x]}}"), BracketClass, 0);
    }
}

/// Patterns of each of the four removals and of paths, through the normaliser too, whose line gives itself again.
#[test]
fn demand_2() {
    let world = World::empty().set("x", "ab12cd").path("7").path("a").path("a b").path("x1");
    let line = "${x#[[:alpha:]]} ${x##*[[:digit:]]} ${x%[[:lower:]]} ${x%%[[:digit:]]*} *[[:digit:]] [![:digit:]]*";
    gives(&world, line, &["b12cd", "cd", "ab12c", "ab", "7", "x1", "a", "a b", "x1"]);
    let normalised = world.normalise(line);
    assert_eq!(normalised, "b12cd cd ab12c ab 7 x1 a 'a b' x1");
    for other in [World::empty(), world] {
        assert_eq!(other.normalise(&normalised), normalised);
    }
    assert_eq!(World::empty().normalise("[[:digit:]] '[[:x:]]'"), "'[[:digit:]]' '[[:x:]]'");
}
