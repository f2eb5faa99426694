//! E13, patterns that are too dear: the pairs that are counted, sentence by sentence, and the count beside two others that are made otherwise.

use reference::case::Call;
use reference::cost;
use reference::generate::costs;
use reference::generate::random::Random;
use reference::limits;
use reference::number::Number::{self, BracketClass, TooManyUnits, WorkArea};
use reference::number::ACCEPTED;
use reference::Cost;

use crate::support::World;

/// What the call gives; the work area, which holds anything before, is zero after it.
fn counted(pattern: impl AsRef<[u8]>, text: impl AsRef<[u8]>, work: usize) -> Cost {
    let mut work = vec![7; work];
    let cost = cost(pattern.as_ref(), text.as_ref(), &mut work);
    assert!(work.iter().all(|&byte| byte == 0));
    assert_eq!(cost.place, 0);
    cost
}

#[track_caller]
fn is(pattern: impl AsRef<[u8]>, text: impl AsRef<[u8]>, count: usize) {
    let given = counted(pattern, text, limits::WORK_AREA);
    assert_eq!((given.number, given.count), (ACCEPTED, count));
}

#[track_caller]
fn refused(pattern: impl AsRef<[u8]>, text: impl AsRef<[u8]>, work: usize, number: Number) {
    assert_eq!(counted(pattern, text, work), Cost { number: number as u8, place: 0, count: 0 });
}

/// "the number of distinct pairs that can be reached, the start included".
#[test]
fn the_start_is_counted() {
    is("", "", 1);
    is("", "abc", 1);
    is("a", "", 1);
    is("?", "", 1);
    is("b", "abc", 1);
    is("[b]*", "abc", 1);
}

/// "another element that matches the byte leads on in both".
#[test]
fn elements_that_match() {
    is("a", "a", 2);
    is("a", "ab", 2);
    is("abc", "abc", 4);
    is("abc", "abd", 3);
    is("a?c", "abc", 4);
    is("???", "ab", 3);
    is("[a-c][!a]c", "abc", 4);
    is("[a-c][!b]c", "abc", 2);
    is("a[[:digit:]]b", "a1b", 4);
    is("a[[:digit:]]b", "aab", 2);
    is("[c-a]", "b", 1);
}

/// "a star leads on to the next element, and to the next byte if there is one".
#[test]
fn stars() {
    is("*", "", 2);
    is("*", "abc", 8);
    is("a*", "abc", 7);
    is("*a", "a", 5);
    is("*a", "b", 4);
    is("*a", "aa", 8);
    is("*b", "ab", 7);
    is("a*b", "ab", 6);
    is("*?", "ab", 8);
}

/// Each star is an element, and pairs to which several lead are counted once.
#[test]
fn pairs_are_distinct() {
    is("**", "", 3);
    is("**", "ab", 9);
    is("***", "abc", 16);
    is("*?*", "ab", 10);
    is("*a*a", "aaa", 16);
}

/// "never exceeds (p+1) times (n+1)", which stars alone reach.
#[test]
fn all_pairs() {
    for elements in [0, 1, 2, 7, 63, 64] {
        for bytes in [0, 1, 2, 9, 255, 256] {
            let all = if elements == 0 { 1 } else { (elements + 1) * (bytes + 1) };
            is("*".repeat(elements), "a".repeat(bytes), all);
        }
    }
    is("*".repeat(64), "x".repeat(256), 16_705);
}

/// "in the removals' sense": a slash and a leading dot are bytes like others, and a bracket does not end at a slash.
#[test]
fn slashes_and_dots() {
    is("?", "/", 2);
    is("[/]", "/", 2);
    is("[!a]", "/", 2);
    is("*a", "/a", 7);
    is("?", ".", 2);
    is("*", ".a", 6);
    is("[a/b]", "b", 2);
    refused("[a/[:x]", "", limits::WORK_AREA, BracketClass);
}

/// "All bytes of the pattern are active": a backslash or a quote is a byte of its own, and quotes nothing.
#[test]
fn all_bytes_are_active() {
    is("\\*", "\\ab", 7);
    is("\\*", "a", 1);
    is("'*'", "'a'", 8);
    is("\"?\"", "\"a\"", 4);
    is("[\\]]", "\\]", 3);
    is("[!a-c]", "d", 2);
    is("$x", "$x", 3);
}

/// An unclosed bracket is a byte, so is what stands behind it.
#[test]
fn unclosed_brackets() {
    is("[", "[", 2);
    is("[a", "[a", 3);
    is("[a*", "[ab", 6);
    is("[[:digit:]", "[d", 3);
    is("[!", "[!", 3);
    is("[]", "[]", 3);
    refused("[a".repeat(33), "", limits::WORK_AREA, TooManyUnits);
    is("[a".repeat(32), "", 1);
}

#[test]
fn any_bytes() {
    is(b"\0", b"\0", 2);
    is(b"[\0-\x02]\xff", b"\x01\xff", 3);
    is(b"*\0", b"a\0", 7);
    is(b"[!\0]", b"\0", 1);
}

/// "A work area below 65,536 bytes is 1".
#[test]
fn the_work_area() {
    for work in [0, 1, 65_535] {
        refused("a", "a", work, WorkArea);
    }
    for work in [65_536, 65_537, 100_000] {
        assert_eq!(counted("a", "a", work), Cost { number: ACCEPTED, place: 0, count: 2 });
    }
}

/// "a bracket class that is not served is 19".
#[test]
fn classes_that_are_not_served() {
    for pattern in [
        "[[:x:]]", "[[:Alpha:]]", "[[:", "[[:alpha", "[[:alpha:", "[[.a.]]", "[[=a=]]", "[a[.", "[![=",
        "[a-[:digit:]]", "[[:digit:]-a]", "a*[[::]]", "[[:alpha:][:word:]]",
    ] {
        refused(pattern, "", limits::WORK_AREA, BracketClass);
        refused(pattern, "abc", limits::WORK_AREA, BracketClass);
    }
    is("[[:alpha:]]", "a", 2);
    is("[[:digit:]-]", "-", 2);
}

/// "more than 64 elements or 256 text bytes is 14".
#[test]
fn limits_of_both() {
    is("a".repeat(64), "", 1);
    refused("a".repeat(65), "", limits::WORK_AREA, TooManyUnits);
    is("[[:alpha:]]".repeat(64), "a".repeat(64), 65);
    refused("[ab]".repeat(65), "a", limits::WORK_AREA, TooManyUnits);
    is("", "a".repeat(256), 1);
    refused("", "a".repeat(257), limits::WORK_AREA, TooManyUnits);
    refused("*".repeat(65), "a".repeat(257), limits::WORK_AREA, TooManyUnits);
    refused("a".repeat(5_000), "a".repeat(70_000), limits::WORK_AREA, TooManyUnits);
}

/// "in that order".
#[test]
fn checks_come_in_order() {
    let (long, text) = ("a".repeat(70), "a".repeat(300));
    refused("[[:x:]]", &text, 65_535, WorkArea);
    refused(&long, &text, 0, WorkArea);
    refused(format!("{long}[[:x:]]"), "a", limits::WORK_AREA, BracketClass);
    refused(format!("[[.{long}"), &text, limits::WORK_AREA, BracketClass);
    refused("[[=", &text, limits::WORK_AREA, BracketClass);
    refused(&long, "a", limits::WORK_AREA, TooManyUnits);
    refused("a", &text, limits::WORK_AREA, TooManyUnits);
}

/// The elements of a pattern of `*`, `?` and plain bytes.
fn simple(random: &mut Random, most: usize) -> Vec<u8> {
    (0..random.below(most + 1)).map(|_| *random.pick(b"**??aab")).collect()
}

/// Whether each pair is reached, told from the pairs that lead to it: row by row, for a pattern without brackets.
fn table(pattern: &[u8], text: &[u8]) -> Vec<Vec<bool>> {
    let mut reached = vec![vec![false; text.len() + 1]; pattern.len() + 1];
    for place in 0..=pattern.len() {
        for at in 0..=text.len() {
            let star = |place: usize| pattern.get(place) == Some(&b'*');
            let takes = |element: u8, byte: u8| element != b'*' && (element == b'?' || element == byte);
            reached[place][at] = (place, at) == (0, 0)
                || place > 0 && star(place - 1) && reached[place - 1][at]
                || at > 0 && star(place) && reached[place][at - 1]
                || place > 0 && at > 0 && takes(pattern[place - 1], text[at - 1]) && reached[place - 1][at - 1];
        }
    }
    reached
}

/// "The report equals that count", made the other way round, and the last pair is reached just if the text is matched whole.
#[test]
fn the_count_made_otherwise() {
    let mut matched = 0;
    for case in 0..3_000 {
        let random = &mut Random::new(13, case);
        let pattern = simple(random, 9);
        let text: Vec<u8> = (0..random.below(12)).map(|_| *random.pick(b"aaabc")).collect();
        let table = table(&pattern, &text);
        is(&pattern, &text, table.iter().flatten().filter(|reached| **reached).count());
        let whole = table[pattern.len()][text.len()];
        let world = World::empty().set("p", &pattern).set("x", [b"<", text.as_slice()].concat());
        let fields = world.expand("\"${x%%<$p}\"").map(|outcome| outcome.fields).expect("a removal");
        assert_eq!(fields == [b"".to_vec()], whole, "{} {}", pattern.escape_ascii(), text.escape_ascii());
        matched += usize::from(whole);
    }
    assert!((300..2_700).contains(&matched), "{matched}");
}

/// Over the generator's patterns, brackets among them: at most (p+1) times (n+1), of which p is at most the pattern's bytes, and 0 if refused.
#[test]
fn the_bound() {
    for case in 0..3_000 {
        let Call::Cost(lent) = costs::call(14, case) else {
            panic!("another call");
        };
        let Cost { number, count, .. } = lent.cost().expect("a work area of zeros");
        let elements = lent.pattern.len().min(limits::COST_ELEMENTS);
        assert!(count <= (elements + 1) * (lent.text.len() + 1));
        assert_eq!(count == 0, number != ACCEPTED);
    }
}
