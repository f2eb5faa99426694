//! E11, new files while the crew works: insertion and deletion of one path, sentence by sentence, every byte of the buffer, and what a pattern finds afterwards.

use std::collections::BTreeSet;
use std::slice::from_ref;

use reference::generate::random::Random;
use reference::generate::tables;
use reference::image::{self, of_texts};
use reference::limits;
use reference::number::Number::{self, NoRoomForOutput, PathPresence, Paths};
use reference::number::ACCEPTED;
use reference::{delete, insert, Answer};

use crate::support::World;

type Update = fn(&mut [u8], usize, &[u8]) -> Answer;

/// What stands behind an image.
const BEHIND: &[u8] = b"what stood behind the image all the time, long enough for a path or two";

/// What an update of these paths answers, and the whole buffer, in which known bytes stand behind the image.
fn updated<T: AsRef<[u8]>>(update: Update, paths: &[T], path: impl AsRef<[u8]>) -> (Answer, Vec<u8>) {
    let image = of_texts(paths);
    let mut buffer = [image.as_slice(), BEHIND].concat();
    let answer = update(&mut buffer, image.len(), path.as_ref());
    (answer, buffer)
}

/// The path is inserted or deleted, and these are the paths then. Bytes behind an image that grew are kept; one that shrank leaves zeros up to its old length.
#[track_caller]
fn gives<T: AsRef<[u8]>>(update: Update, paths: &[T], path: impl AsRef<[u8]>, wanted: &[T]) {
    let (answer, buffer) = updated(update, paths, path);
    let (old, new) = (of_texts(paths), of_texts(wanted));
    assert_eq!(answer, Answer { number: ACCEPTED, place: 0, length: 0, used: new.len(), message: 0 });
    let mut whole = [old.as_slice(), BEHIND].concat();
    whole[..new.len()].copy_from_slice(&new);
    whole[new.len()..old.len().max(new.len())].fill(0);
    assert!(buffer == whole);
}

/// The call is refused with this number, and every byte is as it was.
#[track_caller]
fn refuses(update: Update, buffer: &[u8], used: usize, path: impl AsRef<[u8]>, number: Number) {
    let mut left = buffer.to_vec();
    let answer = update(&mut left, used, path.as_ref());
    assert_eq!(answer, Answer { number: number as u8, place: 0, length: 0, used, message: 0 });
    assert!(left == buffer);
}

/// "the result is the image of the list with that path added".
#[test]
fn a_path_is_added_in_its_order() {
    gives(insert, &[], "a", &["a"]);
    gives(insert, &["b"], "a", &["a", "b"]);
    gives(insert, &["a"], "b", &["a", "b"]);
    gives(insert, &["a", "c"], "b", &["a", "b", "c"]);
    gives(insert, &["a b.raw", "p1.raw", "p2.raw"], "p10.raw", &["a b.raw", "p1.raw", "p10.raw", "p2.raw"]);
    gives(insert, &["n/p1.raw"], ".hid.raw", &[".hid.raw", "n/p1.raw"]);
}

/// Bytes by unsigned value, a prefix first.
#[test]
fn the_order_is_that_of_unsigned_bytes() {
    gives(insert, &["aa"], "a", &["a", "aa"]);
    gives(insert, &["a", "b"], "aa", &["a", "aa", "b"]);
    gives(insert, &["a/b"], "a", &["a", "a/b"]);
    gives(insert, &["a", "a/b"], "a/", &["a", "a/", "a/b"]);
    gives(insert, &[b"a\x7f".as_slice(), b"b"], b"a\x80", &[b"a\x7f".as_slice(), b"a\x80", b"b"]);
    gives(insert, &[b"\x01".as_slice(), b"z"], b"\xff", &[b"\x01".as_slice(), b"z", b"\xff"]);
    gives(insert, &[b"\xff".as_slice()], b"\x01", &[b"\x01".as_slice(), b"\xff"]);
    gives(insert, &[b"a\xff".as_slice()], b"a\xff\x01", &[b"a\xff".as_slice(), b"a\xff\x01"]);
}

/// "or removed".
#[test]
fn a_path_is_removed() {
    gives(delete, &["a"], "a", &[]);
    gives(delete, &["a", "b", "c"], "a", &["b", "c"]);
    gives(delete, &["a", "b", "c"], "b", &["a", "c"]);
    gives(delete, &["a", "b", "c"], "c", &["a", "b"]);
    gives(delete, &["a", "aa", "aaa"], "aa", &["a", "aaa"]);
    gives(delete, &["a long path", "b"], "a long path", &["b"]);
    gives(
        delete,
        &["b", "p/a long path with more bytes than those behind it"],
        "b",
        &["p/a long path with more bytes than those behind it"],
    );
}

/// "bytes before its place are not touched": they are the same before and after.
#[test]
fn bytes_before_the_place_are_as_they_were() {
    let paths = ["a", "ab", "c/d", "e"];
    for (at, path) in ["Z", "aa", "b", "d", "f"].into_iter().enumerate() {
        let before = of_texts(&paths[..at]);
        let (answer, buffer) = updated(insert, &paths, path);
        assert_eq!(answer.used, of_texts(&paths).len() + 2 + path.len());
        assert_eq!(buffer[..before.len()], before);
        assert_eq!(buffer[before.len()..][..2 + path.len()], of_texts(&[path])[1..]);
    }
    for (at, path) in paths.into_iter().enumerate() {
        let before = of_texts(&paths[..at]);
        let (answer, buffer) = updated(delete, &paths, path);
        assert_eq!(answer.used, of_texts(&paths).len() - 2 - path.len());
        assert_eq!(buffer[..before.len()], before);
    }
}

/// "bytes behind the image are kept on insertion and zero up to the old length on deletion"; beyond it they are kept.
#[test]
fn bytes_behind_the_image() {
    let (answer, buffer) = updated(insert, &["b"], "abc");
    assert_eq!((answer.used, &buffer[answer.used..]), (9, &BEHIND[5..]));
    let (answer, buffer) = updated(delete, &["abc", "b"], "abc");
    assert_eq!((answer.used, &buffer[answer.used..9]), (4, [0; 5].as_slice()));
    assert_eq!(&buffer[9..], BEHIND);
    let (answer, buffer) = updated(delete, &["abc"], "abc");
    assert_eq!((answer.used, &buffer[..6], &buffer[6..]), (1, b"\x01\0\0\0\0\0".as_slice(), BEHIND));
    let mut image = of_texts(&["a", "b"]);
    assert_eq!(delete(&mut image, 7, b"b").used, 4);
    assert_eq!(image, b"\x01\0\x01a\0\0\0");
}

/// "A path already there, or one not there to delete, is new refusal 24".
#[test]
fn presence() {
    let paths = ["a", "a/b", "aa", "b", "\u{e9}"];
    let (buffer, used) = ([of_texts(&paths), vec![9; 30]].concat(), of_texts(&paths).len());
    for path in paths {
        refuses(insert, &buffer, used, path, PathPresence);
    }
    for path in ["A", "a/", "a/bb", "a/a", "aaa", "ab", "c", "\u{e8}", "\u{ff}", " a", "/"] {
        refuses(delete, &buffer, used, path, PathPresence);
    }
    refuses(delete, &[1, 9], 1, "a", PathPresence);
}

/// "an empty path or one with a zero byte is 4".
#[test]
fn paths_that_are_none() {
    let (buffer, used) = ([of_texts(&["a"]), vec![9; 30]].concat(), 4);
    for update in [insert as Update, delete] {
        for path in [b"".as_slice(), b"\0", b"\0a", b"a\0", b"a\0b"] {
            refuses(update, &buffer, used, path, Paths);
        }
    }
}

/// "no room in the buffer or 32,768 is 21": the new image may fill either, and no more.
#[test]
fn room() {
    let image = of_texts(&["b", "d"]);
    for path in ["a", "c", "e", "a longer one"] {
        let needed = image.len() + 2 + path.len();
        for buffer in image.len()..needed + 3 {
            let mut lent = [image.clone(), vec![7; buffer - image.len()]].concat();
            if buffer < needed {
                refuses(insert, &lent, image.len(), path, NoRoomForOutput);
            } else {
                assert_eq!(insert(&mut lent, image.len(), path.as_bytes()).used, needed);
                assert!(lent[needed..].iter().all(|&byte| byte == 7));
            }
        }
    }
}

#[test]
fn room_in_32768_bytes() {
    let limit = limits::PATHS_IMAGE;
    for (length, number) in [(limit - 4, ACCEPTED), (limit - 3, ACCEPTED), (limit - 2, NoRoomForOutput as u8)] {
        let mut buffer = of_texts(&[vec![b'x'; length - 3]]);
        buffer.resize(limit + 9, 7);
        let answer = insert(&mut buffer, length, b"a");
        let used = if number == ACCEPTED { length + 3 } else { length };
        assert_eq!((answer.number, answer.used), (number, used));
        assert!(buffer[used..].iter().all(|&byte| byte == 7));
    }
    let mut buffer = vec![1; 40_000];
    assert_eq!(insert(&mut buffer, 1, &vec![b'y'; limit - 3]).used, limit);
    assert!(image::paths(&buffer[..limit]).is_some_and(|paths| paths == [vec![b'y'; limit - 3]]));
    assert_eq!(delete(&mut buffer, limit, &vec![b'y'; limit - 3]).used, 1);
    assert_eq!(buffer, [vec![1], vec![0; limit - 1], vec![1; 40_000 - limit]].concat());
    refuses(insert, &[1; 40_000], 1, vec![b'y'; limit - 2], NoRoomForOutput);
}

/// A path that no length can say has no room, and is not there to delete.
#[test]
fn paths_above_65535_bytes() {
    let mut buffer = of_texts(&["a"]);
    buffer.resize(100_000, 7);
    for length in [65_535, 65_536, 65_537, 70_000, 131_073] {
        refuses(insert, &buffer, 4, vec![b'a'; length], NoRoomForOutput);
        refuses(delete, &buffer, 4, vec![b'a'; length], PathPresence);
        let zero = [vec![b'a'; length], vec![0]].concat();
        refuses(insert, &buffer, 4, &zero, Paths);
        refuses(delete, &buffer, 4, &zero, Paths);
    }
}

/// "4 for the image or a used length beyond the buffer".
#[test]
fn images_that_are_none() {
    for update in [insert as Update, delete] {
        for image in [
            b"".as_slice(),
            b"\0",
            b"\x02",
            b"\x01\0",
            b"\x01\0\0",
            b"\x01\0\x02a",
            b"\x01\0\x01\0",
            b"\x01\0\x01a\0",
            b"\x01\0\x01a\0\x01a",
            b"\x01\0\x01b\0\x01a",
        ] {
            refuses(update, &[image, BEHIND].concat(), image.len(), "a", Paths);
            refuses(update, image, image.len(), "a", Paths);
        }
        let buffer = [of_texts(&["a", "b"]), vec![1; 20]].concat();
        for used in [0, 2, 3, 5, 6, 8, 26, 27, 28, 40_000, usize::MAX] {
            refuses(update, &buffer, used, "a", Paths);
        }
        let long = of_texts(&[vec![b'x'; limits::PATHS_IMAGE - 2]]);
        refuses(update, &long, long.len(), vec![b'x'; limits::PATHS_IMAGE - 2], Paths);
    }
    let answer = insert(&mut [1, 0, 1, b'a', 7], 1, b"b");
    assert_eq!((answer.number, answer.used), (ACCEPTED, 4));
}

/// "checks in the order 4 for the image [...], 4 for the path, 24, 21".
#[test]
fn checks_come_in_order() {
    let full = of_texts(&["a", "b"]);
    refuses(insert, &full, 7, "a", PathPresence);
    refuses(insert, &full, 7, "c", NoRoomForOutput);
    refuses(insert, &full, 7, "", Paths);
    refuses(insert, &full, 7, "\0", Paths);
    refuses(insert, &full, 8, "a", Paths);
    refuses(insert, &full, 6, "c", Paths);
    refuses(delete, &full, 7, "c\0", Paths);
    refuses(delete, &full, 8, "c", Paths);
    refuses(insert, &[], 0, "a", Paths);
}

/// An insertion and the deletion of the same path give the paths before, for any list and any path.
#[test]
fn there_and_back() {
    for case in 0..2_000 {
        let random = &mut Random::new(11, case);
        let paths = tables::paths(random);
        let path: Vec<u8> = (0..random.between(1, 4)).map(|_| *random.pick(b"ab./\xe9")).collect();
        let mut wanted: BTreeSet<Vec<u8>> = paths.iter().cloned().collect();
        if !wanted.insert(path.clone()) {
            continue;
        }
        let wanted: Vec<Vec<u8>> = wanted.into_iter().collect();
        gives(insert, &paths, &path, &wanted);
        gives(delete, &wanted, &path, &paths);
    }
}

/// The paths that a word of this pattern becomes, if it matches any. The pattern is that of no path, so that a word which stays as it is is told apart.
fn matches(paths: &[Vec<u8>], pattern: &str) -> Vec<Vec<u8>> {
    let world = paths.iter().fold(World::empty(), |world, path| world.path(path));
    let fields = world.expand(pattern).map_or_else(|refusal| panic!("{pattern}: {refusal:?}"), |left| left.fields);
    if fields == [pattern.as_bytes()] {
        return Vec::new();
    }
    fields
}

/// "the matches of a pattern after an insertion are the old matches with the new path put in its order if it matches, and otherwise the old ones."
#[test]
fn matches_after_an_insertion() {
    let patterns =
        ["*", "a*", "*b", "?", "[a-c]*", "*/*", ".*", "*.b", "[!a]?", "a?", "[[:alpha:]]*", "*[/]*", "**", "[.]*"];
    let mut found = [0; 2];
    for case in 0..600 {
        let random = &mut Random::new(12, case);
        let mut paths = tables::paths(random);
        paths.retain(|path| !patterns.contains(&String::from_utf8_lossy(path).as_ref()));
        let path: Vec<u8> = (0..random.between(1, 4)).map(|_| *random.pick(b"abc./")).collect();
        let (answer, buffer) = updated(insert, &paths, &path);
        if answer.number != ACCEPTED {
            continue;
        }
        let after = image::paths(&buffer[..answer.used]).expect("an image of paths");
        for pattern in patterns {
            let mut wanted = matches(&paths, pattern);
            let alone = matches(from_ref(&path), pattern);
            found[alone.len()] += 1;
            wanted.extend(alone);
            wanted.sort();
            assert_eq!(matches(&after, pattern), wanted, "{pattern} {}", path.escape_ascii());
        }
    }
    assert!(found.iter().all(|count| *count >= 1_000), "{found:?}");
}
