//! Paths inserted and deleted. What is expected is written out from E11 of docs/02-change-requests.md.

use drunquill::{delete_path, insert_path, Number, Paths, Refusal, PATHS_MAX};

use crate::buffers::{image, update_differs, Lent, Update};

/// Paths in a buffer of that length.
fn lent(texts: &[&[u8]], length: usize) -> Lent {
    let paths = image(texts);
    Lent { used: paths.len(), paths, length, fill: |at| (at * 31 % 251 + 5) as u8 }
}

fn gives(update: Update, texts: &[&[u8]], path: &[u8], left: &[&[u8]]) {
    let wanted = image(left);
    let least = wanted.len().max(image(texts).len());
    for length in [60, least] {
        assert_eq!(
            update_differs(update, &lent(texts, length), path, &Ok(wanted.clone())),
            None,
            "{}",
            path.escape_ascii()
        );
    }
}

fn refused(update: Update, lent: &Lent, path: &[u8], number: Number) {
    let refusal = Refusal { number, place: 0, message: Vec::new() };
    assert_eq!(update_differs(update, lent, path, &Err(refusal)), None, "{number:?}");
}

#[test]
fn paths_are_inserted() {
    gives(Update::Insert, &[], b"b", &[b"b"]);
    gives(Update::Insert, &[b"b", b"d"], b"a", &[b"a", b"b", b"d"]);
    gives(Update::Insert, &[b"b", b"d"], b"c/x", &[b"b", b"c/x", b"d"]);
    gives(Update::Insert, &[b"b", b"d"], b"\xff", &[b"b", b"d", b"\xff"]);
}

#[test]
fn paths_are_deleted() {
    gives(Update::Delete, &[b"b"], b"b", &[]);
    gives(Update::Delete, &[b"a", b"b", b"d"], b"a", &[b"b", b"d"]);
    gives(Update::Delete, &[b"b", b"c/x", b"d"], b"d", &[b"b", b"c/x"]);
}

#[test]
fn updates_are_refused() {
    let fits = lent(&[b"b", b"d"], 60);
    let full = lent(&[b"b", b"d"], 7);
    for update in [Update::Insert, Update::Delete] {
        refused(update, &lent(&[b"d", b"b"], 60), b"b", Number::BadPaths);
        refused(update, &Lent { used: 61, ..fits.clone() }, b"b", Number::BadPaths);
        refused(update, &Lent { used: usize::MAX, ..fits.clone() }, b"b", Number::BadPaths);
        refused(update, &Lent { used: 0, length: 0, paths: Vec::new(), ..fits.clone() }, b"b", Number::BadPaths);
        refused(update, &full, b"", Number::BadPaths);
        refused(update, &full, b"d\0", Number::BadPaths);
    }
    refused(Update::Insert, &full, b"d", Number::BadPath);
    refused(Update::Delete, &full, b"c", Number::BadPath);
    refused(Update::Insert, &full, b"c", Number::OutputRoom);
    refused(Update::Insert, &lent(&[b"b"], 6), b"c", Number::OutputRoom);
    let long = [b'c'; 65_536];
    refused(Update::Insert, &lent(&[b"b"], 100_000), &long, Number::OutputRoom);
    refused(Update::Delete, &lent(&[b"b"], 100_000), &long, Number::BadPath);
    refused(Update::Insert, &lent(&[b"b"], PATHS_MAX + 10), &long[..PATHS_MAX - 5], Number::OutputRoom);
}

#[test]
fn a_path_goes_and_comes_back() {
    let before = image(&[b"b", b"d"]);
    let mut buffer = [7; 20];
    buffer[..before.len()].copy_from_slice(&before);
    let mut paths = Paths { buffer: &mut buffer, used: before.len() };
    insert_path(&mut paths, b"cc").expect("a new path");
    assert_eq!(&paths.buffer[..paths.used], image(&[b"b", b"cc", b"d"]));
    delete_path(&mut paths, b"cc").expect("a path that is there");
    assert_eq!(paths.used, before.len());
    assert_eq!(buffer.as_slice(), [before.as_slice(), &[0; 4], &[7; 9]].concat());
}
