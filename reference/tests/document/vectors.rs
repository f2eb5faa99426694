//! All vectors of the repository: every call of calls.txt and of named.txt, every folder of program.

use std::fs;
use std::io::sink;
use std::path::{Path, PathBuf};

use reference::case::replay;
use reference::program::{run, Started};

fn vectors() -> PathBuf {
    Path::new(env!("CARGO_MANIFEST_DIR")).join("../tests/vectors")
}

fn lines(file: &str) -> Vec<String> {
    let text = fs::read_to_string(vectors().join(file)).expect(file);
    text.lines().map(str::to_string).collect()
}

#[test]
fn calls() {
    let cases = lines("calls.txt");
    let differ: Vec<String> = cases.iter().filter_map(|case| replay(case).err()).collect();
    assert!(cases.len() > 1_500);
    assert!(differ.is_empty(), "{} differ, first:\n{}", differ.len(), differ[0]);
}

#[test]
fn named() {
    let mut cases = 0;
    for line in lines("named.txt").iter().filter(|line| !line.is_empty() && !line.starts_with('#')) {
        let (name, case) = line.split_once(' ').expect("a name and a call");
        assert_eq!(replay(case), Ok(()), "{name}");
        cases += 1;
    }
    assert!(cases >= 71);
}

/// The arguments of a folder, one to a line, `\\n` in one being a newline; none if it has no such file.
fn arguments(folder: &Path) -> Vec<Vec<u8>> {
    let text = fs::read_to_string(folder.join("arguments")).unwrap_or_default();
    text.lines().map(|line| line.replace("\\n", "\n").into_bytes()).collect()
}

#[test]
fn program() {
    let mut folders = 0;
    for entry in fs::read_dir(vectors().join("program")).expect("program") {
        let folder = entry.expect("an entry").path();
        let lines = fs::read(folder.join("stdin")).expect("stdin");
        let wanted = fs::read(folder.join("stdout")).expect("stdout");
        let mut out = Vec::new();
        run(&folder, &Started::by(arguments(&folder)).expect("no options"), lines.as_slice(), &mut out, sink())
            .expect("an answer");
        assert!(out == wanted, "{} differs", folder.display());
        folders += 1;
    }
    assert!(folders >= 13);
}
