//! The program: tables absent, empty, too long and unreadable; unended lines; variables that carry over; its option.

use std::fs;
use std::path::{Path, PathBuf};

use reference::image::of_texts;
use reference::program::{run, Started};

/// A folder of its own for one test, removed at its end.
struct Folder(PathBuf);

impl Folder {
    fn new(test: &str) -> Folder {
        let folder = format!("reference-{}-{test}", std::process::id());
        let folder = std::env::temp_dir().join(folder);
        fs::create_dir_all(&folder).expect("a folder");
        Folder(folder)
    }

    fn write(&self, name: &str, bytes: &[u8]) {
        fs::write(self.0.join(name), bytes).expect("a file");
    }

    fn says(&self, lines: &[u8]) -> String {
        self.says_with(&[], lines)
    }

    fn says_with(&self, parameters: &[&str], lines: &[u8]) -> String {
        said(&self.0, parameters, lines).expect("tables that can be read")
    }
}

impl Drop for Folder {
    fn drop(&mut self) {
        let _ = fs::remove_dir_all(&self.0);
    }
}

fn said(folder: &Path, parameters: &[&str], lines: &[u8]) -> std::io::Result<String> {
    Ok(said_and_told(folder, parameters, lines)?.0)
}

fn said_and_told(folder: &Path, parameters: &[&str], lines: &[u8]) -> std::io::Result<(String, String)> {
    let started = Started::by(parameters.iter().map(|text| text.as_bytes().to_vec())).expect("known options");
    let (mut out, mut told) = (Vec::new(), Vec::new());
    run(folder, &started, lines, &mut out, &mut told)?;
    Ok((String::from_utf8_lossy(&out).into_owned(), String::from_utf8_lossy(&told).into_owned()))
}

/// "Add a switch, off by default.": an option in front of the parameters.
#[test]
fn the_switch_is_an_option() {
    let folder = Folder::new("switch");
    let lines = b"load $bsae $1\n${base=b}\nload $base$1$#\n${rover?no $bsae}\n";
    let (off, on) = ("ok load a\nok b\nok load ba1\nno 13 0\n", "no 25 5\nok b\nok load ba1\nno 25 0\n");
    assert_eq!(folder.says_with(&["a"], lines), off);
    assert_eq!(folder.says_with(&["--", "a"], lines), off);
    assert_eq!(folder.says_with(&["--shout", "a"], lines), on);
    assert_eq!(folder.says_with(&["--shout", "--", "a"], lines), on);
    let told = |parameters: &[&str]| said_and_told(&folder.0, parameters, lines).expect("no tables").1;
    assert_eq!((told(&["a"]), told(&["--shout", "a"])), ("line 4: no \n".to_string(), String::new()));
    assert_eq!(folder.says_with(&["--", "--shout"], b"\"$1\" $bsae"), "ok --shout\n");
    assert_eq!(folder.says_with(&["--shout", "--", "--"], b"$1$#"), "ok --1\n");
    assert_eq!(folder.says_with(&["--shout"], b"$#\n$1"), "ok 0\nno 25 0\n");
    assert_eq!(folder.says_with(&["-", "--loud"], b"$1 $2"), "ok - --loud\n");
    for unknown in [&["--loud"][..], &["-s", "a"], &["--shout", "--shout=1"]] {
        assert!(Started::by(unknown.iter().map(|text| text.as_bytes().to_vec())).is_none());
    }
}

#[test]
fn what_lines_demand() {
    let folder = Folder::new("demands");
    let lines =
        b"a\n${base:?no base file chosen}\n${base=b 07}\n\"${rover?~ and $base}\" b\n${rover?}\n${u?$((1/0))}\n'";
    let (said, told) = said_and_told(&folder.0, &[], lines).expect("no tables");
    assert_eq!(said, "ok a\nno 13 0\nok b 07\nno 13 0\nno 13 0\nno 18 0\nno 7 0\n");
    assert_eq!(told, "line 2: no base file chosen\nline 4: ~ and b 07\nline 5: \n");
}

#[test]
fn lines_and_answers() {
    let folder = Folder::new("lines");
    assert_eq!(folder.says(b""), "");
    assert_eq!(folder.says(b"\n"), "ok \n");
    assert_eq!(folder.says(b"a b\n\n|"), "ok a b\nok \nno 8 0\n");
    assert_eq!(folder.says(b"a ${x\r\n"), "no 11 2\n");
    assert_eq!(folder.says(b"\0\n''"), "no 6 0\nok ''\n");
    let long = [&[b'x'; 2_049][..], b"\nx"].concat();
    assert_eq!(folder.says(&long), "no 5 0\nok x\n");
}

#[test]
fn variables_carry_over_on_acceptance_only() {
    let folder = Folder::new("variables");
    folder.write("vars.tab", &of_texts(&["v", "1"]));
    let lines = b"${u=a}\n${v+$u}\n${w=x}${n?}\n${w-none}\n${v}\n";
    assert_eq!(folder.says(lines), "ok a\nok a\nno 13 0\nok none\nok 1\n");
}

#[test]
fn tables() {
    let folder = Folder::new("tables");
    folder.write("homes.tab", &of_texts(&["crew", "/c"]));
    folder.write("paths.tab", &of_texts(&["a", "b"]));
    assert_eq!(folder.says(b"* ~crew 'a b'"), "ok a b /c 'a b'\n");
    folder.write("paths.tab", &[1; 32_769]);
    assert_eq!(folder.says(b"a\nb"), "no 4 0\nno 4 0\n");
    folder.write("homes.tab", b"");
    assert_eq!(folder.says(b"a"), "no 3 0\n");
    folder.write("vars.tab", &of_texts(&["v".into(), "x".repeat(8_187)]));
    assert_eq!(folder.says(b"a"), "no 2 0\n");
    folder.write("vars.tab", b"");
    assert_eq!(folder.says(b"a"), "no 2 0\n");
}

#[test]
fn parameters() {
    let folder = Folder::new("parameters");
    let given = ["north", "base 07.dat", ""];
    assert_eq!(
        folder.says_with(&given, b"cp \"$2\" $1/ \"$@\"\n$#\n"),
        "ok cp 'base 07.dat' north/ north 'base 07.dat' ''\nok 3\n"
    );
    assert_eq!(folder.says(b"$# \"$@\" $1"), "ok 0\n");
    let most = "x".repeat(8_189);
    assert_eq!(folder.says_with(&[&most], b"${#1}"), "ok 8189\n");
    assert_eq!(folder.says_with(&[&most, ""], b"a\n|"), "no 23 0\nno 23 0\n");
    assert_eq!(folder.says_with(&[&"x".repeat(70_000)], b"a"), "no 23 0\n");
    folder.write("paths.tab", b"");
    assert_eq!(folder.says_with(&[&most, ""], b"a"), "no 4 0\n");
}

#[test]
fn a_table_that_cannot_be_read() {
    let folder = Folder::new("unreadable");
    fs::create_dir_all(folder.0.join("paths.tab")).expect("a folder");
    let error = said(&folder.0, &[], b"a\n").expect_err("an error");
    assert!(error.to_string().starts_with("paths.tab: "));
}
