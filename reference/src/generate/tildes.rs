//! Cases about tildes: at the start of words and of operands in every form, over directories that a pattern or IFS would
//! tell from plain bytes, and over values that begin or end with one.

use super::random::Random;
use super::tables::{image, Table, LOGINS};
use crate::case::Lent;

const DIRECTORIES: [&str; 14] =
    ["/home/crew", "/home/crew", "/h *", "/a b", "*", "?", "[a-c]", "[[:a", "", "~", "~crew", "/", "a:b", "12"];
const IFS: [&str; 8] = [" ", "/", ":", "~", "/ ", "*", "h", ""];
const FORMS: [&str; 18] =
    ["-", "-", "-", ":-", "=", "=", ":=", "+", "+", ":+", "?", "#", "##", "%", "%%", "#", "##", "%"];

/// What stands behind a login: a slash that ends it, bytes that leave the tilde literal, and such as stand in an operand alone.
const ENDED: [&str; 6] = ["/", "/a", "/a b", "/*", "/~", "/$x"];
const NO_LOGIN: [&str; 9] = [":", ":~", "'b'", "\"\"", "\\c", "$e", "~", "*", "${u-}"];
const NO_LOGIN_IN_OPERANDS: [&str; 8] = [" ", " a", "\t", "\n", "|", "#", "\\}", "'}'"];

/// A tilde, a login or none, and what stands behind it.
pub fn tilde(random: &mut Random, in_operand: bool) -> Vec<u8> {
    let login = match random.below(7) {
        0..=2 => Vec::new(),
        3 => random.text(&["nobody", "crew_", "A"]),
        _ => random.text(&LOGINS),
    };
    let behind = match random.below(10) {
        0..=4 => Vec::new(),
        5..=7 => random.text(&ENDED),
        8 if in_operand => random.text(&NO_LOGIN_IN_OPERANDS),
        _ => random.text(&NO_LOGIN),
    };
    [b"~".to_vec(), login, behind].concat()
}

/// One login, or none for HOME, that most of the tildes have, and values of its directory with something before or behind.
pub fn case(random: &mut Random, lent: &mut Lent) {
    let login = if random.once_in(2) { Vec::new() } else { random.text(&LOGINS) };
    let directory = random.text(&DIRECTORIES);
    let mut homes = homes(random);
    let mut variables = variables(random, &directory);
    match login.as_slice() {
        b"" => variables.insert(b"HOME".to_vec(), directory),
        _ => homes.insert(login.clone(), directory),
    };
    lent.homes = image(&homes);
    lent.variables = image(&variables);
    lent.used = lent.variables.len();
    lent.variables_buffer = lent.used + random.pick(&[20, 60, 200]);
    let mut words = Words { random, login };
    lent.line = words.line();
}

fn homes(random: &mut Random) -> Table {
    let mut table = Table::new();
    for login in LOGINS {
        if random.once_in(2) {
            table.insert(login.into(), random.text(&DIRECTORIES));
        }
    }
    table
}

/// HOME perhaps, and values that begin or end with the directory; `u` and `w` are unset.
fn variables(random: &mut Random, directory: &[u8]) -> Table {
    let mut table = Table::from([(b"e".to_vec(), vec![])]);
    if !random.once_in(3) {
        table.insert(b"HOME".to_vec(), random.text(&DIRECTORIES));
    }
    for (name, before, behind) in [("x", "", "/out"), ("y", "out", ""), ("n", "", "7"), ("v", "", "")] {
        table.insert(name.into(), [before.as_bytes(), directory, behind.as_bytes()].concat());
    }
    if random.once_in(2) {
        table.insert(b"IFS".to_vec(), random.text(&IFS));
    }
    table
}

struct Words<'a> {
    random: &'a mut Random,
    login: Vec<u8>,
}

impl Words<'_> {
    fn line(&mut self) -> Vec<u8> {
        let count = *self.random.pick(&[1, 1, 2, 3]);
        let words: Vec<Vec<u8>> = (0..count).map(|_| self.word()).collect();
        words.join(self.random.text(&[" ", " ", "  ", "\n"]).as_slice())
    }

    /// An expansion with a tilde, or a tilde itself, perhaps with something before and behind.
    fn word(&mut self) -> Vec<u8> {
        let before = self.random.text(&["", "", "", "", "a", "''", "~/", "$e", "~"]);
        let inside = match self.random.below(14) {
            0 => self.tilde(),
            1..=8 => self.expansion(2),
            9..=11 => [b"\"".to_vec(), self.expansion(2), b"\"".to_vec()].concat(),
            _ => [b"$((".to_vec(), self.expansion(1), self.random.text(&["", "+1", "*2"]), b"))".to_vec()].concat(),
        };
        let behind = self.random.text(&["", "", "", "", "~", "'~'", "/b", "$x", " ~"]);
        [before, inside, behind].concat()
    }

    /// `${...}` with an operand that begins with a tilde, or with another such expansion; most of these operands are used.
    fn expansion(&mut self, depth: usize) -> Vec<u8> {
        let form = self.random.text(&FORMS);
        let name = match form.last() {
            Some(b'-' | b'=') => self.random.text(&["u", "w", "u", "w", "u", "e", "x"]),
            Some(b'+') => self.random.text(&["x", "e", "v", "x", "u"]),
            Some(b'?') => self.random.text(&["x", "y", "e", "u"]),
            Some(b'%') => self.random.text(&["y", "v", "y", "HOME"]),
            _ => self.random.text(&["x", "n", "n", "v", "HOME"]),
        };
        let operand = match self.random.below(10) {
            0..=1 if depth > 0 => self.expansion(depth - 1),
            2 => [self.random.text(&["''", "\\", "a", "$e", "*"]), self.tilde()].concat(),
            3 if depth > 0 => [self.tilde(), self.expansion(depth - 1)].concat(),
            _ => self.tilde(),
        };
        [b"${".to_vec(), name, form, operand, b"}".to_vec()].concat()
    }

    fn tilde(&mut self) -> Vec<u8> {
        if self.random.once_in(2) {
            return tilde(self.random, true);
        }
        let behind = if self.random.once_in(3) { self.random.text(&ENDED) } else { Vec::new() };
        [b"~".to_vec(), self.login.clone(), behind].concat()
    }
}
