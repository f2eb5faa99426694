//! Cases about positional parameters: their list bare and in quotes, at the start, in the middle and at the end of words and of operands, numbers, lengths,
//! and forms on numbers.

use super::random::Random;
use super::tables::{self, image, Table};
use super::tildes::tilde;
use super::unserved;
use crate::case::Lent;
use crate::image::{self, of_texts};

pub const LISTS: [&str; 8] = ["$@", "$@", "$@", "$*", "$*", "$*", "${@}", "${*}"];
/// Numbers that a list has or not; the last ones are 1 to one who keeps too few bits of them.
const NUMBERS: [&str; 18] = [
    "1", "1", "1", "2", "2", "3", "4", "7", "9", "10", "11", "12", "15", "99", "100", "4294967297",
    "18446744073709551617", "65537",
];
const TEXTS: [&str; 14] = ["a", "b", ":", ",", "-", "*", "?", "[ab]", "\\:", "\\*", "~", "=", ".", "/"];
const QUOTED_TEXTS: [&str; 12] = ["a", "b", " ", ":", "*", "[a]", "-", "\\$", "\\\"", "'", "~", "}"];
const EMPTY: [&str; 7] = ["$e", "$u", "${e}", "${u-}", "${u+a}", "${e%b}", "${u-$e}"];
const IFS: [&str; 16] = ["", "", " ", ":", " :", ": ", ":x", ",", "a", "1", "-", "\t\n", "b ", "*", "\u{e9}", " \t\n"];
const PATTERNS: [&str; 12] = ["*", "?", "a*", "*b", "[a-c]", "\"*\"", "$1", "$2", "${1-a}", "?*", "*:", "[[:alpha:]]"];
/// Texts for which splitting, patterns or joining by IFS come out otherwise by themselves and in a row.
const PARAMETERS: [&str; 32] = [
    "", "", "", " ", "  ", ":", "::", " :", ": ", " : ", "a", "b", "a b", " a", "b ", "a:b", ":a", "a:", "*", "?",
    "[a-c]", "a*", "b/*", "[a", "b]", "base 07.dat", "north", "it's", "12", "-7", "~", "\t\n",
];

/// Where pieces stand: in a word, in an operand read as bare text, in double quotes, in an operand there.
#[derive(Clone, Copy, PartialEq, Eq)]
pub enum Setting {
    Word,
    Operand,
    Double,
    DoubleOperand,
}

/// A list of parameters: none, one, a few, more than nine, many, all empty, one long.
pub fn parameters(random: &mut Random) -> Vec<Vec<u8>> {
    let count = match random.below(12) {
        0..=1 => 0,
        2..=3 => 1,
        4..=7 => random.between(2, 4),
        8..=9 => random.between(5, 14),
        10 => random.between(15, 60),
        _ => return vec![Vec::new(); random.between(1, 4)],
    };
    let mut parameters: Vec<Vec<u8>> = (0..count).map(|_| parameter(random)).collect();
    if count > 0 && random.once_in(20) {
        let at = random.below(count);
        parameters[at] = vec![*random.pick(b"x :1*"); random.between(100, 700)];
    }
    parameters
}

fn parameter(random: &mut Random) -> Vec<u8> {
    match random.below(4) {
        0 => tables::value(random),
        _ => random.text(&PARAMETERS),
    }
}

/// A line of words with lists and numbers over parameters, an IFS and paths of the same few bytes.
pub fn case(random: &mut Random, lent: &mut Lent) {
    let mut table = Table::from([(b"e".to_vec(), vec![]), (b"n".to_vec(), b"1".to_vec())]);
    for name in ["x", "y"] {
        table.insert(name.into(), parameter(random));
    }
    if !random.once_in(3) {
        table.insert(b"IFS".to_vec(), random.text(&IFS));
    }
    if random.once_in(2) {
        table.insert(b"HOME".to_vec(), random.text(&["/home/crew", "", ":", "*"]));
    }
    lent.variables = image(&table);
    lent.used = lent.variables.len();
    lent.variables_buffer = lent.used + random.pick(&[12, 60, 200]);
    let list = if random.once_in(6) { Vec::new() } else { parameters(random) };
    lent.parameters = of_texts(&list);
    let mut words = Words { random, depth: 0 };
    lent.line = words.line();
}

/// Puts a word with a list somewhere among those of a line, or a list at the line's end, and lends parameters that are texts of its tables or any.
pub fn join(random: &mut Random, lent: &mut Lent) {
    let variables = lent.variables.get(..lent.used).and_then(image::variables).unwrap_or_default();
    let mut texts: Vec<Vec<u8>> = variables.into_iter().map(|(_, value)| value).collect();
    texts.extend(image::paths(&lent.paths).unwrap_or_default().into_iter().take(40));
    texts.retain(|text| text.len() < 200);
    let mut list = parameters(random);
    for text in &mut list {
        if !texts.is_empty() && random.once_in(2) {
            text.clone_from(random.pick(&texts));
        }
    }
    lent.parameters = of_texts(&list);
    let mut words = Words { random, depth: 0 };
    let word = words.listing();
    lent.line = match words.random.below(4) {
        0 => [word, b" ".to_vec(), lent.line.clone()].concat(),
        1 => [lent.line.clone(), word].concat(),
        _ => [lent.line.clone(), b" ".to_vec(), word].concat(),
    };
}

/// A number, a count, a length or a list, as any line may have one.
pub fn any(random: &mut Random, depth: usize, quoted: bool) -> Vec<u8> {
    let setting = if quoted { Setting::DoubleOperand } else { Setting::Operand };
    let mut words = Words { random, depth };
    match words.random.below(5) {
        0..=1 => words.random.text(&LISTS),
        _ => words.number(setting),
    }
}

struct Words<'a> {
    random: &'a mut Random,
    depth: usize,
}

impl Words<'_> {
    fn line(&mut self) -> Vec<u8> {
        let count = *self.random.pick(&[1, 1, 2, 3]);
        let mut words: Vec<Vec<u8>> = (0..count).map(|_| self.word()).collect();
        if self.random.once_in(10) {
            let at = self.random.below(count);
            let refused = unserved::text(self.random);
            words[at] = [words[at].clone(), refused, self.random.text(&["", "", "a", "\"$@\""])].concat();
        }
        words.join(self.random.text(&[" ", " ", "  ", "\n"]).as_slice())
    }

    fn word(&mut self) -> Vec<u8> {
        let (before, behind) = (self.pieces(Setting::Word, 2), self.pieces(Setting::Word, 2));
        [before, self.listing(), behind].concat()
    }

    /// A piece with a list in it: bare, in quotes, or in an operand that is used or not.
    fn listing(&mut self) -> Vec<u8> {
        match self.random.below(12) {
            0..=2 => self.random.text(&LISTS),
            3..=7 => self.quotes(true),
            8 => [self.random.text(&LISTS), self.random.text(&LISTS)].concat(),
            9 => self.nested(),
            _ => self.operand(Setting::Word, true),
        }
    }

    fn pieces(&mut self, setting: Setting, most: usize) -> Vec<u8> {
        let count = self.random.below(most + 1);
        (0..count).flat_map(|_| self.piece(setting)).collect()
    }

    fn piece(&mut self, setting: Setting) -> Vec<u8> {
        let quoted = matches!(setting, Setting::Double | Setting::DoubleOperand);
        match self.random.below(20) {
            0..=3 => self.text(setting),
            4..=5 => self.random.text(&EMPTY),
            6 => self.random.text(&["$x", "$y", "${x}", "${#x}", "${x-a}", "$((1))"]),
            7..=10 => self.random.text(&LISTS),
            11..=14 => self.number(setting),
            15 => self.random.text(&["${IFS=:}", "${IFS:=,}", "${IFS:=a }", "${IFS+$e}", "${w=:}", "${u-${IFS:=1}}"]),
            16..=17 if !quoted => self.quotes(false),
            18 if !quoted => self.random.text(&["''", "\"\"", "'a b'", "':'", "\"$e\"", "\"$*\"", "\"$@\""]),
            _ if self.depth < 3 => self.operand(setting, false),
            _ => self.random.text(&LISTS),
        }
    }

    fn text(&mut self, setting: Setting) -> Vec<u8> {
        match setting {
            Setting::Word => self.random.text(&TEXTS),
            Setting::Operand if self.random.once_in(3) => self.random.text(&[" ", "a b", " : ", "\t"]),
            Setting::Operand => self.random.text(&TEXTS),
            Setting::Double => self.random.text(&QUOTED_TEXTS),
            Setting::DoubleOperand => self.random.text(&QUOTED_TEXTS[..QUOTED_TEXTS.len() - 1]),
        }
    }

    /// Double quotes, with a list among what stands in them if one is wanted; often with nothing else that gives a byte.
    fn quotes(&mut self, listing: bool) -> Vec<u8> {
        let mut inside = match self.random.below(4) {
            0..=1 => (0..self.random.below(2)).flat_map(|_| self.random.text(&EMPTY)).collect(),
            _ => self.pieces(Setting::Double, 2),
        };
        if listing {
            inside.extend(match self.random.below(5) {
                0 => self.operand(Setting::Double, true),
                _ => self.random.text(&LISTS),
            });
            inside.extend(match self.random.below(4) {
                0..=1 => Vec::new(),
                2 => self.random.text(&EMPTY),
                _ => self.pieces(Setting::Double, 2),
            });
        }
        [b"\"".to_vec(), inside, b"\"".to_vec()].concat()
    }

    /// `-` or `+` with an operand, mostly one that is used, with a list in it if one is wanted.
    fn operand(&mut self, setting: Setting, listing: bool) -> Vec<u8> {
        let quoted = matches!(setting, Setting::Double | Setting::DoubleOperand);
        let inside = if quoted { Setting::DoubleOperand } else { Setting::Operand };
        let form = self.random.text(&[
            "u-", "u-", "u:-", "e:-", "u-", "x+", "e+", "x:+", "n+", "u+", "e:+", "x-", "99-", "99:-", "1+", "1-",
            "2:-", "1:+", "3-", "3+",
        ]);
        self.depth += 1;
        let mut operand = match self.random.below(12) {
            0 => tilde(self.random, true),
            _ => self.pieces(inside, 2),
        };
        if listing {
            operand.extend(match self.random.below(4) {
                0 if !quoted => self.quotes(true),
                1 if self.depth < 4 => self.operand(inside, true),
                _ => self.random.text(&LISTS),
            });
            operand.extend(self.pieces(inside, 1));
        }
        self.depth -= 1;
        [b"${".to_vec(), form, operand, b"}".to_vec()].concat()
    }

    /// A number, a count, a length, or a form on a number.
    fn number(&mut self, setting: Setting) -> Vec<u8> {
        let number = self.random.text(&NUMBERS);
        match self.random.below(14) {
            0..=2 => [b"$".to_vec(), number].concat(),
            3..=4 => [b"${".to_vec(), number, b"}".to_vec()].concat(),
            5 => {
                self.random.text(&["$#", "${#}", "$#", "\"$#\"", "$#0"][..if setting == Setting::Word { 5 } else { 3 }])
            }
            6 => [b"${#".to_vec(), number, b"}".to_vec()].concat(),
            7..=8 => [b"${".to_vec(), number, self.removal(), b"}".to_vec()].concat(),
            9 => self.sum(),
            _ => self.choice(number, setting),
        }
    }

    fn removal(&mut self) -> Vec<u8> {
        [self.random.text(&["%", "%%", "#", "##"]), self.random.text(&PATTERNS)].concat()
    }

    fn sum(&mut self) -> Vec<u8> {
        self.random.text(&[
            "$(($#))", "$(($#+1))", "$((${#1}*2))", "$(($1+0))", "$((${1:-3}))", "$((n-$#))", "$((${9-1}))",
            "$((${#}<2))", "$(($2))", "$((${1%b}))",
        ])
    }

    /// One of `-?+` on a number; `?` mostly on one that is there.
    fn choice(&mut self, number: Vec<u8>, setting: Setting) -> Vec<u8> {
        let form = self.random.text(&["-", ":-", "-", ":-", "+", ":+", "+", "?", ":?"]);
        let number = if form.ends_with(b"?") && !self.random.once_in(3) { b"1".to_vec() } else { number };
        let quoted = matches!(setting, Setting::Double | Setting::DoubleOperand);
        let inside = if quoted { Setting::DoubleOperand } else { Setting::Operand };
        self.depth += 1;
        let operand = match form.ends_with(b"?") || self.depth > 3 {
            true => self.text(inside),
            false => self.pieces(inside, 2),
        };
        self.depth -= 1;
        [b"${".to_vec(), number, form, operand, b"}".to_vec()].concat()
    }

    /// A list under 6 to 9 open expansions; in the ninth it is not come to.
    fn nested(&mut self) -> Vec<u8> {
        let depth = self.random.between(6, 9);
        let forms = ["${u-", "${x+", "${99-", "${u:-a", "${e+", "${n+\"$e\""];
        let open: Vec<u8> = (0..depth).flat_map(|_| self.random.text(&forms)).collect();
        let quotes: &[u8] = if self.random.once_in(2) { b"\"" } else { b"" };
        [open, quotes.to_vec(), self.random.text(&["$@", "$*", "$1"]), quotes.to_vec(), b"}".repeat(depth)].concat()
    }
}
