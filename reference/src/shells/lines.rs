//! Lines on which documents 01 and 02 and POSIX agree: nested like those of the grammar, without what docs/SHELLS.md lists.

use super::{positional, Outcome, Table};
use crate::generate::lists::Setting;
use crate::generate::random::Random;

const DEEPEST: usize = 4;

const NAMES: [&str; 9] = ["x", "y", "v", "e", "n", "A1", "_a", "name_9", "IFS"];
const UNSET: [&str; 2] = ["u", "w"];
const NUMBERS: [&str; 2] = ["n", "A1"];

const IFS: [&str; 9] = ["", " ", ":", " :", " \t\n", "0", "^1", ",", "x:"];
const VALUES: &[&str] = &[
    "", "a", "a b", " a  b ", ":a::b:", " : a :", "*", "?", "[a-c]", "a*", "d/*", "a/b", "x.y", "'", "\"a\"", "$x",
    "}", "a\tb\nc", "-1", "a:b c", "a^b^^c", "^", "/home/crew/a b", "a/home/crew", "~/a", "[[:alpha:]]",
    "[[:digit:]]*", "Z9_\x0b\x7f-f",
];
const NUMBER_VALUES: [&str; 8] = ["", "0", "-1", "+7", "0x10", "010", "9223372036854775807", "12"];

const LITERALS: &[&str] =
    &["a", "b", "c", "x", "1", "-", "=", ":", "!", "%", "@", "abc", "d/", ",", "+", "x.y", "{", "]"];
const WILD: &[&str] = &[
    "*", "?", "[a-c]", "[!a]", "[abc]", "a*", "?b", "d/*", "[a-]", "*b", ".h*", "d/.[e]", "[]a]", "*/?", "[!]a]",
    "[a-c-e]", "[--a]", "['!'a]", "[\"]\"a]", "[a'-'c]", "[c-a]", "[!c-a]", "[", "[]", "[!", "[a", "[\\!a]", "[!!a]",
    "[a-c]*", "[]-a]", "[a\\]]",
];
/// Brackets with a class. A name has no quoted byte: both shells take it as if it were bare.
const CLASSES: &[&str] = &[
    "[[:alnum:]]", "[[:alpha:]]", "[[:blank:]]", "[[:cntrl:]]", "[[:digit:]]", "[[:graph:]]", "[[:lower:]]",
    "[[:print:]]", "[[:punct:]]", "[[:space:]]", "[[:upper:]]", "[[:xdigit:]]", "[![:alpha:]]", "[![:punct:]b]*",
    "[[:digit:][:upper:]_]", "[a-c[:digit:]]", "[[:lower:]-]", "[-[:digit:]]", "[a-c-[:digit:]]", "[][:alpha:]]",
    "[!][:space:]]", "[[:digit:]", "[a[:alpha:]", "[[:al''pha:]]", "*[[:space:]]*", "[[:alpha:]:]", "[:alpha:]",
    "['['[:punct:]]", "d/[[:lower:]]", "[[:digit:]'-'z]",
];
const QUOTED: [&str; 12] = ["", "a", " ", "a b", "*", "?", "[a]", ":", "#", "~", "$x", "}"];
/// The texts without a brace stand first; a removal's operand has only these.
const BRACELESS: usize = 11;
const ESCAPES: &[&str] = &["\\}", "\\a", "\\$", "\\\"", "\\\\", "\\*", "\\ ", "\\'", "\\~"];
const DOUBLE_ESCAPES: [&str; 5] = ["\\a", "\\$", "\\\"", "\\\\", "\\*"];
const CHOICES: [&str; 7] = ["-", ":-", "+", ":+", "?", "=", ":="];
/// The choices that store nothing stand first; a removal's operand has only these.
const STORELESS: usize = 5;
const REMOVALS: [&str; 4] = ["%", "%%", "#", "##"];
/// Tildes that may begin an operand. More stands only behind a slash: bash ends a login at a `:` too, and dash loses its
/// way when an unused operand has an expansion there.
const TILDES: [&str; 12] = ["~", "~", "~", "~/", "~/", "~/a", "~/~", "~ a", "~nologin9", "~nologin9/", "~'a'", "~\\a"];
const CONSTANTS: [&str; 12] =
    ["0", "1", "2", "3", "7", "10", "010", "0x1F", "2147483648", "9223372036854775807", "0x7fffffffffffffff", "100"];
const OPERATORS: [&str; 11] = ["*", "/", "%", "+", "-", "<", "<=", ">", ">=", "==", "!="];

pub fn variables(random: &mut Random) -> Table {
    let mut table = Table::from([(b"HOME".to_vec(), b"/home/crew".to_vec())]);
    for name in NAMES {
        let value = match name {
            "IFS" if random.once_in(2) => continue,
            "IFS" => random.text(&IFS),
            _ if random.once_in(4) => continue,
            _ if NUMBERS.contains(&name) => random.text(&NUMBER_VALUES),
            _ => random.text(VALUES),
        };
        table.insert(name.into(), value);
    }
    table
}

/// A line, with positional parameters in it if they are wanted.
pub fn line(random: &mut Random, positional: bool) -> Vec<u8> {
    let words = random.between(1, 4);
    let mut lines = Lines::new(random, positional, true);
    let mut line = Vec::new();
    for _ in 0..words {
        line.extend(lines.word());
    }
    line
}

/// Whether no slash stands where a shell would leave the table: a field with a wildcard that found nothing, and a
/// slash at its start, at its end or next to another.
pub fn stays_in_table(outcome: &Outcome) -> bool {
    let wild = |field: &[u8]| field.iter().any(|byte| b"*?[".contains(byte));
    let slash =
        |field: &[u8]| field.starts_with(b"/") || field.ends_with(b"/") || field.windows(2).any(|two| two == b"//");
    !outcome.fields.iter().any(|field| wild(field) && slash(field))
}

/// Whether the shells split the line as the documents do. No expansion stands directly behind another while IFS has white
/// and hard bytes: dash takes a white delimiter that ends one and a hard one that begins the next for two. No class stands
/// in it while IFS has a `:`: in a word with an expansion, bash takes a bracket's bytes that are in IFS for quoted ones.
pub fn splits_alike(line: &[u8], variables: &Table) -> bool {
    let ifs = variables.get(b"IFS".as_slice());
    let has = |byte: u8| ifs.is_some_and(|ifs| ifs.contains(&byte));
    let ends = |byte: u8| byte.is_ascii_alphanumeric() || b"_})".contains(&byte);
    let expansions = line.windows(2).any(|two| ends(two[0]) && two[1] == b'$');
    !(has(b' ') && has(b':') && expansions) && !(has(b':') && has_class(line))
}

/// Whether the line has `[:`, by which a class begins.
pub fn has_class(line: &[u8]) -> bool {
    line.windows(2).any(|two| two == b"[:")
}

/// How deep the line being made is, whether inside a removal's operand, where nothing is stored, whether it has positional parameters, and whether
/// `$@` and `$*` are served here.
pub struct Lines<'a> {
    random: &'a mut Random,
    depth: usize,
    in_removal: bool,
    positional: bool,
    lists: bool,
}

impl<'a> Lines<'a> {
    pub fn new(random: &'a mut Random, positional: bool, lists: bool) -> Lines<'a> {
        Lines { random, depth: 0, in_removal: false, positional, lists }
    }

    fn word(&mut self) -> Vec<u8> {
        let mut word = Vec::new();
        if self.random.once_in(10) {
            word.extend(self.random.text(&["~ ", "~/a ", "~/ ", "~nologin9/x "]));
        }
        word.extend(self.pieces(Setting::Word));
        word.extend(self.random.text(&[" ", "  ", "\t"]));
        word
    }

    pub fn pieces(&mut self, setting: Setting) -> Vec<u8> {
        let most = if self.depth == 0 { 4 } else { 3 };
        let count = self.random.between(0, most);
        (0..count).flat_map(|_| self.piece(setting)).collect()
    }

    fn piece(&mut self, setting: Setting) -> Vec<u8> {
        let quoted = matches!(setting, Setting::Double | Setting::DoubleOperand);
        if self.positional && self.random.once_in(3) {
            return positional::piece(self.random, self.lists, quoted);
        }
        match self.random.below(24) {
            5..=7 if !quoted && self.random.once_in(3) => self.random.text(CLASSES),
            5..=7 if !quoted => self.random.text(WILD),
            8..=10 if !quoted => self.quotes(),
            11 if quoted => self.random.text(&DOUBLE_ESCAPES),
            11 => self.random.text(ESCAPES),
            12..=15 => [b"$".to_vec(), self.name()].concat(),
            16..=21 if self.depth < DEEPEST => self.brace(quoted),
            22 if self.depth < DEEPEST => self.arithmetic(),
            _ => self.literal(setting),
        }
    }

    fn name(&mut self) -> Vec<u8> {
        match self.random.below(4) {
            0 => self.random.text(&UNSET),
            _ => self.random.text(&NAMES),
        }
    }

    fn literal(&mut self, setting: Setting) -> Vec<u8> {
        let special = self.random.once_in(4);
        match setting {
            Setting::Operand if special => self.random.text(&[" ", "  ", "a b", "#"]),
            Setting::Double | Setting::DoubleOperand if special => self.random.text(&["'", " ", "*", "?"]),
            _ => self.random.text(LITERALS),
        }
    }

    fn quotes(&mut self) -> Vec<u8> {
        if self.random.once_in(2) {
            let quoted = if self.in_removal { &QUOTED[..BRACELESS] } else { &QUOTED };
            return between("'", self.random.text(quoted), "'");
        }
        between("\"", self.pieces(Setting::Double), "\"")
    }

    fn brace(&mut self, quoted: bool) -> Vec<u8> {
        let name = self.name();
        self.depth += 1;
        let inside = match self.random.below(10) {
            0 => [b"#".to_vec(), name].concat(),
            1 => name,
            2..=6 => self.choice(name, quoted),
            _ => [name, self.removal()].concat(),
        };
        self.depth -= 1;
        between("${", inside, "}")
    }

    /// One of `-=?+`. IFS is stored only if unset, and only with bytes that stand bare in no line here.
    fn choice(&mut self, name: Vec<u8>, quoted: bool) -> Vec<u8> {
        let choices = if self.in_removal { &CHOICES[..STORELESS] } else { &CHOICES };
        let choice = self.random.text(choices);
        if name == b"IFS" && choice.ends_with(b"=") {
            return [name, self.random.text(&["=^", "=\t", "="])].concat();
        }
        let setting = if quoted { Setting::DoubleOperand } else { Setting::Operand };
        let lists = self.lists;
        self.lists &= !choice.ends_with(b"=") && !choice.ends_with(b"?");
        let operand = self.operand_text(setting);
        self.lists = lists;
        [name, choice, operand].concat()
    }

    /// The text of an operand, which begins with a tilde now and then.
    pub fn operand_text(&mut self, setting: Setting) -> Vec<u8> {
        if !self.random.once_in(6) {
            return self.pieces(setting);
        }
        let tilde = self.random.text(&TILDES);
        let behind = if tilde.ends_with(b"/") { self.pieces(setting) } else { Vec::new() };
        [tilde, behind].concat()
    }

    fn removal(&mut self) -> Vec<u8> {
        let outer = std::mem::replace(&mut self.in_removal, true);
        let lists = std::mem::replace(&mut self.lists, false);
        let removal = [self.random.text(&REMOVALS), self.operand_text(Setting::Operand)].concat();
        self.in_removal = outer;
        self.lists = lists;
        removal
    }

    fn arithmetic(&mut self) -> Vec<u8> {
        self.depth += 1;
        let text = self.sum(2);
        self.depth -= 1;
        between("$((", text, "))")
    }

    /// A sum whose signs stand apart, since bash reads two together as one.
    fn sum(&mut self, size: usize) -> Vec<u8> {
        let mut text = self.operand(size);
        for _ in 0..self.random.below(size + 1) {
            let operator = self.random.text(&OPERATORS);
            text.extend(between(" ", operator, " "));
            text.extend(self.operand(size));
        }
        text
    }

    fn operand(&mut self, size: usize) -> Vec<u8> {
        match self.random.below(12) {
            0 => [self.random.text(&["- ", "+ "]), self.operand(size)].concat(),
            1..=2 if size > 0 => between("(", self.sum(size - 1), ")"),
            3..=4 => self.random.text(&NUMBERS),
            5 => [b"$".to_vec(), self.random.text(&NUMBERS)].concat(),
            6 if self.depth < DEEPEST && size > 0 => self.arithmetic(),
            7 if !self.in_removal => self.random.text(&["${w:=5}", "${u=7}"]),
            8 => self.random.text(&["${u-3}", "${#x}", "${n:-4}", "u", "w"]),
            _ => self.random.text(&CONSTANTS),
        }
    }
}

fn between(open: &str, inside: Vec<u8>, close: &str) -> Vec<u8> {
    [open.as_bytes(), &inside, close.as_bytes()].concat()
}
