//! Arithmetic texts for the shells, every other one with assignments: many in one script, each with its variables before it, and the result of each with the
//! variables after it on a line.
//!
//! Only texts that the reference accepts are compared, so none in which a number leaves the 64 bits, a shift count is outside 0 to 63, or a constant is too
//! large or bad: there a shell wraps round, masks the count or takes another base. Of those accepted, `is_alike` leaves out what the shells read otherwise.

use std::collections::BTreeSet;
use std::fs;
use std::io;
use std::process::Stdio;

use super::script::{is_harmless, is_harmless_value, quoted};
use super::{reference, Folder, Given, Outcome, Shell, Table, Taken};
use crate::arithmetic::{read, Tree};
use crate::generate::random::Random;
use crate::generate::stored::stores;
use crate::generate::{counters, counting, operators};

/// The most texts in one script.
const BATCH: usize = 500;

/// The names that stand in the texts.
const NAMES: [&str; 14] = ["A1", "e", "least", "most", "n", "name_9", "new_9", "over", "u", "v", "w", "x", "y", "z"];

/// A text, the variables it is worked out with, what the reference makes of it, and the variables afterwards.
pub struct Sum {
    pub text: Vec<u8>,
    pub variables: Table,
    pub result: Vec<u8>,
    pub after: Table,
}

impl Sum {
    /// The result and the variables as a script prints them.
    pub fn said(&self) -> Vec<u8> {
        let mut said = self.result.clone();
        for name in NAMES {
            said.push(b' ');
            if let Some(value) = self.after.get(name.as_bytes()) {
                said.extend([name.as_bytes(), b"=", value].concat());
            }
        }
        said
    }
}

/// The texts of a seed that are compared, no two of them equal, and how many more were refused or left out.
#[derive(Default)]
pub struct Sums {
    pub sums: Vec<Sum>,
    pub refused: usize,
    pub left_out: usize,
}

impl Sums {
    /// So many different texts.
    pub fn of(seed: u64, count: usize) -> Sums {
        let (mut made, mut seen) = (Sums::default(), BTreeSet::new());
        for case in 0.. {
            if made.sums.len() == count {
                break;
            }
            let random = &mut Random::new(seed, case);
            let (variables, text) = match random.below(2) {
                0 => (operators::variables(random), operators::text(random)),
                _ => (counting::variables(random), counters::text(random)),
            };
            if seen.insert(text.clone()) {
                made.add(text, variables);
            }
        }
        made
    }

    fn add(&mut self, text: Vec<u8>, variables: Table) {
        let line = [b"$((".as_slice(), &text, b"))"].concat();
        let given = Given { variables, ..Given::default() };
        match reference(&line, &given, Taken::Fields) {
            Err(_) => self.refused += 1,
            Ok(_) if !is_alike(&text) => self.left_out += 1,
            Ok(Outcome { fields, variables: after }) => {
                self.sums.push(Sum { text, variables: given.variables, result: fields.concat(), after });
            }
        }
    }
}

/// Whether nothing is known by which a shell would take an accepted text otherwise: `++` and `--` are one token in bash. A text with an inner expansion is
/// left out too; lines have those.
pub fn is_alike(text: &[u8]) -> bool {
    !text.contains(&b'$') && !text.windows(2).any(|two| two == b"++" || two == b"--")
}

impl Shell {
    /// Whether the shell works out the assignments of such a text as the documents do: bash reads the name before the right side, so that it does not see
    /// what that stores under the name.
    pub fn assigns_alike(self, text: &[u8]) -> bool {
        !matches!(self, Shell::Bash) || read(text).is_ok_and(|tree| !stores_what_is_read(&tree))
    }
}

/// Whether the right side of a sign that reads its name stores under that name.
fn stores_what_is_read(tree: &Tree) -> bool {
    match tree {
        Tree::Constant(_) | Tree::Name(_) => false,
        Tree::Unary(_, operand) => stores_what_is_read(operand),
        Tree::Binary(_, left, right) => stores_what_is_read(left) || stores_what_is_read(right),
        Tree::Conditional(condition, if_true, if_zero) => {
            [condition, if_true, if_zero].iter().any(|tree| stores_what_is_read(tree))
        }
        Tree::Assignment(sign, name, right) => {
            (*sign != "=" && stores(right, Some(name))) || stores_what_is_read(right)
        }
    }
}

/// What a shell makes of each text and leaves in the variables; nothing for one it fails at.
pub fn results(shell: Shell, folder: &Folder, sums: &[&Sum]) -> io::Result<Vec<Option<Vec<u8>>>> {
    let mut results = Vec::new();
    while results.len() < sums.len() {
        let end = sums.len().min(results.len() + BATCH);
        let printed = printed(shell, folder, &sums[results.len()..end])?;
        let complete = printed.split_inclusive(|&byte| byte == b'\n').filter_map(|line| line.strip_suffix(b"\n"));
        results.extend(complete.map(|line| Some(line.to_vec())));
        if results.len() < end {
            results.push(None);
        }
    }
    Ok(results)
}

/// What a script of these texts prints, up to the first at which the shell fails.
fn printed(shell: Shell, folder: &Folder, sums: &[&Sum]) -> io::Result<Vec<u8>> {
    let mut lines = Vec::new();
    for Sum { text, variables, .. } in sums {
        let line = [b"$((".as_slice(), text, b"))"].concat();
        if !is_harmless(&line) || !variables.values().all(|value| is_harmless_value(value)) {
            return Err(io::Error::other("a text that could run something is not run"));
        }
        lines.extend(format!("unset result {}\n", NAMES.join(" ")).bytes());
        for (name, value) in variables {
            lines.extend([name, b"=".as_slice(), &quoted(value), b"\n"].concat());
        }
        lines.extend([b"result=", line.as_slice(), b"\nprintf '%s' \"$result\""].concat());
        lines.extend(NAMES.iter().flat_map(|name| format!(" \" ${{{name}+{name}=${name}}}\"").into_bytes()));
        lines.extend(b" '\n'\n");
    }
    let script = folder.script();
    fs::write(&script, lines)?;
    let output = shell.command(folder, &script).stdin(Stdio::null()).output()?;
    Ok(output.stdout)
}
