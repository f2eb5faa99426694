//! The reference beside dash and bash: the same line, variables, parameters and paths, and whether all give the same.

pub mod assignments;
pub mod counting;
pub mod differences;
pub mod escapes;
pub mod lines;
pub mod messages;
pub mod positional;
pub mod script;
pub mod shouting;
pub mod sums;

use std::collections::BTreeMap;
use std::fs;
use std::io;
use std::path::{Path, PathBuf};
use std::process::{Command, Stdio};

use crate::calls::{assign, expand, Tables};
use crate::case::Lent;
use crate::image::{self, of_texts};
use crate::limits;
use crate::number::ACCEPTED;

pub type Table = BTreeMap<Vec<u8>, Vec<u8>>;

/// The names whose values are compared after each line.
pub const NAMES: [&str; 12] = ["A1", "HOME", "IFS", "_a", "e", "n", "name_9", "u", "v", "w", "x", "y"];

/// The files of the folder, directories among them before what they hold.
pub const PATHS: [&str; 26] = [
    "-", ".hid", "1", "=", "Z9", "[a]", "_b", "a", "a b", "a'b", "a*b", "a-c", "a.b", "a:b", "ab", "abc", "b", "c",
    "d", "d/.e", "d/b", "d/c", "d/e", "d/e/f", "x", "x y",
];

const DIRECTORIES: [&str; 2] = ["d", "d/e"];

/// What a line is expanded with.
#[derive(Clone, Debug, Default)]
pub struct Given {
    pub variables: Table,
    pub parameters: Vec<Vec<u8>>,
    /// The switch, `set -u` in a shell.
    pub shout: bool,
}

impl Given {
    /// What a job is lent for a line, with room for all that may come of it.
    fn lent(&self, line: &[u8]) -> Lent {
        let texts: Vec<&Vec<u8>> = self.variables.iter().flat_map(|(key, value)| [key, value]).collect();
        let variables = of_texts(&texts);
        Lent {
            line: line.to_vec(),
            used: variables.len(),
            variables,
            variables_buffer: limits::IMAGE,
            homes: image::empty(),
            paths: of_texts(&PATHS),
            work: limits::WORK_AREA,
            out: limits::IMAGE,
            parameters: of_texts(&self.parameters),
            message: 0,
            shout: self.shout,
        }
    }
}

/// How a line is taken: as words that become fields, or as assignments.
#[derive(Clone, Copy, Debug, PartialEq, Eq)]
pub enum Taken {
    Fields,
    Assignments,
}

/// What a line gives: its fields, and the variables that are set afterwards.
#[derive(Clone, Debug, PartialEq, Eq)]
pub struct Outcome {
    pub fields: Vec<Vec<u8>>,
    pub variables: Table,
}

/// A shell and the words that start it.
#[derive(Clone, Copy, Debug)]
pub enum Shell {
    Dash,
    Bash,
    Busybox,
    Mksh,
    Yash,
}

impl Shell {
    /// Those that generated lines are compared with, and all.
    pub const COMPARED: [Shell; 2] = [Shell::Dash, Shell::Bash];
    /// Those of them that serve `$'...'`.
    pub const SERVING_ESCAPES: [Shell; 1] = [Shell::Bash];
    const ALL: [Shell; 5] = [Shell::Dash, Shell::Bash, Shell::Busybox, Shell::Mksh, Shell::Yash];

    pub fn named(name: &str) -> Option<Shell> {
        Shell::ALL.into_iter().find(|shell| shell.name() == name)
    }

    pub fn name(self) -> &'static str {
        match self {
            Shell::Dash => "dash",
            Shell::Bash => "bash",
            Shell::Busybox => "busybox",
            Shell::Mksh => "mksh",
            Shell::Yash => "yash",
        }
    }

    fn options(self) -> &'static [&'static str] {
        match self {
            Shell::Dash => &[],
            Shell::Bash => &["--posix", "+B"],
            Shell::Busybox => &["ash"],
            Shell::Mksh => &["-o", "posix"],
            Shell::Yash => &["-o", "posixly-correct"],
        }
    }

    /// Whether nothing is known by which the shell would take an accepted line otherwise. Yash reads some ranges otherwise, has tildes in operands that
    /// stand in quotes, and wants single quotes closed there; with lists it does as the documents say.
    pub fn is_alike(self, line: &[u8], given: &Given) -> bool {
        let has = |text: &&str| line.windows(text.len()).any(|here| here == text.as_bytes());
        match self {
            Shell::Yash => {
                let quotes = line.iter().filter(|byte| **byte == b'\'').count();
                quotes % 2 == 0 && !["c-a", "a-c-", "[--", "-~", "=~", "+~"].iter().any(has)
            }
            _ => lines::splits_alike(line, &given.variables) && positional::spreads_alike(line, given),
        }
    }

    /// Where yash must find a `printf` before it uses its own; the others look for nothing.
    fn path(self) -> Option<(&'static str, &'static str)> {
        matches!(self, Shell::Yash).then_some(("PATH", "/usr/bin"))
    }

    pub fn is_installed(self) -> bool {
        let mut command = Command::new(self.name());
        command.args(self.options()).args(["-c", ":"]).stdin(Stdio::null());
        command.status().is_ok_and(|status| status.success())
    }

    /// The shell with a script, in the folder, and with nothing of the surroundings but what it needs.
    fn command(self, folder: &Folder, script: &Path) -> Command {
        let mut command = Command::new(self.name());
        command.args(self.options()).arg(script).current_dir(folder.files());
        command.env_clear().env("LC_ALL", "C").envs(self.path());
        command
    }

    /// What the shell makes of the line in the folder; `None` if it fails, an error if the line is not harmless.
    pub fn outcome(self, folder: &Folder, line: &[u8], given: &Given, taken: Taken) -> io::Result<Option<Outcome>> {
        let harmless = script::is_harmless(line);
        let mut values = given.variables.values().chain(&given.parameters);
        if !harmless || !values.all(|value| script::is_harmless_value(value)) {
            return Err(io::Error::other("a line that could run something is not run"));
        }
        let script = folder.script();
        fs::write(&script, script::script(line, given, &NAMES, taken))?;
        let output = self.command(folder, &script).stdin(Stdio::null()).output()?;
        Ok(output.status.success().then(|| parsed(&output.stdout)).flatten())
    }
}

/// The outcome a script has printed.
fn parsed(printed: &[u8]) -> Option<Outcome> {
    let printed = printed.strip_suffix(b"\0")?;
    let mut texts = printed.split(|&byte| byte == 0).map(<[u8]>::to_vec);
    let count: usize = String::from_utf8(texts.next()?).ok()?.parse().ok()?;
    let fields = texts.by_ref().take(count).collect();
    let mut variables = Table::new();
    for name in NAMES {
        let (state, value) = (texts.next()?, texts.next()?);
        if state == b"set" {
            variables.insert(name.into(), value);
        }
    }
    Some(Outcome { fields, variables })
}

/// What the reference makes of the line, or its number.
pub fn reference(line: &[u8], given: &Given, taken: Taken) -> Result<Outcome, u8> {
    let texts: Vec<&Vec<u8>> = given.variables.iter().flat_map(|(key, value)| [key, value]).collect();
    let mut variables = of_texts(&texts);
    let used = variables.len();
    variables.resize(limits::IMAGE, 0);
    let (homes, paths, parameters) = (&image::empty(), &of_texts(&PATHS), &of_texts(&given.parameters));
    let tables = Tables { homes, paths, parameters, shout: given.shout };
    let (work, mut out) = (&mut vec![0; limits::WORK_AREA], image::empty());
    let answer = match taken {
        Taken::Fields => {
            out.resize(limits::IMAGE, 0);
            expand(line, &mut variables, used, tables, work, &mut out, &mut [])
        }
        Taken::Assignments => assign(line, &mut variables, used, tables, work, &mut []),
    };
    if answer.number != ACCEPTED {
        return Err(answer.number);
    }
    let variables = image::variables(&variables[..answer.used]).unwrap_or_default();
    Ok(Outcome {
        fields: image::fields(&out[..answer.length]).unwrap_or_default(),
        variables: variables.into_iter().collect(),
    })
}

/// A folder of its own whose files are the paths; removed at the end.
pub struct Folder(PathBuf);

impl Folder {
    pub fn new() -> io::Result<Folder> {
        let name = format!("reference-shells-{}", std::process::id());
        let folder = Folder(std::env::temp_dir().join(name));
        fs::create_dir_all(folder.files())?;
        for path in PATHS {
            let file = folder.files().join(path);
            if DIRECTORIES.contains(&path) {
                fs::create_dir_all(file)?;
            } else {
                fs::write(file, b"")?;
            }
        }
        Ok(folder)
    }

    fn script(&self) -> PathBuf {
        self.0.join(".script")
    }

    fn files(&self) -> PathBuf {
        Path::new(&self.0).join("files")
    }
}

impl Drop for Folder {
    fn drop(&mut self) {
        let _ = fs::remove_dir_all(&self.0);
    }
}
