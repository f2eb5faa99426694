//! The program of document 01: tables from a folder, the switch and parameters from its arguments, lines from a reader, one answer to a line; and what lines
//! demand.

use std::fs;
use std::io::{self, BufRead, ErrorKind, Write};
use std::path::Path;

use crate::calls::{normalise, Answer, Tables};
use crate::image;
use crate::limits;
use crate::number::{Number, ACCEPTED};

/// What the program is started with.
#[derive(Default)]
pub struct Started {
    pub shout: bool,
    pub parameters: Vec<Vec<u8>>,
}

impl Started {
    /// `--shout` turns the switch on; `--` ends the options, and so does the first argument that is none. The others are the parameters. An option that
    /// there is none of, a hyphen and something behind it, starts nothing.
    pub fn by(arguments: impl IntoIterator<Item = Vec<u8>>) -> Option<Started> {
        let mut rest = arguments.into_iter().peekable();
        let shout = std::iter::from_fn(|| rest.next_if(|word| word == b"--shout")).count() > 0;
        let ended = rest.next_if(|word| word == b"--").is_some();
        let unknown = !ended && rest.peek().is_some_and(|word| word.len() > 1 && word.starts_with(b"-"));
        (!unknown).then(|| Started { shout, parameters: rest.collect() })
    }
}

/// The tables of a folder, the parameters, the switch, and the variables as the lines so far have left them.
struct Program {
    variables: Vec<u8>,
    used: usize,
    homes: Vec<u8>,
    paths: Vec<u8>,
    parameters: Vec<u8>,
    shout: bool,
}

/// Answers every line, and tells what it demands behind its number, counted from 1; a table that is there and cannot be read is an error before any answer.
pub fn run(
    folder: &Path,
    started: &Started,
    mut lines: impl BufRead,
    mut out: impl Write,
    mut told: impl Write,
) -> io::Result<()> {
    let mut program = Program::new(folder, started)?;
    let mut line = Vec::new();
    for number in 1u64.. {
        if lines.read_until(b'\n', &mut line)? == 0 {
            break;
        }
        let (words, message) = program.answer(line.strip_suffix(b"\n").unwrap_or(&line));
        out.write_all(&words)?;
        out.flush()?;
        if let Some(message) = message {
            told.write_all(&[format!("line {number}: ").as_bytes(), &message, b"\n"].concat())?;
        }
        line.clear();
    }
    Ok(())
}

impl Program {
    fn new(folder: &Path, started: &Started) -> io::Result<Self> {
        let mut variables = table(folder, "vars.tab")?;
        let used = variables.len();
        variables.resize(limits::IMAGE, 0);
        let (homes, paths) = (table(folder, "homes.tab")?, table(folder, "paths.tab")?);
        let parameters = list(&started.parameters);
        Ok(Program { variables, used, homes, paths, parameters, shout: started.shout })
    }

    /// The words of the answer to a line, and the message that it demands, if it does.
    fn answer(&mut self, line: &[u8]) -> (Vec<u8>, Option<Vec<u8>>) {
        let (mut out, mut message) = (vec![0; limits::IMAGE], vec![0; limits::ROW]);
        let answer = normalise(
            line,
            &mut self.variables,
            self.used,
            Tables { homes: &self.homes, paths: &self.paths, parameters: &self.parameters, shout: self.shout },
            &mut vec![0; limits::WORK_AREA],
            &mut out,
            &mut message,
        );
        self.used = answer.used;
        out.truncate(answer.length);
        message.truncate(answer.message);
        (said(&answer, &out), (answer.number == Number::Missing as u8).then_some(message))
    }
}

/// The image of the parameters. Those that no image of its length can hold are one that is too long, whatever they are.
fn list(parameters: &[Vec<u8>]) -> Vec<u8> {
    let length: usize = 1 + parameters.iter().map(|text| 2 + text.len()).sum::<usize>();
    if length > limits::IMAGE {
        return vec![0; length];
    }
    image::of_texts(parameters)
}

/// The answer as the program writes it.
fn said(answer: &Answer, line: &[u8]) -> Vec<u8> {
    if answer.number == ACCEPTED {
        return [b"ok ", line, b"\n"].concat();
    }
    format!("no {} {}\n", answer.number, answer.place).into_bytes()
}

/// A table's file, or no records if it is absent.
fn table(folder: &Path, name: &str) -> io::Result<Vec<u8>> {
    match fs::read(folder.join(name)) {
        Err(error) if error.kind() == ErrorKind::NotFound => Ok(image::empty()),
        Err(error) => Err(io::Error::new(error.kind(), format!("{name}: {error}"))),
        Ok(image) => Ok(image),
    }
}
