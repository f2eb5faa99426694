//! The calls that take a line: what they are given, and their answers.

use super::{check_behind, head, OUT_FILL, WORK_FILL};
use crate::calls::{assign, expand, normalise, Answer, Tables};
use crate::hex;
use crate::image;
use crate::number::ACCEPTED;

const VARIABLES_FILL: u8 = 0x5a;
const MESSAGE_FILL: u8 = 0xc3;

#[derive(Clone, Copy, Debug, PartialEq, Eq)]
pub enum Job {
    Expand,
    Normalise,
    Assign,
}

impl Job {
    pub const ALL: [Job; 3] = [Job::Expand, Job::Normalise, Job::Assign];

    pub fn name(self) -> &'static str {
        match self {
            Job::Expand => "expand",
            Job::Normalise => "normalise",
            Job::Assign => "assign",
        }
    }
}

/// What the jobs that take a line are given; assignments have neither paths nor output.
#[derive(Clone, Debug)]
pub struct Lent {
    pub line: Vec<u8>,
    pub variables: Vec<u8>,
    pub used: usize,
    pub variables_buffer: usize,
    pub homes: Vec<u8>,
    pub paths: Vec<u8>,
    pub work: usize,
    pub out: usize,
    pub parameters: Vec<u8>,
    pub message: usize,
    pub shout: bool,
}

impl Lent {
    pub fn tables(&self) -> Tables<'_> {
        Tables { homes: &self.homes, paths: &self.paths, parameters: &self.parameters, shout: self.shout }
    }

    /// The words of a job's call behind its name.
    pub fn words(&self, job: Job) -> Vec<String> {
        let number = |number: usize| number.to_string();
        let mut words = vec![hex::write(&self.line), hex::write(&self.variables), number(self.used)];
        words.extend([number(self.variables_buffer), hex::write(&self.homes)]);
        match job {
            Job::Assign => words.push(number(self.work)),
            _ => words.extend([hex::write(&self.paths), number(self.work), number(self.out)]),
        }
        words.extend([hex::write(&self.parameters), number(self.message), number(usize::from(self.shout))]);
        words
    }

    /// What such words lend, or `None` if they are not in the format. The switch may be left out, and is off then.
    pub fn of_words(job: Job, words: &[&str]) -> Option<Lent> {
        let (&[line, variables, used, variables_buffer, homes], rest) = words.split_first_chunk()?;
        let (paths, work, out, behind) = match (job, rest) {
            (Job::Assign, [work, behind @ ..]) => (image::empty(), work, 0, behind),
            (Job::Expand | Job::Normalise, [paths, work, out, behind @ ..]) => {
                (hex::read(paths)?, work, out.parse().ok()?, behind)
            }
            _ => return None,
        };
        let (parameters, message, shout) = match behind {
            [parameters, message] | [parameters, message, "0"] => (parameters, message, false),
            [parameters, message, "1"] => (parameters, message, true),
            _ => return None,
        };
        Some(Lent {
            line: hex::read(line)?,
            variables: hex::read(variables)?,
            used: used.parse().ok()?,
            variables_buffer: variables_buffer.parse().ok()?,
            homes: hex::read(homes)?,
            paths,
            work: work.parse().ok()?,
            out,
            parameters: hex::read(parameters)?,
            message: message.parse().ok()?,
            shout,
        })
    }
}

/// The answer of a job and its words behind the `=`, or what was wrong in a buffer.
pub fn answer(job: Job, lent: &Lent) -> Result<(Answer, String), String> {
    let mut variables = lent.variables.clone();
    variables.resize(lent.variables_buffer, VARIABLES_FILL);
    let mut given = variables.clone();
    let mut out = vec![OUT_FILL; lent.out];
    let mut work = vec![WORK_FILL; lent.work];
    let mut message = vec![MESSAGE_FILL; lent.message];
    let Lent { line, used, .. } = lent;
    let answer = match job {
        Job::Expand => expand(line, &mut variables, *used, lent.tables(), &mut work, &mut out, &mut message),
        Job::Normalise => normalise(line, &mut variables, *used, lent.tables(), &mut work, &mut out, &mut message),
        Job::Assign => assign(line, &mut variables, *used, lent.tables(), &mut work, &mut message),
    };
    if work.iter().any(|&byte| byte != 0) {
        return Err("the work area is not zero".to_string());
    }
    check_behind(&out, answer.length, &vec![OUT_FILL; lent.out])?;
    let changed = if answer.number == ACCEPTED { answer.used } else { 0 };
    if answer.number == ACCEPTED && changed < *used {
        given[changed..*used].fill(0);
    }
    check_behind(&variables, changed, &given)?;
    check_behind(&message, answer.message, &vec![MESSAGE_FILL; lent.message])?;
    let head = match job {
        Job::Assign => format!("{} {}", answer.number, answer.place),
        _ => head(&answer, &hex::write(&out[..answer.length])),
    };
    let variables = hex::write(&variables[..changed]);
    let message = hex::write(&message[..answer.message]);
    Ok((answer, format!("{head} {} {variables} {} {message}", answer.used, answer.message)))
}
