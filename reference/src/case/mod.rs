//! A case: one call with its answer, on one line of text in the format of tests/vectors/README.md. Each kind of call has its words and its buffers in a file
//! of its own.

mod costs;
mod lines;
mod updates;

pub use self::costs::LentPattern;
pub use self::lines::{Job, Lent};
pub use self::updates::{LentPaths, Update};

use crate::calls::{quote, Answer};
use crate::hex;

/// What stands in the output where the case says nothing, and in the work area.
const OUT_FILL: u8 = 0xa5;
const WORK_FILL: u8 = 0xc3;

#[derive(Clone, Debug)]
pub enum Call {
    Lines(Job, Lent),
    Quote { fields: Vec<u8>, out: usize },
    Paths(Update, LentPaths),
    Cost(LentPattern),
}

impl Call {
    /// The words before the `=`.
    pub fn words(&self) -> String {
        match self {
            Call::Lines(job, lent) => format!("{} {}", job.name(), lent.words(*job).join(" ")),
            Call::Quote { fields, out } => format!("quote {} {out}", hex::write(fields)),
            Call::Paths(update, lent) => format!("{} {}", update.name(), lent.words()),
            Call::Cost(lent) => format!("cost {}", lent.words()),
        }
    }

    /// The call before the `=` of a case, or `None` if it is not in the format.
    pub fn of_words(words: &str) -> Option<Call> {
        let words: Vec<&str> = words.split(' ').collect();
        let (name, words) = words.split_first()?;
        if let ("quote", [fields, out]) = (*name, words) {
            return Some(Call::Quote { fields: hex::read(fields)?, out: out.parse().ok()? });
        }
        if *name == "cost" {
            return LentPattern::of_words(words).map(Call::Cost);
        }
        if let Some(update) = Update::ALL.into_iter().find(|update| update.name() == *name) {
            return LentPaths::of_words(words).map(|lent| Call::Paths(update, lent));
        }
        let job = Job::ALL.into_iter().find(|job| job.name() == *name)?;
        Lent::of_words(job, words).map(|lent| Call::Lines(job, lent))
    }

    /// The answer of the call and its words behind the `=`, or what was wrong in a buffer.
    pub fn answer(&self) -> Result<(Answer, String), String> {
        match self {
            Call::Lines(job, lent) => lines::answer(*job, lent),
            Call::Quote { fields, out } => {
                let mut buffer = vec![OUT_FILL; *out];
                let answer = quote(fields, &mut buffer);
                check_behind(&buffer, answer.length, &vec![OUT_FILL; *out])?;
                let out = hex::write(&buffer[..answer.length]);
                Ok((answer, head(&answer, &out)))
            }
            Call::Paths(update, lent) => updates::answer(*update, lent),
            Call::Cost(lent) => costs::answer(lent),
        }
    }
}

/// The case as a line of text with the answer, or what was wrong in a buffer.
pub fn case(call: &Call) -> Result<String, String> {
    let (_, words) = call.answer()?;
    Ok(format!("{} = {words}", call.words()))
}

/// Whether a line of a case file holds; what differs otherwise.
pub fn replay(text: &str) -> Result<(), String> {
    let (words, wanted) = text.split_once(" = ").ok_or("no answer in the line")?;
    let call = Call::of_words(words).ok_or("not in the format")?;
    let (_, given) = call.answer()?;
    if given == wanted {
        return Ok(());
    }
    Err(format!("{words}\n  wanted {wanted}\n  given  {given}"))
}

fn head(answer: &Answer, out: &str) -> String {
    format!("{} {} {} {out}", answer.number, answer.place, answer.length)
}

/// Every byte behind the new length must be the one that is to stand there.
fn check_behind(buffer: &[u8], length: usize, given: &[u8]) -> Result<(), String> {
    if buffer[length..] == given[length..] {
        Ok(())
    } else {
        Err("a byte behind the new length has changed".to_string())
    }
}
