//! The call that tells how dear a pattern is for a text: what it is given, and its answer.

use super::WORK_FILL;
use crate::calls::Answer;
use crate::cost::{cost, Cost};
use crate::hex;

#[derive(Clone, Debug)]
pub struct LentPattern {
    pub pattern: Vec<u8>,
    pub text: Vec<u8>,
    pub work: usize,
}

impl LentPattern {
    /// The words of the call behind its name.
    pub fn words(&self) -> String {
        let LentPattern { pattern, text, work } = self;
        format!("{} {} {work}", hex::write(pattern), hex::write(text))
    }

    /// What such words lend, or `None` if they are not in the format.
    pub fn of_words(words: &[&str]) -> Option<LentPattern> {
        let &[pattern, text, work] = words else {
            return None;
        };
        Some(LentPattern { pattern: hex::read(pattern)?, text: hex::read(text)?, work: work.parse().ok()? })
    }

    pub fn cost(&self) -> Result<Cost, String> {
        let mut work = vec![WORK_FILL; self.work];
        let cost = cost(&self.pattern, &self.text, &mut work);
        if work.iter().any(|&byte| byte != 0) {
            return Err("the work area is not zero".to_string());
        }
        Ok(cost)
    }
}

/// The answer and its words behind the `=`, or what was wrong in the work area. The call has none of the lengths that the others give.
pub fn answer(lent: &LentPattern) -> Result<(Answer, String), String> {
    let Cost { number, place, count } = lent.cost()?;
    Ok((Answer { number, place, length: 0, used: 0, message: 0 }, format!("{number} {place} {count}")))
}
