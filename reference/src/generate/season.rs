//! A folder for the program: tables from a seed, and lines that share them one after the other, as a crew's season does.

use super::{call, ordinary, random::Random, steps::steps, MOST_STEPS};
use crate::calls::normalise;
use crate::case::{Call, Job, Lent};
use crate::limits;

pub struct Season {
    pub variables: Vec<u8>,
    pub homes: Vec<u8>,
    pub paths: Vec<u8>,
    pub lines: Vec<Vec<u8>>,
}

impl Season {
    /// The lines are those of the seed's cases, a newline in them a blank. One whose patterns would cost too much with these tables, and with what
    /// the lines before it have stored, is left out.
    pub fn of(seed: u64, count: usize) -> Season {
        let mut lent = ordinary(&mut Random::new(seed, u64::MAX));
        lent.variables_buffer = limits::IMAGE;
        let (variables, homes, paths) = (lent.variables.clone(), lent.homes.clone(), lent.paths.clone());
        let mut lines = Vec::new();
        for case in 0.. {
            if lines.len() == count {
                break;
            }
            let Call::Lines(Job::Expand | Job::Normalise, made) = call(seed, case) else {
                continue;
            };
            lent.line = made.line.into_iter().map(|byte| if byte == b'\n' { b' ' } else { byte }).collect();
            if steps(Job::Normalise, &lent) <= MOST_STEPS {
                carry_over(&mut lent);
                lines.push(lent.line.clone());
            }
        }
        Season { variables, homes, paths, lines }
    }
}

/// The variables as the line leaves them.
fn carry_over(lent: &mut Lent) {
    let mut variables = lent.variables.clone();
    variables.resize(limits::IMAGE, 0);
    let mut work = vec![0; limits::WORK_AREA];
    let mut out = vec![0; limits::IMAGE];
    let answer = normalise(&lent.line, &mut variables, lent.used, lent.tables(), &mut work, &mut out, &mut []);
    lent.used = answer.used;
    variables.truncate(answer.used);
    lent.variables = variables;
}
