//! How often each number, each kind of call, and each edge comes up among the cases of seeds.

use std::collections::BTreeSet;
use std::fmt;
use std::ops::RangeInclusive;

use super::assigned::Assigned;
use super::brackets::Brackets;
use super::call;
use super::costly::Costly;
use super::counted::Counted;
use super::escaped::Escaped;
use super::messages::Messages;
use super::operands::Tildes;
use super::patterns::Patterns;
use super::positional::Positional;
use super::quoting::Quoting;
use super::shouted::Shouted;
use super::sums::{Met, Sums};
use super::updated::Updated;
use super::walk::walk;
use crate::calls::Answer;
use crate::case::{Call, Job, Lent, Update};
use crate::image;
use crate::limits;
use crate::number::{Number, ACCEPTED, LAST_NUMBER};
use crate::seen::{Seen, SeenRow};

#[derive(Debug, Default)]
pub struct Tally {
    pub numbers: [usize; LAST_NUMBER as usize + 1],
    pub expand: usize,
    pub normalise: usize,
    pub assign: usize,
    pub quote: usize,
    pub insert: usize,
    pub delete: usize,
    pub cost: usize,
    /// The bytes the cases take in a file.
    pub bytes: usize,
    /// The arithmetic texts that were worked out or refused, and how many different ones.
    pub sums: usize,
    pub different_sums: BTreeSet<Vec<u8>>,
    pub kinds_of_sums: Sums,
    /// The lines of as many bytes as a line may have.
    pub full_lines: usize,
    /// The rows of one unit less than a row may have, of as many, and of one more, which are refused.
    pub rows: [usize; 3],
    pub tildes: Tildes,
    pub quoting: Quoting,
    pub brackets: Brackets,
    pub patterns: Patterns,
    pub positional: Positional,
    pub messages: Messages,
    pub assigned: Assigned,
    pub counted: Counted,
    pub updated: Updated,
    pub escaped: Escaped,
    pub costly: Costly,
    pub shouted: Shouted,
}

impl Tally {
    /// So many cases of each of the seeds.
    pub fn of(seeds: RangeInclusive<u64>, count: u64) -> Tally {
        let mut tally = Tally::default();
        for seed in seeds {
            for case in 0..count {
                tally.add(&call(seed, case));
            }
        }
        tally
    }

    fn add(&mut self, call: &Call) {
        let (answer, words) = call.answer().expect("buffers kept as promised");
        self.numbers[usize::from(answer.number)] += 1;
        self.bytes += call.words().len() + " = ".len() + words.len() + 1;
        *match call {
            Call::Lines(Job::Expand, _) => &mut self.expand,
            Call::Lines(Job::Normalise, _) => &mut self.normalise,
            Call::Lines(Job::Assign, _) => &mut self.assign,
            Call::Quote { .. } => &mut self.quote,
            Call::Paths(Update::Insert, _) => &mut self.insert,
            Call::Paths(Update::Delete, _) => &mut self.delete,
            Call::Cost(_) => &mut self.cost,
        } += 1;
        if let Call::Lines(job, lent) = call {
            self.add_line(*job, lent, &answer);
        }
        match call {
            Call::Lines(Job::Expand | Job::Assign, _) => (),
            Call::Lines(Job::Normalise, lent) => self.quoting.add_line(lent),
            Call::Quote { fields, .. } => self.quoting.add_image(fields),
            Call::Paths(update, lent) => self.updated.add(*update, lent, &answer),
            Call::Cost(lent) => self.costly.add(lent, answer.number),
        }
    }

    /// A line, and what it came across if it was walked.
    fn add_line(&mut self, job: Job, lent: &Lent, answer: &Answer) {
        if job != Job::Assign {
            self.positional.add(lent, answer.number);
        }
        if !is_expanded(answer.number) {
            return;
        }
        self.escaped.add(job, lent);
        self.shouted.add(job, lent, answer);
        let seen = walk(job, lent);
        let texts: Vec<Met> = seen.sums.iter().map(Met::of).collect();
        self.counted.add(job, lent, answer, &texts);
        if !is_walked(answer.number) {
            return;
        }
        match job {
            Job::Assign => self.assigned.add(lent, answer),
            _ => self.add_words(lent, answer, seen, &texts),
        }
    }

    /// A line of the expander or the normaliser that was walked.
    fn add_words(&mut self, lent: &Lent, answer: &Answer, seen: Seen, texts: &[Met]) {
        self.messages.add(lent, answer, &seen);
        self.full_lines += usize::from(lent.line.len() == limits::LINE);
        self.tildes.add(lent);
        self.positional.add_seen(lent, &seen);
        let paths = image::paths(&lent.paths).unwrap_or_default();
        self.brackets.add(&seen, &paths);
        self.patterns.add(&seen, paths.len());
        self.sums += seen.sums.len();
        texts.iter().for_each(|met| self.kinds_of_sums.add(met));
        self.different_sums.extend(seen.sums.into_iter().map(|sum| sum.text));
        for SeenRow { units, .. } in seen.rows {
            if (limits::ROW - 1..=limits::ROW + 1).contains(&units) {
                self.rows[units + 1 - limits::ROW] += 1;
            }
        }
    }
}

/// Whether the call came to read its line.
fn is_expanded(number: u8) -> bool {
    number == ACCEPTED || number > Number::ZeroByte as u8 && number != Number::Parameters as u8
}

/// Whether the call came to all that the walk over its line comes to: not where its output had no room.
fn is_walked(number: u8) -> bool {
    is_expanded(number) && number != Number::NoRoomForOutput as u8
}

impl fmt::Display for Tally {
    fn fmt(&self, out: &mut fmt::Formatter) -> fmt::Result {
        for (number, count) in self.numbers.iter().enumerate() {
            writeln!(out, "{number:2} {count}")?;
        }
        let Tally { expand, normalise, quote, bytes, sums, different_sums, full_lines, rows, .. } = self;
        let Tally {
            tildes,
            quoting,
            brackets,
            patterns,
            positional,
            kinds_of_sums,
            messages,
            assigned,
            counted,
            updated,
            escaped,
            costly,
            shouted,
            assign,
            insert,
            delete,
            cost,
            ..
        } = self;
        writeln!(out, "expand {expand}, normalise {normalise}, quote {quote}, assign {assign}")?;
        writeln!(out, "insert {insert}, delete {delete}, cost {cost}")?;
        writeln!(out, "{bytes} bytes")?;
        writeln!(out, "arithmetic texts {sums}, different ones {}", different_sums.len())?;
        writeln!(out, "lines of 2048 bytes {full_lines}")?;
        writeln!(out, "rows of 2047 units {}, of 2048 {}, refused at 2049 {}", rows[0], rows[1], rows[2])?;
        write!(out, "{tildes}{quoting}{brackets}{patterns}{positional}{kinds_of_sums}{messages}{assigned}{counted}")?;
        write!(out, "{updated}{escaped}{costly}{shouted}")
    }
}
