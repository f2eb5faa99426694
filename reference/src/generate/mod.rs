//! Cases made from a seed: lines and tables of every kind, for the reference and what is held against it to answer.

pub mod assigned;
pub mod assignments;
pub mod brackets;
pub mod classes;
pub mod costly;
pub mod costs;
pub mod counted;
pub mod counters;
pub mod counting;
mod crowds;
mod damage;
pub mod demands;
pub mod escaped;
pub mod escapes;
mod expression;
mod focus;
pub mod grammar;
pub mod hostile;
pub mod lists;
pub mod messages;
pub mod operands;
pub mod operators;
pub mod patterns;
pub mod positional;
pub mod quoting;
pub mod random;
pub mod season;
pub mod shouted;
pub mod shouting;
mod sizes;
mod stars;
pub mod steps;
pub(crate) mod stored;
pub mod sums;
pub mod tables;
pub mod tally;
mod tildes;
mod unserved;
pub mod updated;
pub mod updates;
pub(crate) mod walk;

use self::random::Random;
use self::tables::Kind;
use crate::calls::Answer;
use crate::case::{Call, Job, Lent};
use crate::image::of_texts;
use crate::limits;
use crate::number::ACCEPTED;

/// The most steps of a case's patterns; `hostile` has those without a bound.
pub const MOST_STEPS: usize = 5_000_000;

/// The call of this case; the same for the same seed and case.
pub fn call(seed: u64, case: u64) -> Call {
    let random = &mut Random::new(seed, case);
    if random.once_in(5) {
        let call = assignments::made(random);
        return finished(random, call);
    }
    if random.once_in(10) {
        return updates::made(random);
    }
    if random.once_in(12) {
        return costs::made(random);
    }
    let call = match random.below(551) {
        0..=14 => sizes::call(random),
        15..=21 => quoting::call(random),
        22..=28 => malformed(random),
        29..=35 => storing(random),
        36..=46 => focused(random, focus::patterns),
        47..=53 => focused(random, focus::splitting),
        54..=87 => focused(random, tildes::case),
        88..=90 => lone(random, quoting::fed_again),
        91..=160 => focused(random, classes::case),
        161..=192 => focused(random, stars::case),
        193..=206 => focused(random, crowds::case),
        207..=276 => lone(random, lists::case),
        277..=307 => focused(random, operators::case),
        308..=425 => focused(random, demands::case),
        426..=469 => counting::words(random),
        470..=499 => focused(random, escapes::case),
        500..=534 => shouting::made(random),
        _ => lines(random),
    };
    finished(random, call)
}

/// The call with patterns that are not too dear, now and then with the switch on or with just the room it needs, and with a message buffer.
fn finished(random: &mut Random, call: Call) -> Call {
    match call {
        Call::Lines(job, mut lent) => {
            lent.shout |= random.once_in(12);
            steps::thin(job, &mut lent, MOST_STEPS);
            tighten(random, job, &mut lent);
            demands::lend_room(random, job, &mut lent);
            Call::Lines(job, lent)
        }
        other => other,
    }
}

/// Good tables, an empty line and room for everything.
pub fn ordinary(random: &mut Random) -> Lent {
    let variables = tables::image(&tables::variables(random));
    Lent {
        line: Vec::new(),
        used: variables.len(),
        variables_buffer: variables.len() + 200,
        variables,
        homes: tables::image(&tables::homes(random)),
        paths: of_texts(&tables::paths(random)),
        work: limits::WORK_AREA,
        out: limits::IMAGE,
        parameters: of_texts(&lists::parameters(random)),
        message: 64,
        shout: false,
    }
}

fn job(random: &mut Random) -> Job {
    *random.pick(&[Job::Expand, Job::Expand, Job::Normalise])
}

fn lines(random: &mut Random) -> Call {
    let mut lent = ordinary(random);
    lent.line = match random.below(20) {
        0..=1 => damage::damaged(random),
        2 => damage::random_bytes(random),
        3..=4 => [b"$((".to_vec(), expression::text(random, 0), b"))".to_vec()].concat(),
        _ => grammar::line(random),
    };
    if random.below(5) < 2 {
        lists::join(random, &mut lent);
    }
    if random.once_in(40) && !lent.line.is_empty() {
        let at = random.below(lent.line.len());
        lent.line[at] = 0;
    }
    if random.once_in(35) {
        lent.work = *random.pick(&[0, 1, 8_192, 65_535, 65_535]);
    } else if random.once_in(40) {
        lent.work = *random.pick(&[65_537, 70_000]);
    }
    Call::Lines(job(random), lent)
}

fn storing(random: &mut Random) -> Call {
    let mut lent = ordinary(random);
    lent.line = damage::storing(random);
    lent.variables_buffer = lent.variables.len() + random.below(60);
    Call::Lines(job(random), lent)
}

/// A case about one thing, often with a list of parameters beside it.
fn focused(random: &mut Random, focus: fn(&mut Random, &mut Lent)) -> Call {
    let mut lent = ordinary(random);
    focus(random, &mut lent);
    if random.below(5) < 2 {
        lists::join(random, &mut lent);
    }
    Call::Lines(job(random), lent)
}

/// A case about one thing and nothing beside it.
fn lone(random: &mut Random, focus: fn(&mut Random, &mut Lent)) -> Call {
    let mut lent = ordinary(random);
    focus(random, &mut lent);
    Call::Lines(job(random), lent)
}

/// One table malformed, or now and then several.
fn malformed(random: &mut Random) -> Call {
    let mut lent = ordinary(random);
    lent.line = grammar::line(random);
    let which = random.below(10);
    if matches!(which, 0 | 3) {
        lent.variables = tables::malformed(random, Kind::Pairs);
        lent.used = lent.variables.len();
        lent.variables_buffer = lent.used + random.below(30);
    }
    if matches!(which, 1 | 3 | 4) {
        lent.homes = tables::malformed(random, Kind::Pairs);
    }
    if matches!(which, 2 | 4 | 5) {
        lent.paths = tables::malformed(random, Kind::Paths);
    }
    if matches!(which, 5..=7) {
        lent.parameters = tables::malformed(random, Kind::Fields);
    }
    if which > 7 {
        lent.used = wrong_used(random, &lent);
    }
    Call::Lines(job(random), lent)
}

/// A used length that is not the image's, mostly beyond the buffer.
fn wrong_used(random: &mut Random, lent: &Lent) -> usize {
    match random.below(6) {
        0 => 0,
        1 => random.below(lent.variables.len() + 1),
        2 => lent.variables.len() + 1,
        3 => lent.variables_buffer + 1,
        4 => usize::MAX,
        _ => lent.variables_buffer + random.below(9_000),
    }
}

/// Sometimes gives just the room the call needs, one byte less or more, or hardly any; to one that is refused seldom, as no output at all would be 21.
fn tighten(random: &mut Random, job: Job, lent: &mut Lent) {
    if job != Job::Assign && random.once_in(5) {
        let answer = answered(job, lent);
        let hardly_any = random.once_in(3);
        if answer.number == ACCEPTED || random.once_in(5) {
            lent.out = if hardly_any { random.below(12) } else { about(random, answer.length) };
        }
    }
    if random.once_in(8) && lent.used <= lent.variables_buffer {
        let needed = about(random, answered(job, lent).used);
        lent.variables_buffer = needed.max(lent.variables.len());
    }
}

fn about(random: &mut Random, length: usize) -> usize {
    (length + random.below(3)).saturating_sub(1)
}

/// What the call answers as it stands.
fn answered(job: Job, lent: &Lent) -> Answer {
    let answered = Call::Lines(job, lent.clone()).answer();
    answered.expect("buffers kept as promised").0
}
