//! What a call's line comes across when it is expanded: its patterns, its rows and its arithmetic texts.

use crate::assignment;
use crate::case::{Job, Lent};
use crate::expand::Expander;
use crate::image::{self, Pair};
use crate::limits;
use crate::pattern::{self, Purpose};
use crate::read::read;
use crate::seen::{HeldTo, Seen, SeenPattern};
use crate::split::split;
use crate::variables::Variables;

/// Expands word after word up to the first refusal; what is too long or malformed counts as no records.
pub fn walk(job: Job, lent: &Lent) -> Seen {
    walked(job, lent).0
}

/// The same, and the variables as they are then.
pub fn walked(job: Job, lent: &Lent) -> (Seen, Variables) {
    let homes = image::homes(&lent.homes).unwrap_or_default();
    let parameters = image::fields(&lent.parameters).unwrap_or_default();
    let mut expander = expander(lent, &homes, &parameters);
    if job == Job::Assign {
        let assignments = assignment::read(&lent.line).unwrap_or_default();
        let _ = assignment::assign(&assignments, &mut expander);
    } else {
        walk_words(lent, &mut expander);
    }
    (expander.seen, expander.variables)
}

/// What expands with these homes and parameters, and with the variables that are lent.
pub fn expander<'a>(lent: &Lent, homes: &'a [Pair], parameters: &'a [Vec<u8>]) -> Expander<'a> {
    let used = lent.variables.get(..lent.used);
    let variables = used.and_then(image::variables).unwrap_or_default();
    Expander {
        variables: Variables::new(variables, lent.variables_buffer.min(limits::IMAGE), lent.shout),
        homes,
        parameters,
        message: Vec::new(),
        seen: Seen::default(),
    }
}

fn walk_words(lent: &Lent, expander: &mut Expander) {
    for word in read(&lent.line).unwrap_or_default() {
        let Ok(row) = expander.row(&word.parts) else {
            return;
        };
        for field in split(row.units(), expander.variables.value(b"IFS")) {
            expander.seen.patterns.push(SeenPattern { units: field.to_vec(), held_to: HeldTo::Paths });
            if pattern::read(field, Purpose::Paths).is_err() {
                return;
            }
        }
    }
}
