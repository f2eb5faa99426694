//! The messages that calls demand: how long they are beside the buffer, what their operands have, and what came in their place.

use std::collections::BTreeMap;
use std::fmt;

use crate::calls::Answer;
use crate::case::Lent;
use crate::limits;
use crate::number::Number;
use crate::row::{bytes, Mark, Unit};
use crate::seen::{Seen, SeenDemand};

/// How long the buffer is beside the message.
pub const ROOMS: [&str; 7] = [
    "both empty", "no bytes for a message", "shorter by more than one", "shorter by one", "as long", "longer by one",
    "longer by more than one",
];
/// What a call with a demand may have.
pub const KINDS: [&str; 17] = [
    "a tilde that is found",
    "a tilde that is not found",
    "quotes",
    "bytes of an expansion",
    "a store that is undone",
    "an inner demand that comes first",
    "12 in place of 13",
    "14 in place of 13",
    "15 in place of 13",
    "16 in place of 13",
    "17 in place of 13",
    "18 in place of 13",
    "19 in place of 13",
    "20 in place of 13",
    "25 in place of 13",
    "a message of 2,046 bytes or more",
    "an empty message",
];

#[derive(Debug, Default)]
pub struct Messages {
    /// The calls that are answered with 13.
    pub demanded: usize,
    /// By room, the calls answered with 13.
    pub rooms: BTreeMap<&'static str, usize>,
    /// By kind, the calls that have it.
    pub kinds: BTreeMap<&'static str, usize>,
    /// Calls with another answer and a buffer of some bytes, which keeps them.
    pub kept: usize,
}

impl Messages {
    /// Counts a call that was walked.
    pub fn add(&mut self, lent: &Lent, answer: &Answer, seen: &Seen) {
        let Some(innermost) = seen.demands.first() else {
            self.kept += usize::from(lent.message > 0);
            return;
        };
        if seen.demands.len() > 1 {
            self.found("an inner demand that comes first");
        }
        if seen.demands.iter().any(|demand| demand.stored) {
            self.found("a store that is undone");
        }
        match &innermost.operand {
            Ok(units) => self.message(lent, answer, innermost, units),
            Err(number) => self.found(in_place(*number)),
        }
    }

    fn found(&mut self, kind: &'static str) {
        *self.kinds.entry(kind).or_default() += 1;
    }

    fn message(&mut self, lent: &Lent, answer: &Answer, demand: &SeenDemand, units: &[Unit]) {
        self.demanded += usize::from(answer.number == Number::Missing as u8);
        let length = bytes(units).len();
        *self.rooms.entry(room(lent.message, length)).or_default() += 1;
        if length == 0 {
            self.found("an empty message");
        }
        if length >= limits::ROW - 2 {
            self.found("a message of 2,046 bytes or more");
        }
        let behind = match (demand.tilde, units.first()) {
            (true, Some(Unit::Empty)) => {
                self.found("a tilde that is found");
                &units[1..]
            }
            (true, _) => {
                self.found("a tilde that is not found");
                units
            }
            _ => units,
        };
        if behind.contains(&Unit::Empty) {
            self.found("quotes");
        }
        if units.iter().any(|unit| matches!(unit, Unit::Byte(_, Mark::Expansion))) {
            self.found("bytes of an expansion");
        }
    }
}

fn in_place(number: Number) -> &'static str {
    let kind = format!("{} in place of 13", number as u8);
    KINDS.into_iter().find(|known| **known == kind).expect("a number that an operand may give")
}

fn room(buffer: usize, message: usize) -> &'static str {
    match (buffer, message) {
        (0, 0) => "both empty",
        (0, _) => "no bytes for a message",
        _ if buffer == message => "as long",
        _ if buffer + 1 == message => "shorter by one",
        _ if buffer == message + 1 => "longer by one",
        _ if buffer < message => "shorter by more than one",
        _ => "longer by more than one",
    }
}

impl fmt::Display for Messages {
    fn fmt(&self, out: &mut fmt::Formatter) -> fmt::Result {
        let Messages { demanded, rooms, kinds, kept } = self;
        writeln!(out, "demanded messages {demanded}; message buffers that are")?;
        for room in ROOMS {
            writeln!(out, "  {room} {}", rooms.get(room).copied().unwrap_or_default())?;
        }
        for kind in KINDS {
            writeln!(out, "demands with {kind} {}", kinds.get(kind).copied().unwrap_or_default())?;
        }
        writeln!(out, "message buffers that are kept by other answers {kept}")
    }
}
