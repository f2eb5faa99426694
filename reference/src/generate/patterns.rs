//! The patterns that a call comes to read: how many stars and brackets they have, and what texts they are held to.

use std::fmt;

use crate::bracket::End;
use crate::pattern::{self, stars, Pattern};
use crate::seen::{HeldTo, Seen, SeenPattern};

/// The paths of a long list, the bytes of a long value.
const LONG_LIST: usize = 300;
const LONG_VALUE: usize = 1_000;

/// How many lines have a pattern of this kind.
#[derive(Clone, Copy, Debug, Default)]
pub struct Patterns {
    /// With two stars or more, and of them those held to a long list of paths.
    pub stars: usize,
    pub long_list: usize,
    /// With a bracket that is not closed, with more than 16 of them.
    pub unclosed: usize,
    pub many_unclosed: usize,
    /// With more than 16 brackets that are closed, with more than 600.
    pub many_closed: usize,
    pub crowds: usize,
    /// In a removal with a star, and of them those from a long value.
    pub removal: usize,
    pub long_value: usize,
}

impl Patterns {
    /// Counts the patterns of a line over so many paths.
    pub fn add(&mut self, seen: &Seen, paths: usize) {
        let mut here = [false; 8];
        for seen in &seen.patterns {
            if let Ok(read) = pattern::read(&seen.units, seen.purpose()) {
                here.iter_mut().zip(kinds(seen, &read, paths)).for_each(|(here, found)| *here |= found);
            }
        }
        let counts = [
            &mut self.stars, &mut self.long_list, &mut self.unclosed, &mut self.many_unclosed, &mut self.many_closed,
            &mut self.crowds, &mut self.removal, &mut self.long_value,
        ];
        counts.into_iter().zip(here).for_each(|(count, found)| *count += usize::from(found));
    }
}

/// Which of the kinds a pattern is of, in their order above.
fn kinds(seen: &SeenPattern, pattern: &Pattern, paths: usize) -> [bool; 8] {
    let stars = stars(pattern);
    let closed = pattern.brackets.iter().filter(|bracket| bracket.end == End::Closed).count();
    let unclosed = pattern.brackets.len() - closed;
    let (list, value) = match &seen.held_to {
        HeldTo::Paths => (paths, None),
        HeldTo::Value(value, _) => (0, Some(value.len())),
    };
    [
        stars > 1,
        stars > 1 && list >= LONG_LIST,
        unclosed > 0,
        unclosed > 16,
        closed > 16,
        closed > 600,
        stars > 0 && value.is_some(),
        stars > 0 && value >= Some(LONG_VALUE),
    ]
}

impl fmt::Display for Patterns {
    fn fmt(&self, out: &mut fmt::Formatter) -> fmt::Result {
        let Patterns { stars, long_list, unclosed, many_unclosed, many_closed, crowds, removal, long_value } = self;
        writeln!(out, "lines with a pattern of two stars or more {stars}, over {LONG_LIST} paths or more {long_list}")?;
        writeln!(out, "lines with an unclosed bracket {unclosed}, with more than 16 {many_unclosed}")?;
        writeln!(out, "lines with more than 16 closed brackets {many_closed}, with more than 600 {crowds}")?;
        writeln!(out, "lines with a star in a removal {removal}, from {LONG_VALUE} bytes or more {long_value}")
    }
}
