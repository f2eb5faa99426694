//! The classes in the patterns that a call comes to read: which there are, in what company, what is refused, and which bytes they decide about.

use std::collections::{BTreeMap, BTreeSet};
use std::fmt;

use super::classes::BORDERS;
use crate::bracket::{Bracket, End, Fault, Member, Searches};
use crate::class::{Class, CLASSES};
use crate::matching::{matching_paths, remaining};
use crate::pattern::{self, pattern_bytes, Element, Pattern, Purpose};
use crate::row::{Mark, Unit};
use crate::seen::{HeldTo, Seen, SeenPattern};
use crate::tree::{End as ValueEnd, Extent};

/// What may be said of a bracket that a class stands in.
pub const KINDS: [&str; 16] = [
    "closed", "several classes", "negated", "a range beside", "`-` behind a class", "`]` first", "unclosed",
    "ended by a slash", "N inside a class", "unknown name", "name in another case", "slash in a name",
    "quoted byte in a name", "[.", "[=", "class in a range",
];

/// In removals, in paths.
type Counts = BTreeMap<&'static str, [usize; 2]>;

#[derive(Debug, Default)]
pub struct Brackets {
    /// The lines with a pattern in which a class stands, and those of them with a served one.
    pub lines: usize,
    pub served: usize,
    /// By the name of the class, the brackets that hold it, closed or not.
    pub classes: Counts,
    pub kinds: Counts,
    /// By the name of the class, the bytes that a bracket of it alone took or did not, when all else of the pattern matched.
    pub decided: BTreeMap<&'static str, BTreeSet<u8>>,
}

impl Brackets {
    /// Counts the patterns of a line.
    pub fn add(&mut self, seen: &Seen, paths: &[Vec<u8>]) {
        let (kinds, classes) = (all(&self.kinds), all(&self.classes));
        for pattern in &seen.patterns {
            match pattern::read(&pattern.units, pattern.purpose()) {
                Ok(read) => self.add_pattern(pattern, &read, paths),
                Err(fault) => count(&mut self.kinds, kind_of(&fault), pattern.purpose()),
            }
        }
        self.lines += usize::from(all(&self.kinds) > kinds);
        self.served += usize::from(all(&self.classes) > classes);
    }

    fn add_pattern(&mut self, seen: &SeenPattern, pattern: &Pattern, paths: &[Vec<u8>]) {
        let purpose = seen.purpose();
        let members = members(&seen.units, purpose, pattern);
        for (bracket, members) in pattern.brackets.iter().zip(&members) {
            for class in classes(members) {
                count(&mut self.classes, class.name, purpose);
            }
            if classes(members).next().is_some() {
                kinds_of(bracket, members).into_iter().for_each(|kind| count(&mut self.kinds, kind, purpose));
            }
        }
        if marks_inside(&seen.units, purpose, &members) {
            count(&mut self.kinds, "N inside a class", purpose);
        }
        match &seen.held_to {
            HeldTo::Paths => self.decide_paths(pattern, &members, paths),
            HeldTo::Value(value, end) => self.decide_value(pattern, &members, value, *end),
        }
    }

    /// What the first element decides about the first bytes of paths.
    fn decide_paths(&mut self, pattern: &Pattern, members: &[Vec<Member>], paths: &[Vec<u8>]) {
        if let Some((class, others)) = alone(pattern, members, ValueEnd::Prefix) {
            let bytes = matching_paths(&others, paths).into_iter().map(|path| path[0]);
            self.decided.entry(class.name).or_default().extend(bytes);
        }
    }

    /// What the first element decides about the value's first byte, or the last about the last.
    fn decide_value(&mut self, pattern: &Pattern, members: &[Vec<Member>], value: &[u8], end: ValueEnd) {
        let byte = match end {
            ValueEnd::Prefix => value.first(),
            ValueEnd::Suffix => value.last(),
        };
        if let (Some((class, others)), Some(byte)) = (alone(pattern, members, end), byte) {
            if remaining(&others, value, end, Extent::Longest) != value {
                self.decided.entry(class.name).or_default().insert(*byte);
            }
        }
    }
}

/// The members of each bracket of a pattern in which `[:` stands; of others nothing is asked here.
fn members(units: &[Unit], purpose: Purpose, pattern: &Pattern) -> Vec<Vec<Member>> {
    let bytes = pattern_bytes(units);
    if !bytes.windows(2).any(|two| two[0].is(b'[') && two[1].is(b':')) {
        return Vec::new();
    }
    let searches = Searches::new(&bytes, purpose);
    pattern.brackets.iter().map(|bracket| searches.members(bracket)).collect()
}

fn all(counts: &Counts) -> usize {
    counts.values().flatten().sum()
}

fn count(counts: &mut Counts, name: &'static str, purpose: Purpose) {
    counts.entry(name).or_default()[purpose as usize] += 1;
}

fn classes(members: &[Member]) -> impl Iterator<Item = &'static Class> + '_ {
    members.iter().filter_map(|member| match member {
        Member::Class(class) => Some(*class),
        Member::Byte(_) | Member::Range(..) => None,
    })
}

fn kinds_of(bracket: &Bracket, members: &[Member]) -> Vec<&'static str> {
    let is = |member: &Member, wanted: u8| match member {
        Member::Byte(byte) | Member::Range(byte, _) => byte.is(wanted),
        Member::Class(_) => false,
    };
    let first = members.first().is_some_and(|first| is(first, b']'));
    let range = members.iter().any(|member| matches!(member, Member::Range(..)));
    let dash = members.windows(2).any(|two| matches!(two[0], Member::Class(_)) && is(&two[1], b'-'));
    let said = [
        ("closed", bracket.end == End::Closed),
        ("several classes", classes(members).count() > 1),
        ("negated", bracket.negated),
        ("a range beside", range),
        ("`-` behind a class", dash),
        ("`]` first", first),
        ("unclosed", bracket.end == End::Unclosed),
        ("ended by a slash", bracket.end == End::Slash),
    ];
    said.into_iter().filter(|(_, holds)| *holds).map(|(kind, _)| kind).collect()
}

fn kind_of(fault: &Fault) -> &'static str {
    match fault {
        Fault::Collating => "[.",
        Fault::Equivalence => "[=",
        Fault::RangeEnd => "class in a range",
        Fault::Name(name) => {
            let lower: Vec<u8> = name.iter().map(|byte| byte.byte.to_ascii_lowercase()).collect();
            if name.iter().any(|byte| !byte.active) {
                "quoted byte in a name"
            } else if name.iter().any(|byte| byte.byte == b'/') {
                "slash in a name"
            } else if Class::named(&lower).is_some() {
                "name in another case"
            } else {
                "unknown name"
            }
        }
    }
}

/// Whether an N stands inside a class: were it a byte, there would be one less.
fn marks_inside(units: &[Unit], purpose: Purpose, given: &[Vec<Member>]) -> bool {
    let as_bytes = |unit: &Unit| match unit {
        Unit::Empty => Unit::Byte(b'x', Mark::Quoted),
        byte => *byte,
    };
    let served = |members: &[Vec<Member>]| members.iter().flat_map(|members| classes(members)).count();
    let units: Vec<Unit> = units.iter().map(as_bytes).collect();
    match pattern::read(&units, purpose) {
        Ok(read) => served(&members(&units, purpose, &read)) < served(given),
        Err(fault) => matches!(fault, Fault::Name(_)),
    }
}

/// The class whose bracket, with nothing else in it, is the pattern's first or last element, and the pattern with a `?` in its place.
fn alone(pattern: &Pattern, members: &[Vec<Member>], end: ValueEnd) -> Option<(&'static Class, Vec<Element>)> {
    let mut elements = pattern.elements.clone();
    let (element, members) = match end {
        ValueEnd::Prefix => (elements.first_mut()?, members.first()?),
        ValueEnd::Suffix => (elements.last_mut()?, members.last()?),
    };
    match (&element, members.as_slice()) {
        (Element::Set(_), [Member::Class(class)]) => {
            *element = Element::One;
            Some((*class, elements))
        }
        _ => None,
    }
}

impl fmt::Display for Brackets {
    fn fmt(&self, out: &mut fmt::Formatter) -> fmt::Result {
        let of = |counts: &Counts, name| counts.get(name).copied().unwrap_or_default();
        writeln!(out, "lines with a class in a pattern {}, with a served one {}", self.lines, self.served)?;
        writeln!(
            out,
            "by class: brackets in removals, in paths; bytes that one alone decided about, of them at a border:"
        )?;
        for class in &CLASSES {
            let [removals, paths] = of(&self.classes, class.name);
            let bytes = self.decided.get(class.name).cloned().unwrap_or_default();
            let borders = BORDERS.iter().filter(|byte| bytes.contains(byte)).count();
            writeln!(out, "  {:6} {removals}, {paths}; {}, {borders}", class.name, bytes.len())?;
        }
        writeln!(out, "by kind: brackets in removals, in paths:")?;
        for kind in KINDS {
            let [removals, paths] = of(&self.kinds, kind);
            writeln!(out, "  {kind} {removals}, {paths}")?;
        }
        Ok(())
    }
}
