//! One bracket of a pattern: the search for its end, member by member, and the set of the 256 byte values that the members are.

use std::ops::Range;

use crate::class::Class;
use crate::number::Number;
use crate::pattern::{PatternByte, Purpose};

/// What stands behind a `[`, as far as the search for the bracket's end goes.
#[derive(Debug)]
pub struct Bracket {
    pub negated: bool,
    /// The places of its members in the pattern.
    pub members: Range<usize>,
    pub end: End,
}

#[derive(Clone, Copy, Debug)]
pub enum Member {
    Byte(PatternByte),
    /// Both ends with all between them; none if it falls.
    Range(PatternByte, PatternByte),
    Class(&'static Class),
}

/// What the search comes to behind the members.
#[derive(Clone, Copy, Debug, PartialEq, Eq)]
pub enum End {
    /// The `]`.
    Closed,
    /// The pattern's end.
    Unclosed,
    /// In paths, a slash.
    Slash,
}

/// What is 19 in a bracket, closed or not.
#[derive(Debug)]
pub enum Fault {
    /// `[:` and no name of a class with `:]` behind it; what stands there, up to the first active `:]`.
    Name(Vec<PatternByte>),
    /// `[.`
    Collating,
    /// `[=`
    Equivalence,
    /// A class as an end of a range.
    RangeEnd,
}

impl From<Fault> for Number {
    fn from(_: Fault) -> Number {
        Number::BracketClass
    }
}

/// What a search meets at a place: a member and where it ends, or its own end.
enum Met {
    Member(Member, usize),
    End(End),
}

/// The brackets of one pattern. Behind its first member a search goes on from a place in one way only, whichever `[` it comes from;
/// so what it comes to is noted for each place, and no place is searched twice, however many brackets are unclosed.
pub struct Searches<'a> {
    bytes: &'a [PatternByte],
    purpose: Purpose,
    /// For each place that a search has come to behind its first member: where it ended, and how.
    known: Vec<Option<(usize, End)>>,
}

impl<'a> Searches<'a> {
    pub fn new(bytes: &'a [PatternByte], purpose: Purpose) -> Searches<'a> {
        Searches { bytes, purpose, known: vec![None; bytes.len() + 1] }
    }

    /// The bracket whose `[` stands before this place.
    pub fn bracket(&mut self, behind: usize) -> Result<Bracket, Fault> {
        let negated = self.is(behind, b'!');
        let first = behind + usize::from(negated);
        let (last, end) = match self.met(first, true)? {
            Met::Member(_, next) => self.end_from(next)?,
            Met::End(end) => (first, end),
        };
        Ok(Bracket { negated, members: first..last, end })
    }

    /// The members of one of the brackets.
    pub fn members(&self, bracket: &Bracket) -> Vec<Member> {
        let mut members = Vec::new();
        let mut at = bracket.members.start;
        while let Ok(Met::Member(member, next)) = self.met(at, at == bracket.members.start) {
            members.push(member);
            at = next;
        }
        members
    }

    /// Where and how a search ends that has come to this place behind its first member.
    fn end_from(&mut self, place: usize) -> Result<(usize, End), Fault> {
        let mut passed = Vec::new();
        let mut at = place;
        let found = loop {
            if let Some(known) = self.known[at] {
                break known;
            }
            passed.push(at);
            match self.met(at, false)? {
                Met::Member(_, next) => at = next,
                Met::End(end) => break (at, end),
            }
        };
        passed.into_iter().for_each(|at| self.known[at] = Some(found));
        Ok(found)
    }

    /// The member or the end at a place, ranges taken from the left; a `-` before the end is a member itself.
    fn met(&self, at: usize, first: bool) -> Result<Met, Fault> {
        let low = self.single(at, first)?;
        let Met::Member(member, dash) = low else {
            return Ok(low);
        };
        if !self.is(dash, b'-') {
            return Ok(low);
        }
        match (member, self.single(dash + 1, false)?) {
            (_, Met::End(_)) => Ok(low),
            (Member::Byte(low), Met::Member(Member::Byte(high), next)) => {
                Ok(Met::Member(Member::Range(low, high), next))
            }
            _ => Err(Fault::RangeEnd),
        }
    }

    /// The byte, the class or the end at a place.
    fn single(&self, at: usize, first: bool) -> Result<Met, Fault> {
        let rest = &self.bytes[at..];
        Ok(match rest {
            [] => Met::End(End::Unclosed),
            [slash, ..] if self.purpose == Purpose::Paths && slash.byte == b'/' => Met::End(End::Slash),
            [last, ..] if last.is(b']') && !first => Met::End(End::Closed),
            [open, colon, name @ ..] if open.is(b'[') && colon.is(b':') => {
                let class = class(name)?;
                Met::Member(Member::Class(class), at + "[:".len() + class.name.len() + ":]".len())
            }
            [open, point, ..] if open.is(b'[') && point.is(b'.') => return Err(Fault::Collating),
            [open, equals, ..] if open.is(b'[') && equals.is(b'=') => return Err(Fault::Equivalence),
            [byte, ..] => Met::Member(Member::Byte(*byte), at + 1),
        })
    }

    fn is(&self, at: usize, byte: u8) -> bool {
        self.bytes.get(at).is_some_and(|here| here.is(byte))
    }
}

/// The class whose name begins here, behind `[:`: all bytes up to the first active `:]`, themselves active.
fn class(name: &[PatternByte]) -> Result<&'static Class, Fault> {
    let end = name.windows(2).position(|two| two[0].is(b':') && two[1].is(b']'));
    let name = &name[..end.unwrap_or(name.len())];
    let bytes: Vec<u8> = name.iter().map(|byte| byte.byte).collect();
    match Class::named(&bytes) {
        Some(class) if end.is_some() && name.iter().all(|byte| byte.active) => Ok(class),
        _ => Err(Fault::Name(name.to_vec())),
    }
}

/// The bytes that a closed bracket takes.
pub fn set(members: &[Member], negated: bool) -> Box<[bool; 256]> {
    let mut set = [false; 256];
    for member in members {
        match member {
            Member::Byte(byte) => set[usize::from(byte.byte)] = true,
            Member::Range(low, high) => (low.byte..=high.byte).for_each(|byte| set[usize::from(byte)] = true),
            Member::Class(class) => class.members().for_each(|byte| set[usize::from(byte)] = true),
        }
    }
    Box::new(set.map(|member| member != negated))
}
