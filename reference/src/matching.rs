//! Matching by sets of places. A pattern has a place before each element and one behind the last. The text is taken byte by byte, once,
//! and what is kept is the set of all places that its bytes so far can lead to. A set is a row of bits, so that a byte moves 64
//! places on at once. The work is at most elements times bytes, however many stars there are, for a removal too.

use crate::pattern::{Element, Purpose};
use crate::tree::{End, Extent};

/// What a byte can be to a pattern: one of the 256 values, or a `.` at the start of a path or behind its slash.
const KINDS: usize = 257;
const LEADING_DOT: usize = 256;

/// The paths that the pattern matches, in order.
pub fn matching_paths<'a>(pattern: &[Element], paths: &'a [Vec<u8>]) -> Vec<&'a [u8]> {
    let moves = Moves::new(pattern, Purpose::Paths);
    let matches = |path: &&[u8]| moves.beginnings(path.iter().copied()).last() == Some(true);
    paths.iter().map(Vec::as_slice).filter(matches).collect()
}

/// What remains of the value when the shortest or longest matching prefix or suffix is dropped.
pub fn remaining<'a>(pattern: &[Element], value: &'a [u8], end: End, extent: Extent) -> &'a [u8] {
    match end {
        End::Prefix => {
            let moves = Moves::new(pattern, Purpose::Removal);
            &value[dropped(moves.beginnings(value.iter().copied()), extent)..]
        }
        End::Suffix => {
            // A pattern matches a suffix just when, both read backwards, it matches a beginning.
            let backwards: Vec<Element> = pattern.iter().rev().cloned().collect();
            let moves = Moves::new(&backwards, Purpose::Removal);
            &value[..value.len() - dropped(moves.beginnings(value.iter().rev().copied()), extent)]
        }
    }
}

/// The shortest or longest length that is matched, 0 if none is.
fn dropped(mut matched: impl Iterator<Item = bool>, extent: Extent) -> usize {
    let length = match extent {
        Extent::Shortest => matched.position(|matched| matched),
        Extent::Longest => matched.enumerate().filter(|(_, matched)| *matched).last().map(|(length, _)| length),
    };
    length.unwrap_or(0)
}

/// Where the elements of a pattern lead from its places.
struct Moves {
    purpose: Purpose,
    /// How many words of bits a set of places has.
    words: usize,
    /// The places before a star: they lead on without a byte, and a byte that the star takes leads back to them.
    stars: Vec<u64>,
    /// For each kind of byte, one set behind the other, the places before an element that takes it.
    takes: Vec<u64>,
    /// The place behind the last element.
    last: usize,
}

impl Moves {
    fn new(pattern: &[Element], purpose: Purpose) -> Moves {
        // Stars side by side are as good as one, so that no star leads on to another.
        let mut elements: Vec<&Element> = pattern.iter().collect();
        elements.dedup_by(|next, element| **next == Element::Any && **element == Element::Any);
        let last = elements.len();
        let words = last / 64 + 1;
        let mut moves = Moves { purpose, words, stars: vec![0; words], takes: vec![0; KINDS * words], last };
        for (place, element) in elements.iter().enumerate() {
            let first_in_part = place == 0 || *elements[place - 1] == Element::Byte(b'/');
            moves.add(place, element, first_in_part);
        }
        moves
    }

    /// Notes what leads on from a place.
    fn add(&mut self, place: usize, element: &Element, first_in_part: bool) {
        let (word, bit) = (place / 64, 1 << (place % 64));
        let words = self.words;
        let mut takes = |kind: usize| self.takes[kind * words + word] |= bit;
        let slash = |byte: &usize| self.purpose == Purpose::Paths && *byte == usize::from(b'/');
        match element {
            Element::Byte(byte) => takes(usize::from(*byte)),
            Element::One | Element::Any => (0..256).filter(|byte| !slash(byte)).for_each(&mut takes),
            Element::Set(set) => (0..256).filter(|byte| set[*byte] && !slash(byte)).for_each(&mut takes),
        }
        if *element == Element::Byte(b'.') && first_in_part {
            takes(LEADING_DOT);
        }
        if *element == Element::Any {
            self.stars[word] |= bit;
        }
    }

    /// For each length from 0 to the text's, whether the pattern matches the text's beginning of that length; once no place is
    /// reached, longer ones are left out.
    fn beginnings<'a>(&'a self, text: impl Iterator<Item = u8> + 'a) -> impl Iterator<Item = bool> + 'a {
        let mut reached = vec![0; self.words];
        reached[0] = 1 | (self.stars[0] & 1) << 1;
        let empty = self.is_last(&reached);
        let mut before = b'/';
        let behind = text.map_while(move |byte| {
            if reached.iter().all(|word| *word == 0) {
                return None;
            }
            let leading = self.purpose == Purpose::Paths && byte == b'.' && before == b'/';
            before = byte;
            self.lead_on(&mut reached, if leading { LEADING_DOT } else { usize::from(byte) });
            Some(self.is_last(&reached))
        });
        std::iter::once(empty).chain(behind)
    }

    /// Whether the place behind the last element is reached.
    fn is_last(&self, reached: &[u64]) -> bool {
        reached[self.last / 64] >> (self.last % 64) & 1 == 1
    }

    /// From the places that are reached to those that one more byte leads to.
    fn lead_on(&self, reached: &mut [u64], kind: usize) {
        let takes = &self.takes[kind * self.words..][..self.words];
        let (mut carried, mut passed) = (0, 0);
        for ((word, takes), stars) in reached.iter_mut().zip(takes).zip(&self.stars) {
            let taken = *word & takes;
            let back = taken & stars;
            let on = taken & !stars;
            let next = back | on << 1 | carried;
            carried = on >> 63;
            let past = next & stars;
            *word = next | past << 1 | passed;
            passed = past >> 63;
        }
    }
}
