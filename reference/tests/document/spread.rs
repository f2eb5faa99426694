//! E5 by a second way: words are made of pieces, and their fields are worked out from the pieces alone, by a machine that takes one event after the
//! other and knows neither rows nor parts.

use reference::generate::random::Random;

use crate::support::World;

const WORDS: u64 = 30_000;
const TEXTS: [&str; 14] = ["", "", "a", "b c", ":", " ", "a:", ":b", " : ", "::", "x y:z", "q ", " q", "1"];
const IFS: [Option<&str>; 8] = [None, None, Some(""), Some(":"), Some(" "), Some(" :"), Some(": "), Some("b")];

/// What a word tells the machine.
enum Event {
    /// A byte that IFS may take for a delimiter, and one that it may not.
    Loose(u8),
    Firm(u8),
    /// Something is there, if only an empty text.
    Quote,
    /// One parameter ends and another begins.
    Next,
}

#[derive(PartialEq)]
enum State {
    Outside,
    Inside,
    BehindWhite,
    BehindHard,
}

/// The fields of a word.
fn fields(events: &[Event], ifs: Option<&str>) -> Vec<Vec<u8>> {
    let ifs = ifs.unwrap_or(" \t\n").as_bytes();
    let (mut fields, mut field, mut state) = (Vec::new(), Vec::new(), State::Outside);
    for event in events.iter().chain([&Event::Next]) {
        let byte = match event {
            Event::Next => {
                if state == State::Inside {
                    fields.push(std::mem::take(&mut field));
                }
                state = State::Outside;
                continue;
            }
            Event::Loose(byte) if ifs.contains(byte) => {
                let white = b" \t\n".contains(byte);
                if state == State::Inside || (!white && state != State::BehindWhite) {
                    fields.push(std::mem::take(&mut field));
                }
                state = match state {
                    _ if !white => State::BehindHard,
                    State::Inside => State::BehindWhite,
                    other => other,
                };
                continue;
            }
            Event::Loose(byte) | Event::Firm(byte) => Some(*byte),
            Event::Quote => None,
        };
        field.extend(byte);
        state = State::Inside;
    }
    fields
}

/// A word as it is written, and its events.
#[derive(Default)]
struct Made {
    word: String,
    events: Vec<Event>,
}

struct Maker<'a> {
    random: &'a mut Random,
    parameters: Vec<&'static str>,
    ifs: Option<&'static str>,
}

impl Maker<'_> {
    /// One of these spellings.
    fn write(&mut self, made: &mut Made, spellings: &[&str]) {
        made.word.push_str(self.random.pick::<&str>(spellings));
    }

    fn bare(&mut self, made: &mut Made) {
        match self.random.below(9) {
            0 => {
                made.word.push('k');
                made.events.push(Event::Firm(b'k'));
            }
            1 => made.word.push_str("${e}"),
            2..=3 => {
                self.write(made, &["$@", "$*", "${@}", "${*}"]);
                self.spread(made, Event::Loose, false);
            }
            4 => {
                made.word.push_str("${u-");
                (0..self.random.below(3)).for_each(|_| self.bare(made));
                made.word.push('}');
            }
            5 => self.number(made, Event::Loose),
            _ => self.quotes(made),
        }
    }

    /// Quotes: an event of their own, unless a `$@` without parameters and nothing else stands in them.
    fn quotes(&mut self, made: &mut Made) {
        let mut inside = Made::default();
        let mut at = false;
        for _ in 0..self.random.below(4) {
            at |= self.quoted(&mut inside, 2);
        }
        made.word.push_str(&format!("\"{}\"", inside.word));
        if !(at && self.parameters.is_empty() && inside.events.is_empty()) {
            made.events.push(Event::Quote);
            made.events.append(&mut inside.events);
        }
    }

    /// A piece in quotes; whether a `$@` was come to.
    fn quoted(&mut self, made: &mut Made, depth: usize) -> bool {
        match self.random.below(8) {
            0 => {
                made.word.push(' ');
                made.events.push(Event::Firm(b' '));
            }
            1 => made.word.push_str("${e}"),
            2..=3 => {
                self.write(made, &["$@", "${@}"]);
                self.spread(made, Event::Firm, true);
                return true;
            }
            4 => {
                self.write(made, &["$*", "${*}"]);
                let between = self.ifs.unwrap_or(" ").chars().next().map_or(String::new(), String::from);
                made.events.extend(self.parameters.join(&between).bytes().map(Event::Firm));
            }
            5 if depth > 0 => {
                self.write(made, &["${u-", "${e+", "${9-"]);
                let at = self.quoted(made, depth - 1);
                made.word.push('}');
                return at;
            }
            6 => self.write(made, &["${u+$@}", "${e-$@}", "${u+a$*}"]),
            _ => self.number(made, Event::Firm),
        }
        false
    }

    fn number(&mut self, made: &mut Made, event: fn(u8) -> Event) {
        let number = self.random.between(1, 5);
        made.word.push_str(&format!("${{{number}}}"));
        let text = self.parameters.get(number - 1).copied().unwrap_or_default();
        made.events.extend(text.bytes().map(event));
    }

    fn spread(&mut self, made: &mut Made, event: fn(u8) -> Event, quoted: bool) {
        for (at, text) in self.parameters.iter().enumerate() {
            if at > 0 {
                made.events.push(Event::Next);
                made.events.extend(quoted.then_some(Event::Quote));
            }
            made.events.extend(text.bytes().map(event));
        }
    }
}

#[test]
fn words_of_lists() {
    let mut fewer = 0;
    for case in 0..WORDS {
        let random = &mut Random::new(5, case);
        let parameters: Vec<&'static str> = (0..random.below(5)).map(|_| *random.pick(&TEXTS)).collect();
        let ifs = *random.pick(&IFS);
        let mut world = World::empty().set("e", "").parameters(&parameters);
        if let Some(ifs) = ifs {
            world = world.set("IFS", ifs);
        }
        let mut maker = Maker { random, parameters, ifs };
        let mut made = Made::default();
        (0..maker.random.between(1, 4)).for_each(|_| maker.bare(&mut made));
        let wanted = fields(&made.events, ifs);
        let given = world.expand(&made.word).map(|outcome| outcome.fields);
        assert_eq!(given, Ok(wanted.clone()), "{} with {:?}, IFS {ifs:?}", made.word, maker.parameters);
        fewer += usize::from(wanted.is_empty());
    }
    assert!(fewer > 1_000);
}
