//! A world of tables to expand lines in, and the three things a test says of a line: what it gives, refuses or stores.

use std::collections::{BTreeMap, BTreeSet};

use reference::image::{self, of_texts};
use reference::limits;
use reference::number::{Number, ACCEPTED};
use reference::{Answer, Tables};

/// The expander or the normaliser.
type Job = fn(&[u8], &mut [u8], usize, Tables, &mut [u8], &mut [u8], &mut [u8]) -> Answer;

#[derive(Clone)]
pub struct World {
    variables: BTreeMap<Vec<u8>, Vec<u8>>,
    homes: BTreeMap<Vec<u8>, Vec<u8>>,
    paths: BTreeSet<Vec<u8>>,
    parameters: Vec<Vec<u8>>,
    variables_buffer: usize,
    out: usize,
    message: Vec<u8>,
    shout: bool,
}

pub struct Outcome {
    pub fields: Vec<Vec<u8>>,
    pub variables: Vec<image::Pair>,
}

/// What a job answers, and how it leaves the output, the variables and the message buffer.
pub struct Left {
    pub answer: Answer,
    pub out: Vec<u8>,
    pub variables: Vec<u8>,
    pub message: Vec<u8>,
}

impl World {
    pub fn empty() -> World {
        World {
            variables: BTreeMap::new(),
            homes: BTreeMap::new(),
            paths: BTreeSet::new(),
            parameters: Vec::new(),
            variables_buffer: limits::IMAGE,
            out: limits::IMAGE,
            message: vec![b'.'; 64],
            shout: false,
        }
    }

    /// The set of document 01's spoiled recipes.
    pub fn recipes() -> World {
        let world = World::empty().set("job", "north field").set("note", "").set("HOME", "/home/crew");
        [".hid.raw", "a b.raw", "n/p1.raw", "p1.raw", "p2.raw"].iter().fold(world, |world, path| world.path(path))
    }

    pub fn set(mut self, name: &str, value: impl AsRef<[u8]>) -> World {
        let value = value.as_ref().to_vec();
        self.variables.insert(name.into(), value);
        self
    }

    pub fn home(mut self, login: &str, directory: &str) -> World {
        self.homes.insert(login.into(), directory.into());
        self
    }

    pub fn path(mut self, path: impl AsRef<[u8]>) -> World {
        self.paths.insert(path.as_ref().to_vec());
        self
    }

    /// Positional parameters, in place of those before.
    pub fn parameters<T: AsRef<[u8]>>(mut self, parameters: &[T]) -> World {
        self.parameters = parameters.iter().map(|text| text.as_ref().to_vec()).collect();
        self
    }

    pub fn variables_buffer(mut self, length: usize) -> World {
        self.variables_buffer = length;
        self
    }

    pub fn out(mut self, length: usize) -> World {
        self.out = length;
        self
    }

    /// The message buffer, with what stands in it.
    pub fn message(mut self, buffer: impl AsRef<[u8]>) -> World {
        self.message = buffer.as_ref().to_vec();
        self
    }

    /// The switch.
    pub fn shout(mut self, on: bool) -> World {
        self.shout = on;
        self
    }

    pub fn variables_image(&self) -> Vec<u8> {
        pairs(&self.variables)
    }

    /// The outcome of the expander, or the number and place of its refusal.
    pub fn expand(&self, line: impl AsRef<[u8]>) -> Result<Outcome, (u8, usize)> {
        let Left { answer, out, variables, .. } = self.call(reference::expand, line.as_ref());
        if answer.number != ACCEPTED {
            return Err((answer.number, answer.place));
        }
        Ok(Outcome {
            fields: image::fields(&out[..answer.length]).expect("a fields image"),
            variables: image::variables(&variables[..answer.used]).expect("a variables image"),
        })
    }

    /// The quoted line of one that the normaliser accepts.
    #[track_caller]
    pub fn normalise(&self, line: impl AsRef<[u8]>) -> String {
        let line = line.as_ref();
        let Left { answer, out, .. } = self.call(reference::normalise, line);
        assert_eq!((answer.number, answer.place), (ACCEPTED, 0), "{}", shown(line));
        shown(&out[..answer.length])
    }

    /// What the expander or the normaliser answers. The buffer behind the variables' image holds `.`.
    pub fn call(&self, job: Job, line: &[u8]) -> Left {
        let mut variables = self.variables_image();
        let used = variables.len();
        variables.resize(self.variables_buffer, b'.');
        let mut out = vec![0; self.out];
        let mut message = self.message.clone();
        let (homes, paths) = (pairs(&self.homes), of_texts(&self.paths.iter().collect::<Vec<_>>()));
        let answer = job(
            line,
            &mut variables,
            used,
            Tables { homes: &homes, paths: &paths, parameters: &of_texts(&self.parameters), shout: self.shout },
            &mut vec![0; limits::WORK_AREA],
            &mut out,
            &mut message,
        );
        Left { answer, out, variables, message }
    }
}

impl World {
    /// What an assignment line answers; there is no output. The buffer behind the variables' image holds `.`.
    pub fn assign(&self, line: impl AsRef<[u8]>) -> Left {
        let mut variables = self.variables_image();
        let used = variables.len();
        variables.resize(self.variables_buffer, b'.');
        let mut message = self.message.clone();
        let (homes, parameters) = (pairs(&self.homes), of_texts(&self.parameters));
        let work = &mut vec![7; limits::WORK_AREA];
        let tables = Tables { homes: &homes, paths: &[], parameters: &parameters, shout: self.shout };
        let answer = reference::assign(line.as_ref(), &mut variables, used, tables, work, &mut message);
        assert!(work.iter().all(|&byte| byte == 0));
        assert_eq!(answer.length, 0);
        Left { answer, out: Vec::new(), variables, message }
    }
}

fn pairs(table: &BTreeMap<Vec<u8>, Vec<u8>>) -> Vec<u8> {
    let texts: Vec<&Vec<u8>> = table.iter().flat_map(|(key, value)| [key, value]).collect();
    of_texts(&texts)
}

fn shown(bytes: &[u8]) -> String {
    String::from_utf8_lossy(bytes).into_owned()
}

/// The line is accepted and these are its fields.
#[track_caller]
pub fn gives(world: &World, line: impl AsRef<[u8]>, fields: &[&str]) {
    let line = line.as_ref();
    match world.expand(line) {
        Ok(outcome) => {
            let given: Vec<String> = outcome.fields.iter().map(|field| shown(field)).collect();
            assert_eq!(given, fields, "{}", shown(line));
        }
        Err(refusal) => panic!("{}: {refusal:?}", shown(line)),
    }
}

/// The line is refused with this number at this place.
#[track_caller]
pub fn refuses(world: &World, line: impl AsRef<[u8]>, number: Number, place: usize) {
    let line = line.as_ref();
    let given = world.expand(line).map(|outcome| outcome.fields);
    assert_eq!(given, Err((number as u8, place)), "{}", shown(line));
}

/// The line is refused with 13 at this place, with this message.
#[track_caller]
pub fn demands(world: &World, line: impl AsRef<[u8]>, place: usize, message: &str) {
    let line = line.as_ref();
    let left = world.call(reference::expand, line);
    assert_eq!((left.answer.number, left.answer.place), (Number::Missing as u8, place), "{}", shown(line));
    assert_eq!(shown(&left.message[..left.answer.message]), message, "{}", shown(line));
}

/// The assignment line is accepted, and these are the variables that have another value than before.
#[track_caller]
pub fn assigns(world: &World, line: impl AsRef<[u8]>, changed: &[(&str, &str)]) {
    let line = line.as_ref();
    let left = world.assign(line);
    assert_eq!((left.answer.number, left.answer.place, left.answer.message), (ACCEPTED, 0, 0), "{}", shown(line));
    changes(world, &left, line, changed);
}

/// These are the variables that have another value than before. Behind their image stand zeros up to the used length that was given, and the old bytes beyond it.
#[track_caller]
fn changes(world: &World, left: &Left, line: &[u8], changed: &[(&str, &str)]) {
    let (image, behind) = left.variables.split_at(left.answer.used);
    let variables = image::variables(image).expect("a variables image");
    let other = variables.iter().filter(|(name, value)| world.variables.get(name) != Some(value));
    let other: Vec<(String, String)> = other.map(|(name, value)| (shown(name), shown(value))).collect();
    let changed: Vec<(String, String)> =
        changed.iter().map(|(name, value)| (name.to_string(), value.to_string())).collect();
    assert_eq!(other, changed, "{}", shown(line));
    assert!(world.variables.keys().all(|name| variables.iter().any(|(known, _)| known == name)), "{}", shown(line));
    let zeros = world.variables_image().len().saturating_sub(image.len());
    assert!(behind[..zeros].iter().all(|&byte| byte == 0), "{}", shown(line));
    assert!(behind[zeros..].iter().all(|&byte| byte == b'.'), "{}", shown(line));
}

/// The line is accepted, these are its fields, and these the variables that have another value than before; the normaliser leaves the same.
#[track_caller]
pub fn leaves(world: &World, line: impl AsRef<[u8]>, fields: &[&str], changed: &[(&str, &str)]) {
    let line = line.as_ref();
    gives(world, line, fields);
    for job in [reference::expand as Job, reference::normalise] {
        let left = world.call(job, line);
        assert_eq!((left.answer.number, left.answer.place, left.answer.message), (ACCEPTED, 0, 0), "{}", shown(line));
        changes(world, &left, line, changed);
    }
}

/// The line is refused with this number at this place, by the normaliser too, and every byte of the variables is as it was.
#[track_caller]
pub fn undoes(world: &World, line: impl AsRef<[u8]>, number: Number, place: usize) {
    let line = line.as_ref();
    let mut before = world.variables_image();
    let used = before.len();
    before.resize(world.variables_buffer, b'.');
    for job in [reference::expand as Job, reference::normalise] {
        let Left { answer, variables, .. } = world.call(job, line);
        assert_eq!((answer.number, answer.place), (number as u8, place), "{}", shown(line));
        assert_eq!((answer.length, answer.used), (0, used), "{}", shown(line));
        assert!(variables == before, "{}", shown(line));
    }
}

/// The assignment line is refused with this number at this place, and leaves every byte as it was.
#[track_caller]
pub fn refuses_to_assign(world: &World, line: impl AsRef<[u8]>, number: Number, place: usize) {
    let line = line.as_ref();
    let left = world.assign(line);
    let mut before = world.variables_image();
    assert_eq!((left.answer.number, left.answer.place), (number as u8, place), "{}", shown(line));
    assert_eq!(left.answer.used, before.len(), "{}", shown(line));
    before.resize(world.variables_buffer, b'.');
    assert!(left.variables == before, "{}", shown(line));
    assert!(
        number == Number::Missing || (left.answer.message, &left.message) == (0, &world.message),
        "{}",
        shown(line)
    );
}

/// The line is accepted and leaves the variable with this value.
#[track_caller]
pub fn stores(world: &World, line: &str, name: &str, value: &str) {
    let outcome = world.expand(line).unwrap_or_else(|refusal| panic!("{line}: {refusal:?}"));
    let stored = outcome.variables.iter().find(|(known, _)| known == name.as_bytes());
    assert_eq!(stored.map(|(_, value)| shown(value)), Some(value.to_string()), "{line}");
}
