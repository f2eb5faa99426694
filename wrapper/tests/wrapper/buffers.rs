//! Lent buffers with guard bytes around them, and a call with all that it is given, checked against all that it must give back.

use drunquill::{assign, delete_path, expand, insert_path, normalise, quote, Paths, Refusal, Tables, Variables};

const GUARD: usize = 64;
const GUARD_BYTE: u8 = 0xee;

/// The bytes between two rows of guard bytes.
pub struct Buffer(Vec<u8>);

impl Buffer {
    /// A buffer of that length, which begins with the bytes and is filled behind them.
    pub fn new(front: &[u8], length: usize, fill: impl Fn(usize) -> u8) -> Buffer {
        let guard = [GUARD_BYTE; GUARD];
        let lent: Vec<u8> = (0..length).map(|at| front.get(at).copied().unwrap_or_else(|| fill(at))).collect();
        Buffer([guard.as_slice(), &lent, &guard].concat())
    }

    pub fn lent(&mut self) -> &mut [u8] {
        let end = self.0.len() - GUARD;
        &mut self.0[GUARD..end]
    }

    /// The same with other bytes in front.
    fn with(&self, front: &[u8]) -> Buffer {
        let mut all = self.0.clone();
        all[GUARD..GUARD + front.len()].copy_from_slice(front);
        Buffer(all)
    }
}

#[derive(Clone, Copy, Debug, PartialEq, Eq)]
pub enum Job {
    Expand,
    Normalise,
    Assign,
}

/// What a job is given; assignments look at no paths and have no output.
#[derive(Clone, Debug)]
pub struct Given {
    pub line: Vec<u8>,
    pub vars: Vec<u8>,
    pub vars_len: usize,
    pub used: usize,
    pub homes: Vec<u8>,
    pub params: Vec<u8>,
    pub paths: Vec<u8>,
    pub shouts: bool,
    pub work_len: usize,
    pub out_len: usize,
    /// So many bytes of a message are compared.
    pub message_len: usize,
    /// What stands in variables and output where nothing is given.
    pub fill: [fn(usize) -> u8; 2],
}

/// What it must give back: output and variables' image, or the refusal.
pub type Wanted = Result<(Vec<u8>, Vec<u8>), Refusal>;

/// What stands at the front of the variables' buffer then: their image, and zeros up to the used length that was given.
fn left(given: &Given, wanted: &Wanted) -> Vec<u8> {
    match wanted {
        Ok((_, image)) => {
            let zeros = given.used.saturating_sub(image.len());
            [image.as_slice(), &vec![0; zeros]].concat()
        }
        Err(_) => Vec::new(),
    }
}

/// Calls the job and compares result, lengths and every byte of every buffer, the guards too; says what differs.
pub fn differs(job: Job, given: &Given, wanted: &Wanted) -> Option<String> {
    let mut vars = Buffer::new(&given.vars, given.vars_len, given.fill[0]);
    let mut out = Buffer::new(&[], given.out_len, given.fill[1]);
    let mut work = Buffer::new(&[], given.work_len, |at| (at % 251 + 3) as u8);
    let (vars_before, out_before) = (Buffer(vars.0.clone()), Buffer(out.0.clone()));
    let mut variables = Variables { buffer: vars.lent(), used: given.used };
    let tables = Tables { homes: &given.homes, params: &given.params, paths: &given.paths, shouts: given.shouts };
    let line = given.line.as_slice();
    let mut result = match job {
        Job::Expand => expand(line, &mut variables, tables, work.lent(), out.lent()).map(<[u8]>::to_vec),
        Job::Normalise => normalise(line, &mut variables, tables, work.lent(), out.lent()).map(<[u8]>::to_vec),
        Job::Assign => assign(line, &mut variables, tables, work.lent()).map(|()| Vec::new()),
    };
    if let Err(refusal) = &mut result {
        refusal.message.truncate(given.message_len);
    }
    let used = variables.used;
    let (front, image) = wanted.clone().unwrap_or_default();
    let checks = [
        ("result", result == wanted.clone().map(|(out, _)| out)),
        ("used length", used == if wanted.is_ok() { image.len() } else { given.used }),
        ("variables", vars.0 == vars_before.with(&left(given, wanted)).0),
        ("output", out.0 == out_before.with(&front).0),
        ("work area", work.0 == Buffer::new(&[], given.work_len, |_| 0).0),
    ];
    let wrong = checks.iter().find(|(_, good)| !good);
    wrong.map(|(what, _)| format!("{what}: the call gave {result:?} with {used} used"))
}

/// The same of the quoter.
pub fn quote_differs(
    fields: &[u8],
    out_len: usize,
    fill: fn(usize) -> u8,
    wanted: &Result<Vec<u8>, Refusal>,
) -> Option<String> {
    let mut out = Buffer::new(&[], out_len, fill);
    let before = Buffer(out.0.clone());
    let result = quote(fields, out.lent()).map(<[u8]>::to_vec);
    let front = wanted.clone().unwrap_or_default();
    (result != *wanted || out.0 != before.with(&front).0).then(|| format!("{result:?}"))
}

#[derive(Clone, Copy, Debug, PartialEq, Eq)]
pub enum Update {
    Insert,
    Delete,
}

/// Paths in a buffer of some length.
#[derive(Clone, Debug)]
pub struct Lent {
    pub paths: Vec<u8>,
    pub used: usize,
    pub length: usize,
    /// What stands behind them.
    pub fill: fn(usize) -> u8,
}

/// The same of the insertion or the deletion of a path: the image that must be left, or the refusal.
pub fn update_differs(update: Update, lent: &Lent, path: &[u8], wanted: &Result<Vec<u8>, Refusal>) -> Option<String> {
    let mut buffer = Buffer::new(&lent.paths, lent.length, lent.fill);
    let before = Buffer(buffer.0.clone());
    let mut paths = Paths { buffer: buffer.lent(), used: lent.used };
    let result = match update {
        Update::Insert => insert_path(&mut paths, path),
        Update::Delete => delete_path(&mut paths, path),
    };
    let used = paths.used;
    let mut front = wanted.clone().unwrap_or_default();
    let new_used = if wanted.is_ok() { front.len() } else { lent.used };
    if wanted.is_ok() {
        front.resize(front.len().max(lent.used), 0);
    }
    let good = result == wanted.clone().map(|_| ()) && used == new_used && buffer.0 == before.with(&front).0;
    (!good).then(|| format!("{result:?} with {used} used"))
}

/// An image of texts.
pub fn image(texts: &[&[u8]]) -> Vec<u8> {
    let record =
        |text: &&[u8]| [&u16::try_from(text.len()).expect("a length of two bytes").to_be_bytes(), *text].concat();
    [vec![1], texts.iter().flat_map(record).collect()].concat()
}
