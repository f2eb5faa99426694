//! Drunquill for Rust: a POSIX shell line expanded into fields, fields quoted as a line, both in one call; lines of assignments, which change variables; and
//! paths inserted and deleted, what a pattern costs with a text.
//!
//! The functions are the proved ones of include/drunquill.h, for x86-64 Linux; this crate turns slices into pointers, numbers into names and a refusal with
//! its message into an error, and nothing else.
//! What the header asks of its callers holds of any slices: none is null, and what is lent for writing overlaps nothing. What is left to the caller is the
//! stack: a call may need [`STACK`] bytes of it.
//!
//! Lines, images and numbers are those of docs/01-scope.md, and of docs/02-change-requests.md as far as it has landed; man/drunquill.3 has them in short.
//!
//! [`Call`] is where to begin: it is built from names and texts, and owns its buffers.
//!
//! ```
//! let mut call = drunquill::Call::new().variables([("job", "a b")]);
//! assert_eq!(call.expand("cp \"$job\" $job").unwrap(), [b"cp".as_slice(), b"a b", b"a", b"b"]);
//! ```
//!
//! The functions themselves take images in buffers that are lent, and use no heap but for a message:
//!
//! ```
//! use drunquill::{assign, delete_path, insert_path, normalise, Number, Paths, Tables, Variables};
//!
//! let mut buffer = [0; 64];
//! let image = b"\x01\0\x03job\0\x03a b";
//! buffer[..image.len()].copy_from_slice(image);
//! let mut variables = Variables { buffer: &mut buffer, used: image.len() };
//! let mut work = vec![0; drunquill::WORK_LEAST];
//! let mut out = [0; drunquill::LINE_MAX];
//!
//! let line = normalise(b"cp \"$job\" $job", &mut variables, Tables::NONE, &mut work, &mut out);
//! assert_eq!(line, Ok(b"cp 'a b' a b".as_slice()));
//!
//! let refusal = normalise(b"cp 'a", &mut variables, Tables::NONE, &mut work, &mut out).unwrap_err();
//! assert_eq!((refusal.number, refusal.place), (Number::Unended, 3));
//!
//! let refusal = normalise(b"load ${base:?no base for $job}", &mut variables, Tables::NONE, &mut work, &mut out).unwrap_err();
//! assert_eq!((refusal.number, refusal.place), (Number::Demanded, 5));
//! assert_eq!(refusal.message, b"no base for a b");
//!
//! let tables = Tables { params: b"\x01\0\x03a b\0\0", ..Tables::NONE };
//! let line = normalise(b"cp \"$@\"", &mut variables, tables, &mut work, &mut out);
//! assert_eq!(line, Ok(b"cp 'a b' ''".as_slice()));
//!
//! let shouting = Tables { shouts: true, ..Tables::NONE };
//! assert_eq!(normalise(b"cp $jbo", &mut variables, Tables::NONE, &mut work, &mut out), Ok(b"cp".as_slice()));
//! let refusal = normalise(b"cp $jbo", &mut variables, shouting, &mut work, &mut out).unwrap_err();
//! assert_eq!((refusal.number, refusal.place), (Number::UnsetName, 3));
//!
//! assign(b"job=c out=/jobs:$job", &mut variables, Tables::NONE, &mut work).expect("two assignments");
//! assert_eq!(&variables.buffer[..variables.used], b"\x01\0\x03job\0\x01c\0\x03out\0\x07/jobs:c");
//!
//! let mut buffer = [1; drunquill::PATHS_MAX];
//! let mut paths = Paths { buffer: &mut buffer, used: 1 };
//! insert_path(&mut paths, b"p1.raw").expect("a new path");
//! assert_eq!(insert_path(&mut paths, b"p1.raw").unwrap_err().number, Number::BadPath);
//! delete_path(&mut paths, b"p1.raw").expect("the path that is there");
//! assert_eq!(paths.used, 1);
//! assert_eq!(drunquill::cost(b"*a*", b"aaa", &mut work), Ok(14));
//! ```

mod archive;
mod call;
mod number;
mod table;

pub use call::Call;
pub use number::{Number, Refusal};
pub use table::{pairs, texts, Pairs, Table, Texts};

/// The least length of the work area, in bytes.
pub const WORK_LEAST: usize = 65_536;
/// The longest line, and the longest quoted line.
pub const LINE_MAX: usize = 2_048;
/// The longest image of variables, homes, positional parameters or fields.
pub const IMAGE_MAX: usize = 8_192;
/// The longest image of paths.
pub const PATHS_MAX: usize = 32_768;
/// Units of a word, an operand or an arithmetic text: its bytes, a mark for each opening quote, and one or two between parameters of `$@` or `$*`.
pub const UNITS_MAX: usize = 2_048;
/// No message is longer: it has at most a byte for each unit of an operand.
pub const MESSAGE_MAX: usize = 2_048;
/// Expansions open at once.
pub const DEPTH_MAX: usize = 8;
/// Parentheses and unary signs, `+ - ! ~`, open at once in arithmetic, together.
pub const OPEN_MAX: usize = 32;
/// Elements of a pattern whose cost is asked for: each `*`, `?`, closed bracket and other byte is one.
pub const ELEMENTS_MAX: usize = 64;
/// Bytes of the text that it is asked for with.
pub const COMPARED_MAX: usize = 256;
/// What a call may need of the stack, in bytes: measured, not proved. The main thread and the threads of std have more.
pub const STACK: usize = 524_288;

/// The variables: an image in the first `used` bytes of a buffer, into which `${name=word}`, arithmetic as `$((n=n+1))` and [`assign`] store. An accepted call
/// leaves the new image and its length here. It may be shorter than the one before: bytes behind it are zero up to the used length that was given, and those
/// beyond are as before. On a refusal all of them are.
#[derive(Debug)]
pub struct Variables<'a> {
    pub buffer: &'a mut [u8],
    pub used: usize,
}

/// Paths that change: an image in the first `used` bytes of a buffer. An accepted call leaves the new image and its length here; a refusal changes nothing.
#[derive(Debug)]
pub struct Paths<'a> {
    pub buffer: &'a mut [u8],
    pub used: usize,
}

/// The images of homes, of positional parameters and of paths, and the switch by which unset names shout.
#[derive(Clone, Copy, Debug)]
pub struct Tables<'a> {
    pub homes: &'a [u8],
    /// An image of fields: the first of them is `$1`.
    pub params: &'a [u8],
    pub paths: &'a [u8],
    /// Whether a parameter that is unset is [`Number::UnsetName`] at the moment it is looked up: in the plain form, the length and the four removals, and as a
    /// name that is read in arithmetic; not in the forms with `-`, `=`, `?` and `+`. A call that is not refused so answers as it does without.
    pub shouts: bool,
}

impl Tables<'static> {
    /// No homes, no parameters and no paths; unset names do not shout.
    pub const NONE: Tables<'static> = Tables { homes: &[1], params: &[1], paths: &[1], shouts: false };
}

/// The expander: the fields of the line's words, as an image, to the front of `out`, which is given back. The work area has at least [`WORK_LEAST`] bytes,
/// whatever they are; after the call all of them are zero. On a refusal `out` is as before. A [`Number::Demanded`] comes with its message, whole.
pub fn expand<'o>(
    line: &[u8],
    variables: &mut Variables,
    tables: Tables,
    work: &mut [u8],
    out: &'o mut [u8],
) -> Result<&'o [u8], Refusal> {
    let mut message = [0; MESSAGE_MAX];
    let answer = archive::expand(line, variables, tables, work, out, &mut message);
    given(answer, &message, variables, out)
}

/// The normaliser: as the expander, but the fields go to `out` as a quoted line of at most [`LINE_MAX`] bytes.
pub fn normalise<'o>(
    line: &[u8],
    variables: &mut Variables,
    tables: Tables,
    work: &mut [u8],
    out: &'o mut [u8],
) -> Result<&'o [u8], Refusal> {
    let mut message = [0; MESSAGE_MAX];
    let answer = archive::normalise(line, variables, tables, work, out, &mut message);
    given(answer, &message, variables, out)
}

/// The assigner: a line whose every word is a name, a bare `=` and a value, perhaps empty, changes the variables, from left to right, each assignment seen by
/// the next; any other word is [`Number::BadSyntax`]. A value is neither split nor matched against paths: those of the tables are not looked at. Work area and
/// message are as in the expander.
pub fn assign(line: &[u8], variables: &mut Variables, tables: Tables, work: &mut [u8]) -> Result<(), Refusal> {
    let mut message = [0; MESSAGE_MAX];
    let answer = archive::assign(line, variables, tables, work, &mut message);
    given(answer, &message, variables, &[]).map(|_| ())
}

/// The quoter: an image of fields as a line of at most [`LINE_MAX`] bytes to the front of `out`, which is given back. A field that is not empty and holds only
/// letters, digits, `.`, `_`, `-` and `/` stands there bare, one that holds a byte below 32 or byte 127 in `$'...'`, any other in single quotes: the line holds no
/// newline. On a refusal `out` is as before.
pub fn quote<'o>(fields: &[u8], out: &'o mut [u8]) -> Result<&'o [u8], Refusal> {
    let answer = archive::quote(fields, out);
    Refusal::unless_accepted(answer.number, answer.place, &[])?;
    Ok(&out[..answer.out_len])
}

/// A path inserted in its order. Bytes before its place and behind the new image are as before. One that is there is [`Number::BadPath`].
pub fn insert_path(paths: &mut Paths, path: &[u8]) -> Result<(), Refusal> {
    let answer = archive::insert_path(paths, path);
    updated(answer, paths)
}

/// A path deleted. Bytes before its place are as before, those behind the new image are zero up to the used length that was given and as before beyond it. One
/// that is not there is [`Number::BadPath`].
pub fn delete_path(paths: &mut Paths, path: &[u8]) -> Result<(), Refusal> {
    let answer = archive::delete_path(paths, path);
    updated(answer, paths)
}

/// What a pattern may cost with a text: how many pairs of a place in each can be reached, from 1 to (elements + 1) times (bytes + 1). The elements are those of
/// the removals, every byte of the pattern active. The work area has at least [`WORK_LEAST`] bytes, and is zero after every call.
pub fn cost(pattern: &[u8], text: &[u8], work: &mut [u8]) -> Result<usize, Refusal> {
    let answer = archive::cost(pattern, text, work);
    Refusal::unless_accepted(answer.number, answer.place, &[])?;
    Ok(answer.pairs)
}

fn updated(answer: archive::Updated, paths: &mut Paths) -> Result<(), Refusal> {
    Refusal::unless_accepted(answer.number, answer.place, &[])?;
    paths.used = answer.used;
    Ok(())
}

fn given<'o>(
    answer: archive::Answer,
    message: &[u8],
    variables: &mut Variables,
    out: &'o [u8],
) -> Result<&'o [u8], Refusal> {
    Refusal::unless_accepted(answer.number, answer.place, &message[..answer.message_len])?;
    variables.used = answer.vars_used;
    Ok(&out[..answer.out_len])
}
