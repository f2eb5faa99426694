//! The syntax tree of a line: words of parts. Reading builds it; expanding walks it and never looks at the line again.

/// A word and its place in the line.
#[derive(Debug)]
pub struct Word {
    pub place: usize,
    pub parts: Vec<Part>,
}

/// A word of an assignment line: its place, the name before its `=`, and the value behind it.
#[derive(Debug)]
pub struct Assignment {
    pub place: usize,
    pub name: Vec<u8>,
    pub value: Vec<Part>,
}

/// One step of a row: a unit that stands in the line, or an expansion.
#[derive(Debug)]
pub enum Part {
    /// A bare byte.
    Literal(u8),
    /// A byte behind a bare backslash or inside quotes.
    Quoted(u8),
    /// Quotes, single, double or `$'...'`: what stands between the opening one and the closing one.
    Quotes(Vec<Part>),
    /// A `~` where it is looked up, and the login behind it: at the start of a word, of an operand read as bare text, of a value or behind a `:` in it.
    Tilde(Vec<u8>),
    Parameter {
        parameter: Parameter,
        form: Form,
        quoted: bool,
    },
    /// `$#`
    Count {
        quoted: bool,
    },
    /// `$@` or `$*`
    List {
        list: List,
        quoted: bool,
    },
    Arithmetic {
        text: Vec<Part>,
        quoted: bool,
    },
}

/// A parameter that has a value or is unset.
#[derive(Clone, Debug, PartialEq, Eq)]
pub enum Parameter {
    Name(Vec<u8>),
    /// A positional one, by its number from 1.
    Number(usize),
}

#[derive(Clone, Copy, Debug, PartialEq, Eq)]
pub enum List {
    /// `$@`
    At,
    /// `$*`
    Star,
}

/// What `${name...}` asks for.
#[derive(Debug)]
pub enum Form {
    Plain,
    Length,
    /// One of `-=?+`; with the colon an empty value is missing too.
    Choice {
        choice: Choice,
        colon: bool,
        operand: Vec<Part>,
    },
    Removal {
        end: End,
        extent: Extent,
        operand: Vec<Part>,
    },
}

impl Form {
    /// The sign by which a form is known, without its colon; the plain form has none, and the length has its own before the name.
    pub fn sign(&self) -> &'static str {
        match self {
            Form::Plain => "",
            Form::Length => "length",
            Form::Choice { choice: Choice::Default, .. } => "-",
            Form::Choice { choice: Choice::Store, .. } => "=",
            Form::Choice { choice: Choice::Demand, .. } => "?",
            Form::Choice { choice: Choice::Alternative, .. } => "+",
            Form::Removal { end: End::Prefix, extent: Extent::Shortest, .. } => "#",
            Form::Removal { end: End::Prefix, extent: Extent::Longest, .. } => "##",
            Form::Removal { end: End::Suffix, extent: Extent::Shortest, .. } => "%",
            Form::Removal { end: End::Suffix, extent: Extent::Longest, .. } => "%%",
        }
    }
}

#[derive(Clone, Copy, Debug, PartialEq, Eq)]
pub enum Choice {
    /// `-`
    Default,
    /// `=`
    Store,
    /// `?`
    Demand,
    /// `+`
    Alternative,
}

#[derive(Clone, Copy, Debug, PartialEq, Eq)]
pub enum End {
    /// `#`
    Prefix,
    /// `%`
    Suffix,
}

#[derive(Clone, Copy, Debug, PartialEq, Eq)]
pub enum Extent {
    Shortest,
    Longest,
}
