//! Calls made from texts: what is lent is built up once, and lines are then given to it.

use crate::{
    assign, cost, delete_path, expand, insert_path, normalise, pairs, texts, Pairs, Paths, Refusal, Table, Tables,
    Texts, Variables, IMAGE_MAX, LINE_MAX, PATHS_MAX, WORK_LEAST,
};

/// What lines are read with: variables, homes, positional parameters, paths, and the switch by which unset names shout. It owns all buffers that are lent. The
/// variables that a line stores are there for the next one; a refusal changes nothing.
///
/// ```
/// use drunquill::{Call, Number};
///
/// let mut call = Call::new()
///     .variables([("job", "north field")])
///     .homes([("crew", "/srv/crew")])
///     .params(["base 07.dat"])
///     .paths(["p1.raw", "p2.raw"]);
/// assert_eq!(call.expand("load \"$1\" p?.raw").unwrap(), [b"load".as_slice(), b"base 07.dat", b"p1.raw", b"p2.raw"]);
/// assert_eq!(call.normalise("~crew/$job").unwrap(), b"/srv/crew/north field");
/// call.assign("out=~crew:$job n=1").unwrap();
/// assert_eq!(call.variable("out"), Some(b"/srv/crew:north field".as_slice()));
///
/// let refusal = call.expand("load ${base:?no base for $job}").unwrap_err();
/// assert_eq!((refusal.number, refusal.place), (Number::Demanded, 5));
/// assert_eq!(refusal.message, b"no base for north field");
/// assert_eq!(call.shouts(true).expand("load $bsae").unwrap_err().number, Number::UnsetName);
/// ```
#[derive(Clone, Debug)]
pub struct Call {
    variables: Vec<u8>,
    variables_used: usize,
    homes: Table,
    params: Table,
    paths: Vec<u8>,
    paths_used: usize,
    shouts: bool,
    work: Vec<u8>,
}

impl Call {
    /// No variables, homes, parameters and paths; unset names do not shout.
    pub fn new() -> Call {
        let (variables, paths) = (lent(&[1], IMAGE_MAX), lent(&[1], PATHS_MAX));
        let (homes, params) = (Table::default(), Table::default());
        let work = vec![0; WORK_LEAST];
        Call { variables, variables_used: 1, homes, params, paths, paths_used: 1, shouts: false, work }
    }

    /// The variables to begin with, in place of those that were there.
    pub fn variables<K: AsRef<[u8]>, V: AsRef<[u8]>>(mut self, pairs: impl IntoIterator<Item = (K, V)>) -> Call {
        let table = Table::from_pairs(pairs);
        self.variables = lent(table.image(), IMAGE_MAX);
        self.variables_used = table.image().len();
        self
    }

    /// Logins and their directories.
    pub fn homes<K: AsRef<[u8]>, V: AsRef<[u8]>>(mut self, pairs: impl IntoIterator<Item = (K, V)>) -> Call {
        self.homes = Table::from_pairs(pairs);
        self
    }

    /// The positional parameters, from `$1` on.
    pub fn params<T: AsRef<[u8]>>(mut self, texts: impl IntoIterator<Item = T>) -> Call {
        self.params = Table::from_texts(texts);
        self
    }

    /// The paths that patterns are matched against.
    pub fn paths<T: AsRef<[u8]>>(mut self, paths: impl IntoIterator<Item = T>) -> Call {
        let table = Table::from_paths(paths);
        self.paths = lent(table.image(), PATHS_MAX);
        self.paths_used = table.image().len();
        self
    }

    /// Whether unset names shout: a name that is not set is refused with [`crate::Number::UnsetName`] where its value is looked up.
    pub fn shouts(mut self, shouts: bool) -> Call {
        self.shouts = shouts;
        self
    }

    /// The fields of the line's words.
    pub fn expand(&mut self, line: impl AsRef<[u8]>) -> Result<Vec<Vec<u8>>, Refusal> {
        let mut out = vec![0; IMAGE_MAX];
        let fields = self.with(|variables, tables, work| expand(line.as_ref(), variables, tables, work, &mut out))?;
        Ok(texts(fields).map(<[u8]>::to_vec).collect())
    }

    /// The fields of the line's words as a quoted line.
    pub fn normalise(&mut self, line: impl AsRef<[u8]>) -> Result<Vec<u8>, Refusal> {
        let mut out = [0; LINE_MAX];
        self.with(|variables, tables, work| normalise(line.as_ref(), variables, tables, work, &mut out))
            .map(<[u8]>::to_vec)
    }

    /// Sets variables by a line of assignments.
    pub fn assign(&mut self, line: impl AsRef<[u8]>) -> Result<(), Refusal> {
        self.with(|variables, tables, work| assign(line.as_ref(), variables, tables, work))
    }

    /// One path more.
    pub fn insert_path(&mut self, path: impl AsRef<[u8]>) -> Result<(), Refusal> {
        self.with_paths(|paths| insert_path(paths, path.as_ref()))
    }

    /// One path less.
    pub fn delete_path(&mut self, path: impl AsRef<[u8]>) -> Result<(), Refusal> {
        self.with_paths(|paths| delete_path(paths, path.as_ref()))
    }

    /// What a pattern may cost with a text.
    pub fn cost(&mut self, pattern: impl AsRef<[u8]>, text: impl AsRef<[u8]>) -> Result<usize, Refusal> {
        cost(pattern.as_ref(), text.as_ref(), &mut self.work)
    }

    /// The variables as they are now, in the order of their names.
    pub fn current_variables(&self) -> Pairs<'_> {
        pairs(&self.variables[..self.variables_used])
    }

    /// The value of a variable, if it is set.
    pub fn variable(&self, name: impl AsRef<[u8]>) -> Option<&[u8]> {
        self.current_variables().find(|(known, _)| *known == name.as_ref()).map(|(_, value)| value)
    }

    /// The paths as they are now, in their order.
    pub fn current_paths(&self) -> Texts<'_> {
        texts(&self.paths[..self.paths_used])
    }

    /// Lends all buffers to a job that takes a line, and keeps the used length that it leaves.
    fn with<T>(&mut self, job: impl FnOnce(&mut Variables, Tables, &mut [u8]) -> T) -> T {
        let (homes, params, paths) = (self.homes.image(), self.params.image(), &self.paths[..self.paths_used]);
        let tables = Tables { homes, params, paths, shouts: self.shouts };
        let mut variables = Variables { buffer: &mut self.variables, used: self.variables_used };
        let given = job(&mut variables, tables, &mut self.work);
        self.variables_used = variables.used;
        given
    }

    fn with_paths<T>(&mut self, job: impl FnOnce(&mut Paths) -> T) -> T {
        let mut paths = Paths { buffer: &mut self.paths, used: self.paths_used };
        let given = job(&mut paths);
        self.paths_used = paths.used;
        given
    }
}

impl Default for Call {
    fn default() -> Call {
        Call::new()
    }
}

/// A buffer that begins with an image, as long as the longest one, or as the image if that is longer: then the library refuses it.
fn lent(image: &[u8], longest: usize) -> Vec<u8> {
    let mut buffer = image.to_vec();
    buffer.resize(longest.max(image.len()), 0);
    buffer
}
