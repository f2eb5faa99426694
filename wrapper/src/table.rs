//! Images made from texts and read as texts, so that nobody packs by hand. What is made here is held against the library, which refuses what is malformed.

use std::collections::{BTreeMap, BTreeSet};

use crate::{quote, Refusal, LINE_MAX};

/// An image, made from texts: of variables or homes, of positional parameters or fields, of paths.
///
/// A text may be anything that has bytes: `&str`, `&[u8]`, `String`, `Vec<u8>`. What no table may hold, as a zero byte or a name that is none, is put into the
/// image all the same, and refused by the function that is given it; a text that is longer than its length can say makes an image that is longer than any
/// limit.
///
/// ```
/// use drunquill::Table;
///
/// let crew = Table::from_pairs([("job", "north field"), ("base", "b 07")]);
/// assert_eq!(crew.image(), b"\x01\0\x04base\0\x04b 07\0\x03job\0\x0bnorth field");
/// assert!(crew.pairs().eq([(b"base".as_slice(), b"b 07".as_slice()), (b"job", b"north field")]));
/// assert_eq!(Table::from_texts(["cp", "a b", ""]).quote(), Ok(b"cp 'a b' ''".to_vec()));
/// ```
#[derive(Clone, Debug, PartialEq, Eq, Hash)]
pub struct Table {
    image: Vec<u8>,
}

impl Table {
    /// Variables or homes: names and values, or logins and directories, in any order. Of two with one name the later holds.
    pub fn from_pairs<K: AsRef<[u8]>, V: AsRef<[u8]>>(pairs: impl IntoIterator<Item = (K, V)>) -> Table {
        let ordered: BTreeMap<Vec<u8>, V> =
            pairs.into_iter().map(|(key, value)| (key.as_ref().to_vec(), value)).collect();
        let mut table = Table::default();
        for (key, value) in &ordered {
            table.push(key);
            table.push(value.as_ref());
        }
        table
    }

    /// Positional parameters or fields, as they stand.
    pub fn from_texts<T: AsRef<[u8]>>(texts: impl IntoIterator<Item = T>) -> Table {
        let mut table = Table::default();
        for text in texts {
            table.push(text.as_ref());
        }
        table
    }

    /// Paths, in any order, each once.
    pub fn from_paths<T: AsRef<[u8]>>(paths: impl IntoIterator<Item = T>) -> Table {
        let ordered: BTreeSet<Vec<u8>> = paths.into_iter().map(|path| path.as_ref().to_vec()).collect();
        Table::from_texts(ordered)
    }

    fn push(&mut self, text: &[u8]) {
        let length = u16::try_from(text.len()).unwrap_or(u16::MAX);
        self.image.extend_from_slice(&length.to_be_bytes());
        self.image.extend_from_slice(text);
    }

    /// The image, as the functions take it.
    pub fn image(&self) -> &[u8] {
        &self.image
    }

    /// The texts one by one.
    pub fn texts(&self) -> Texts<'_> {
        texts(&self.image)
    }

    /// The texts two by two.
    pub fn pairs(&self) -> Pairs<'_> {
        pairs(&self.image)
    }

    /// Its texts, as fields, as a quoted line.
    pub fn quote(&self) -> Result<Vec<u8>, Refusal> {
        let mut out = [0; LINE_MAX];
        quote(&self.image, &mut out).map(<[u8]>::to_vec)
    }
}

impl Default for Table {
    /// A table without records.
    fn default() -> Table {
        Table { image: vec![1] }
    }
}

/// The texts of an image, one by one. Of an image that is not well formed it gives those up to the first that is not whole.
pub fn texts(image: &[u8]) -> Texts<'_> {
    Texts { rest: image.get(1..).unwrap_or_default() }
}

/// The texts of an image of variables or homes, two by two: names and values, or logins and directories.
pub fn pairs(image: &[u8]) -> Pairs<'_> {
    Pairs { texts: texts(image) }
}

/// What [`texts`] gives.
#[derive(Clone, Debug)]
pub struct Texts<'a> {
    rest: &'a [u8],
}

impl<'a> Iterator for Texts<'a> {
    type Item = &'a [u8];

    fn next(&mut self) -> Option<&'a [u8]> {
        let (length, rest) = self.rest.split_first_chunk::<2>()?;
        let (text, rest) = rest.split_at_checked(usize::from(u16::from_be_bytes(*length)))?;
        self.rest = rest;
        Some(text)
    }
}

/// What [`pairs`] gives.
#[derive(Clone, Debug)]
pub struct Pairs<'a> {
    texts: Texts<'a>,
}

impl<'a> Iterator for Pairs<'a> {
    type Item = (&'a [u8], &'a [u8]);

    fn next(&mut self) -> Option<(&'a [u8], &'a [u8])> {
        Some((self.texts.next()?, self.texts.next()?))
    }
}
