//! Images: a version byte, then texts to the end. Each table is read whole or not at all (`None`).

use crate::limits;

const VERSION: u8 = 1;

/// The bytes of a text's length.
pub const LENGTH: usize = 2;

/// A record of two texts: a name and a value, or a login and a directory.
pub type Pair = (Vec<u8>, Vec<u8>);

/// The image without records.
pub fn empty() -> Vec<u8> {
    vec![VERSION]
}

/// Writes one text behind the image. A text longer than its length can say is a mistake of the caller.
pub fn add_text(image: &mut Vec<u8>, text: &[u8]) {
    let length = u16::try_from(text.len()).expect("a text has at most 65,535 bytes");
    image.extend_from_slice(&length.to_be_bytes());
    image.extend_from_slice(text);
}

/// The image of these texts.
pub fn of_texts<T: AsRef<[u8]>>(texts: &[T]) -> Vec<u8> {
    let mut image = empty();
    for text in texts {
        add_text(&mut image, text.as_ref());
    }
    image
}

/// Variables from their image, or `None` if it is malformed or too long.
pub fn variables(image: &[u8]) -> Option<Vec<Pair>> {
    pairs(image, is_name)
}

/// Homes from their image, or `None` if it is malformed or too long.
pub fn homes(image: &[u8]) -> Option<Vec<Pair>> {
    pairs(image, is_login)
}

/// Paths from their image, or `None` if it is malformed or too long.
pub fn paths(image: &[u8]) -> Option<Vec<Vec<u8>>> {
    let paths = texts(image, limits::PATHS_IMAGE)?;
    let filled = paths.iter().all(|path| !path.is_empty());
    (filled && rises(&paths)).then_some(paths)
}

/// Fields from their image, or `None` if it is malformed or too long.
pub fn fields(image: &[u8]) -> Option<Vec<Vec<u8>>> {
    texts(image, limits::IMAGE)
}

pub fn begins_name(byte: u8) -> bool {
    byte.is_ascii_alphabetic() || byte == b'_'
}

pub fn continues_name(byte: u8) -> bool {
    byte.is_ascii_alphanumeric() || byte == b'_'
}

pub fn is_login_byte(byte: u8) -> bool {
    byte.is_ascii_alphanumeric() || matches!(byte, b'.' | b'_' | b'-')
}

fn is_name(text: &[u8]) -> bool {
    text.first().is_some_and(|&byte| begins_name(byte)) && text.iter().all(|&b| continues_name(b))
}

fn is_login(text: &[u8]) -> bool {
    !text.is_empty() && text.iter().all(|&byte| is_login_byte(byte))
}

fn rises(keys: &[Vec<u8>]) -> bool {
    keys.windows(2).all(|two| two[0] < two[1])
}

fn pairs(image: &[u8], is_key: fn(&[u8]) -> bool) -> Option<Vec<Pair>> {
    let texts = texts(image, limits::IMAGE)?;
    if texts.len() % 2 != 0 {
        return None;
    }
    let keys: Vec<Vec<u8>> = texts.iter().step_by(2).cloned().collect();
    let values = texts.into_iter().skip(1).step_by(2);
    let good = keys.iter().all(|key| is_key(key)) && rises(&keys);
    good.then(|| keys.into_iter().zip(values).collect())
}

fn texts(image: &[u8], limit: usize) -> Option<Vec<Vec<u8>>> {
    let (&version, mut rest) = image.split_first()?;
    if version != VERSION || image.len() > limit {
        return None;
    }
    let mut texts = Vec::new();
    while !rest.is_empty() {
        let (text, behind) = text(rest)?;
        texts.push(text.to_vec());
        rest = behind;
    }
    Some(texts)
}

/// The first text and what stands behind it, or `None` if it is cut short or holds a zero byte.
fn text(bytes: &[u8]) -> Option<(&[u8], &[u8])> {
    let (length, rest) = bytes.split_first_chunk::<LENGTH>()?;
    let (text, behind) = rest.split_at_checked(usize::from(u16::from_be_bytes(*length)))?;
    (!text.contains(&0)).then_some((text, behind))
}
