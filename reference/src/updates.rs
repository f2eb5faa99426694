//! Insertion and deletion of one path in a lent buffer that holds an image of paths. The new list is made whole, and its image is written over the old one:
//! before the path's place both have the same bytes.

use crate::calls::Answer;
use crate::image;
use crate::limits;
use crate::number::{Number, ACCEPTED};

/// Puts the path in its order; bytes behind the new image are kept.
pub fn insert(paths: &mut [u8], used: usize, path: &[u8]) -> Answer {
    let inserted = inserted(paths, used, path);
    answer(inserted, paths, used)
}

/// Takes the path out; behind the new image stand zeros up to the used length that was given, and kept bytes beyond it.
pub fn delete(paths: &mut [u8], used: usize, path: &[u8]) -> Answer {
    let deleted = deleted(paths, used, path);
    answer(deleted, paths, used)
}

fn inserted(buffer: &[u8], used: usize, path: &[u8]) -> Result<Vec<u8>, Number> {
    let mut paths = checked(buffer, used, path)?;
    let Err(place) = place(&paths, path) else {
        return Err(Number::PathPresence);
    };
    let length = used + image::LENGTH + path.len();
    if length > buffer.len().min(limits::PATHS_IMAGE) {
        return Err(Number::NoRoomForOutput);
    }
    paths.insert(place, path.to_vec());
    Ok(image::of_texts(&paths))
}

fn deleted(buffer: &[u8], used: usize, path: &[u8]) -> Result<Vec<u8>, Number> {
    let mut paths = checked(buffer, used, path)?;
    let place = place(&paths, path).map_err(|_| Number::PathPresence)?;
    paths.remove(place);
    Ok(image::of_texts(&paths))
}

/// The paths of the image, if both it and the path are good.
fn checked(buffer: &[u8], used: usize, path: &[u8]) -> Result<Vec<Vec<u8>>, Number> {
    let paths = buffer.get(..used).and_then(image::paths).ok_or(Number::Paths)?;
    if path.is_empty() || path.contains(&0) {
        return Err(Number::Paths);
    }
    Ok(paths)
}

/// Where the path stands in the list, or where it would.
fn place(paths: &[Vec<u8>], path: &[u8]) -> Result<usize, usize> {
    paths.binary_search_by(|known| known.as_slice().cmp(path))
}

/// Writes the new image, with zeros behind it up to the old length, or leaves all as it is.
fn answer(image: Result<Vec<u8>, Number>, paths: &mut [u8], used: usize) -> Answer {
    let (number, used) = match image {
        Ok(image) => {
            let new = image.len();
            paths[..new].copy_from_slice(&image);
            paths[new..used.max(new)].fill(0);
            (ACCEPTED, new)
        }
        Err(number) => (number as u8, used),
    };
    Answer { number, place: 0, length: 0, used, message: 0 }
}
