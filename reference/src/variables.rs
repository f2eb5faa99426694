//! The variables of a call, kept in order of name, the room their image has, and whether what is unset is refused where its value is asked for.

use std::collections::BTreeMap;

use crate::image::{self, Pair};
use crate::number::Number;

#[derive(Clone, Debug, PartialEq, Eq)]
pub struct Variables {
    values: BTreeMap<Vec<u8>, Vec<u8>>,
    room: usize,
    shout: bool,
}

impl Variables {
    pub fn new(pairs: Vec<Pair>, room: usize, shout: bool) -> Self {
        Variables { values: pairs.into_iter().collect(), room, shout }
    }

    pub fn value(&self, name: &[u8]) -> Option<&[u8]> {
        self.values.get(name).map(Vec::as_slice)
    }

    /// The value that is asked for under a name.
    pub fn asked(&self, name: &[u8]) -> Result<&[u8], Number> {
        self.value(name).map_or_else(|| self.unset(), Ok)
    }

    /// What stands for a value that is not there: nothing, or with the switch on a refusal.
    pub fn unset(&self) -> Result<&'static [u8], Number> {
        if self.shout {
            return Err(Number::Unset);
        }
        Ok(&[])
    }

    /// Sets a variable, or refuses if the image would be longer than its room.
    pub fn store(&mut self, name: &[u8], value: Vec<u8>) -> Result<(), Number> {
        self.values.insert(name.to_vec(), value);
        if self.image().len() > self.room {
            return Err(Number::NoRoomForVariable);
        }
        Ok(())
    }

    pub fn image(&self) -> Vec<u8> {
        let mut image = image::empty();
        for (name, value) in &self.values {
            image::add_text(&mut image, name);
            image::add_text(&mut image, value);
        }
        image
    }
}
