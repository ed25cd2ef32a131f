//! Names and their token ids.

use crate::numbers::MAP_WIDTH;
use crate::records::{bytes, record};
use std::borrow::Cow;
use std::fmt;

/// Names and the ids of their tokens, as a link takes them.
#[derive(Clone, Debug, Default, PartialEq, Eq)]
pub struct Map {
    names: Vec<u8>,
    entries: Vec<u8>,
}

/// A name that a map has no room for: a map counts in two bytes where a name starts and how long it is.
#[derive(Clone, Copy, Debug, PartialEq, Eq)]
pub struct NamesTooLong;

impl fmt::Display for NamesTooLong {
    fn fmt(&self, f: &mut fmt::Formatter) -> fmt::Result {
        f.write_str("a map holds a name of at most 65,535 bytes behind at most 65,535 bytes of other names")
    }
}

impl std::error::Error for NamesTooLong {}

impl Map {
    /// A map without entries.
    pub fn new() -> Map {
        Map::default()
    }

    /// A map of these names and ids, in this order. That no two names are equal, and no more than 2,048, is for the link to
    /// judge.
    ///
    /// # Errors
    ///
    /// [`NamesTooLong`].
    pub fn of<N: AsRef<[u8]>>(pairs: impl IntoIterator<Item = (N, u16)>) -> Result<Map, NamesTooLong> {
        let mut map = Map::new();
        for (name, id) in pairs {
            map.add(name, id)?;
        }
        Ok(map)
    }

    /// A map by its bytes: those of the names, and entries of 6 bytes (from where a name starts, its length, its id; two
    /// bytes each, the low one first). The link judges them.
    pub fn from_parts(names: Vec<u8>, entries: Vec<u8>) -> Map {
        Map { names, entries }
    }

    /// Adds an entry behind the others.
    ///
    /// # Errors
    ///
    /// [`NamesTooLong`]; the map is then as it was.
    pub fn add(&mut self, name: impl AsRef<[u8]>, id: u16) -> Result<(), NamesTooLong> {
        let name = name.as_ref();
        let from = u16::try_from(self.names.len()).map_err(|_| NamesTooLong)?;
        let length = u16::try_from(name.len()).map_err(|_| NamesTooLong)?;
        self.names.extend_from_slice(name);
        self.entries.extend(bytes([from, length, id]));
        Ok(())
    }

    /// How many entries there are.
    pub fn len(&self) -> usize {
        self.entries.len() / MAP_WIDTH
    }

    /// Whether there is no entry.
    pub fn is_empty(&self) -> bool {
        self.len() == 0
    }

    /// The name and id of the entry of that number, if there is one and the names have its range.
    pub fn entry(&self, number: usize) -> Option<(Cow<'_, str>, u16)> {
        let [from, length, id] = record(&self.entries, number)?;
        let name = self.names.get(usize::from(from)..)?.get(..usize::from(length))?;
        Some((String::from_utf8_lossy(name), id))
    }

    pub(crate) fn names(&self) -> &[u8] {
        &self.names
    }

    pub(crate) fn entries(&self) -> &[u8] {
        &self.entries
    }
}
