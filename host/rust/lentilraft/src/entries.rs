//! The entries of a directory, one by one.

use std::iter::FusedIterator;

use crate::error::{Error, Result};
use crate::ffi;
use crate::types::Node;

/// An entry of a directory. The name stands in the volume, and is not a copy.
#[derive(Clone, Copy, Debug, PartialEq, Eq, Hash)]
pub struct Entry<'a> {
    /// The entry's index in its directory, at least 1. It stays as long as the entry does.
    pub index: u32,
    /// The node that the entry names.
    pub node: Node,
    /// The name: 1 to 255 bytes, which need not be UTF-8.
    pub name: &'a [u8],
}

/// The entry of a directory with the least index at or above one.
pub(crate) fn next_entry(volume: &[u8], directory: Node, from: u32) -> Result<Entry<'_>> {
    let given = ffi::next_entry(volume, directory.0, from)?;
    let start = given.start as usize;
    Ok(Entry {
        index: given.index,
        node: Node(given.node),
        name: &volume[start..start + given.length as usize],
    })
}

/// The entries of a directory in index order: see [`Volume::entries`](crate::Volume::entries).
#[derive(Clone)]
pub struct Entries<'a> {
    volume: &'a [u8],
    directory: Node,
    /// The least index that was not looked at; none at the end.
    from: Option<u32>,
}

impl<'a> Entries<'a> {
    pub(crate) fn of(volume: &'a [u8], directory: Node) -> Entries<'a> {
        Entries {
            volume,
            directory,
            from: Some(0),
        }
    }

    /// The reason for no further entry is also that for no such directory. Find tells which it is:
    /// an empty path leads from a node to itself.
    fn is_end(&self, error: Error) -> bool {
        error == Error::NoSuchEntry && ffi::find_node(self.volume, self.directory.0, b"").is_ok()
    }
}

impl<'a> Iterator for Entries<'a> {
    type Item = Result<Entry<'a>>;

    fn next(&mut self) -> Option<Self::Item> {
        let from = self.from.take()?;
        match next_entry(self.volume, self.directory, from) {
            Ok(entry) => {
                self.from = entry.index.checked_add(1);
                Some(Ok(entry))
            }
            Err(error) if self.is_end(error) => None,
            Err(error) => Some(Err(error)),
        }
    }
}

impl FusedIterator for Entries<'_> {}

impl std::fmt::Debug for Entries<'_> {
    fn fmt(&self, f: &mut std::fmt::Formatter<'_>) -> std::fmt::Result {
        f.debug_struct("Entries")
            .field("directory", &self.directory)
            .field("from", &self.from)
            .finish_non_exhaustive()
    }
}
