//! A name searched for in a directory, a part of its entries at a time.

use crate::error::Result;
use crate::ffi;
use crate::types::Node;

/// What came of a search: see [`Volume::search`](crate::Volume::search).
#[derive(Clone, Copy, Debug, PartialEq, Eq, Hash)]
pub enum Search {
    /// An entry has the name.
    Found {
        /// The entry's index in its directory.
        index: u32,
        /// The node that the entry names.
        node: Node,
        /// How many entries were looked at; this one was the last of them.
        looked: u64,
    },
    /// No entry has the name, from where the search began to the directory's end.
    Absent {
        /// How many entries were looked at: all that there are.
        looked: u64,
    },
    /// None of the entries looked at has the name, and others are left.
    Stopped {
        /// The index of the first entry that was not looked at. From there on the search goes on.
        index: u32,
        /// How many entries were looked at: as many as it was allowed.
        looked: u64,
    },
}

pub(crate) fn search(
    volume: &[u8],
    directory: Node,
    name: &[u8],
    from: u32,
    most: u64,
) -> Result<Search> {
    let given = ffi::search(volume, directory.0, name, from, most)?;
    let (index, looked) = (given.index, given.looked);
    Ok(match given.found {
        0 => Search::Absent { looked },
        1 => Search::Found {
            index,
            node: Node(given.node),
            looked,
        },
        2 => Search::Stopped { index, looked },
        other => panic!(
            "the archive told {} of a search: it is not the one that this crate is for",
            other
        ),
    })
}
