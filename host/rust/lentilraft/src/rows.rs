//! What stands in the rows of a sound volume, read off its bytes by docs/LAYOUT.md. This is plain
//! safe Rust and not proved; that the volume is sound is what the proved check says first.

use std::fmt;

use crate::entries::Entry;
use crate::error::{Error, Result};
use crate::ffi;
use crate::types::{ChunkSize, Kind, Node, Rooms};
use crate::types::{CHUNK_ROW, ENTRY_ROW, FREE_POINTER, FRONT, NODE_ROW};

/// What a volume knows of a node.
#[derive(Clone, Copy, Debug, PartialEq, Eq, Hash)]
pub struct Info {
    /// What the node is.
    pub kind: Kind,
    /// How many entries name it. The root has 1.
    pub links: u64,
    /// How many bytes a file or a symbolic link has, or how many entries a directory has.
    pub size: u64,
    /// The size that the file may not exceed, if one was set. Without it that is 2^40.
    pub limit: Option<u64>,
}

/// A stretch of a file's bytes: those from `start` on and before `end`.
#[derive(Clone, Copy, Debug, PartialEq, Eq, Hash)]
pub struct Stretch {
    /// The offset of its first byte.
    pub start: u64,
    /// The offset behind its last byte.
    pub end: u64,
}

/// What a volume has room for, and how much of it is used.
#[derive(Clone, Copy, Debug, PartialEq, Eq, Hash)]
pub struct Geometry {
    /// What it has room for.
    pub rooms: Rooms,
    /// How many bytes each chunk has.
    pub chunk_size: ChunkSize,
    /// How many nodes, entries and chunks there are.
    pub used: Rooms,
    /// The number that the next node will have.
    pub next_node: u64,
    /// How many chunks can still be taken. Where the memory is too short for all chunks that there
    /// is room for, these are fewer than the rooms leave.
    pub free_chunks: u64,
}

/// Where the words of the header and of the allocator stand.
const ROOMS: u64 = 8;
const USED: u64 = 32;
const NEXT_NODE: u64 = 56;
const CHUNK_SIZE: u64 = 72;
const FREE_COUNT: u64 = 80;
const NEXT_POINTER: u64 = 88;

/// Where the fields of a node's row and of a chunk's row stand; both begin with the node.
const KIND: usize = 8;
const LIMIT_FLAG: usize = 9;
const LINKS: u64 = 16;
const SIZE: u64 = 24;
const LIMIT: u64 = 32;
const CHUNK_INDEX: u64 = 8;

/// Where the fields of an entry's row stand; it begins with the directory.
const TARGET: u64 = 8;
const INDEX: usize = 16;
const NAME_LENGTH: usize = 20;
const NAME: usize = 24;

/// The rows of a volume that the proved check has found sound. They borrow it, so that it stays as it was checked: many
/// rows are looked at for one check.
#[derive(Clone, Copy)]
pub struct Rows<'a> {
    bytes: &'a [u8],
    geometry: Geometry,
}

impl<'a> Rows<'a> {
    pub(crate) fn checked(bytes: &'a [u8]) -> Result<Rows<'a>> {
        ffi::check(bytes)?;
        let geometry = geometry(bytes)?;
        Ok(Rows { bytes, geometry })
    }

    /// As [`Volume::geometry`](crate::Volume::geometry).
    pub fn geometry(&self) -> Geometry {
        self.geometry
    }

    /// As [`Volume::node`](crate::Volume::node).
    ///
    /// # Errors
    ///
    /// `NoSuchEntry`: no such node.
    pub fn node(&self, node: Node) -> Result<Info> {
        let mut rows = self.node_rows();
        let row = rows.find(|row| word(row, 0) == node.0);
        row.map(info).ok_or(Error::NoSuchEntry)
    }

    /// As [`Volume::written`](crate::Volume::written).
    ///
    /// # Errors
    ///
    /// `NoSuchEntry`: no such node. `IsDirectory`.
    pub fn written(&self, node: Node) -> Result<Vec<Stretch>> {
        let info = self.node(node)?;
        if info.kind == Kind::Directory {
            return Err(Error::IsDirectory);
        }
        let span = self.geometry.chunk_size.bytes();
        let mut stretches = Vec::new();
        for row in self.chunk_rows().filter(|row| word(row, 0) == node.0) {
            let start = word(row, CHUNK_INDEX) * span;
            let end = info.size.min(start + span);
            append(&mut stretches, Stretch { start, end });
        }
        Ok(stretches)
    }

    /// The entries of a directory in index order, as [`Volume::entries`](crate::Volume::entries)
    /// gives them.
    ///
    /// # Errors
    ///
    /// `NoSuchEntry`: no such node. `NotDirectory`.
    pub fn entries(&self, directory: Node) -> Result<impl Iterator<Item = Entry<'a>> + 'a> {
        if self.node(directory)?.kind != Kind::Directory {
            return Err(Error::NotDirectory);
        }
        let rows = self.entry_rows();
        let inside = rows.filter(move |row| word(row, 0) == directory.0);
        Ok(inside.map(entry))
    }

    fn node_rows(&self) -> impl Iterator<Item = &'a [u8]> {
        let start = FRONT + FREE_POINTER * self.geometry.rooms.chunks;
        rows(self.bytes, start, self.geometry.used.nodes, NODE_ROW)
    }

    fn entry_rows(&self) -> impl Iterator<Item = &'a [u8]> + 'a {
        let rooms = self.geometry.rooms;
        let start = FRONT + FREE_POINTER * rooms.chunks + NODE_ROW * rooms.nodes;
        rows(self.bytes, start, self.geometry.used.entries, ENTRY_ROW)
    }

    fn chunk_rows(&self) -> impl Iterator<Item = &'a [u8]> {
        let rooms = self.geometry.rooms;
        let start = rooms.before_chunks() - CHUNK_ROW * rooms.chunks;
        rows(self.bytes, start, self.geometry.used.chunks, CHUNK_ROW)
    }
}

impl fmt::Debug for Rows<'_> {
    fn fmt(&self, out: &mut fmt::Formatter<'_>) -> fmt::Result {
        out.debug_struct("Rows")
            .field("geometry", &self.geometry)
            .finish_non_exhaustive()
    }
}

/// What the header and the allocator's words say.
fn geometry(bytes: &[u8]) -> Result<Geometry> {
    let rooms = three(bytes, ROOMS);
    let used = three(bytes, USED);
    let chunk_size = ChunkSize::try_from(word(bytes, CHUNK_SIZE))?;
    let area = bytes.len() as u64 - rooms.before_chunks();
    let new_chunks = (area - word(bytes, NEXT_POINTER)) / chunk_size.bytes();
    Ok(Geometry {
        rooms,
        chunk_size,
        used,
        next_node: word(bytes, NEXT_NODE),
        free_chunks: (rooms.chunks - used.chunks).min(word(bytes, FREE_COUNT) + new_chunks),
    })
}

/// A node's row as numbers.
fn info(row: &[u8]) -> Info {
    Info {
        kind: match row[KIND] {
            0 => Kind::Directory,
            1 => Kind::File,
            _ => Kind::SymbolicLink,
        },
        links: word(row, LINKS),
        size: word(row, SIZE),
        limit: (row[LIMIT_FLAG] == 1).then(|| word(row, LIMIT)),
    }
}

/// An entry's row; its name is a part of it.
fn entry(row: &[u8]) -> Entry<'_> {
    let length = half_word(row, NAME_LENGTH) as usize;
    Entry {
        index: half_word(row, INDEX),
        node: Node(word(row, TARGET)),
        name: &row[NAME..NAME + length],
    }
}

/// Puts a stretch behind others that end at or before its start; one that ends there grows by it.
fn append(stretches: &mut Vec<Stretch>, stretch: Stretch) {
    match stretches.last_mut() {
        Some(last) if last.end == stretch.start => last.end = stretch.end,
        _ => stretches.push(stretch),
    }
}

/// The first `count` rows of a table.
fn rows(bytes: &[u8], start: u64, count: u64, width: u64) -> impl Iterator<Item = &[u8]> {
    let end = start + count * width;
    bytes[start as usize..end as usize].chunks_exact(width as usize)
}

/// Three words: of nodes, of entries and of chunks.
fn three(bytes: &[u8], at: u64) -> Rooms {
    Rooms {
        nodes: word(bytes, at),
        entries: word(bytes, at + 8),
        chunks: word(bytes, at + 16),
    }
}

fn word(bytes: &[u8], at: u64) -> u64 {
    let at = at as usize;
    u64::from_le_bytes(bytes[at..at + 8].try_into().expect("eight bytes"))
}

fn half_word(bytes: &[u8], at: usize) -> u32 {
    u32::from_le_bytes(bytes[at..at + 4].try_into().expect("four bytes"))
}
