//! What calls are told: nodes, kinds, sizes, rooms.

use std::fmt;

use crate::error::{Error, Result};

/// The number of a node. A number is never given to two nodes of one volume, also after the first
/// was removed.
#[derive(Clone, Copy, Debug, PartialEq, Eq, PartialOrd, Ord, Hash)]
pub struct Node(pub u64);

/// The directory that every volume has, and that no entry names.
pub const ROOT: Node = Node(0);

impl fmt::Display for Node {
    fn fmt(&self, f: &mut fmt::Formatter<'_>) -> fmt::Result {
        fmt::Display::fmt(&self.0, f)
    }
}

/// What a node is.
#[derive(Clone, Copy, Debug, PartialEq, Eq, Hash)]
#[repr(u8)]
pub enum Kind {
    /// It has entries.
    Directory = 0,
    /// A regular file: it has bytes.
    File = 1,
    /// It has bytes like a file, and is not followed.
    SymbolicLink = 2,
}

/// What [`Volume::unlink`](crate::Volume::unlink) is to expect under a path.
#[derive(Clone, Copy, Debug, PartialEq, Eq, Hash)]
#[repr(u8)]
pub enum Expected {
    /// A node of any kind.
    Any = 0,
    /// A directory.
    Directory = 1,
    /// A regular file or a symbolic link.
    File = 2,
}

/// How many bytes a chunk has. Files take room by whole chunks: small ones waste less where a
/// traverse begins and ends, large ones need fewer rows for as many bytes.
#[derive(Clone, Copy, Debug, PartialEq, Eq, PartialOrd, Ord, Hash)]
#[repr(u64)]
pub enum ChunkSize {
    /// 4,096 bytes.
    K4 = 4096,
    /// 8,192 bytes.
    K8 = 8192,
    /// 16,384 bytes.
    K16 = 16384,
    /// 32,768 bytes.
    K32 = 32768,
    /// 65,536 bytes.
    K64 = 65536,
}

impl ChunkSize {
    /// Every size, ascending.
    pub const ALL: [ChunkSize; 5] = [
        ChunkSize::K4,
        ChunkSize::K8,
        ChunkSize::K16,
        ChunkSize::K32,
        ChunkSize::K64,
    ];

    /// The size in bytes.
    pub fn bytes(self) -> u64 {
        self as u64
    }
}

impl TryFrom<u64> for ChunkSize {
    type Error = Error;

    /// The chunk size of so many bytes; any other number is an [`Error::InvalidArgument`].
    fn try_from(bytes: u64) -> Result<ChunkSize> {
        let mut sizes = ChunkSize::ALL.into_iter();
        let found = sizes.find(|size| size.bytes() == bytes);
        found.ok_or(Error::InvalidArgument)
    }
}

/// How many nodes, entries and chunks: of a volume, what it has room for, each 1 to 4,096.
#[derive(Clone, Copy, Debug, PartialEq, Eq, Hash)]
pub struct Rooms {
    /// Nodes: directories, files and symbolic links, the root among them.
    pub nodes: u64,
    /// Entries: names in directories.
    pub entries: u64,
    /// Chunks of files.
    pub chunks: u64,
}

/// Bytes of the header and of the allocator's words before the free pointers.
pub(crate) const FRONT: u64 = 64 + 128;
/// Bytes of a row of each table, and of a free pointer.
pub(crate) const NODE_ROW: u64 = 40;
pub(crate) const ENTRY_ROW: u64 = 280;
pub(crate) const CHUNK_ROW: u64 = 24;
pub(crate) const FREE_POINTER: u64 = 8;
/// The least that the chunk area has.
const LEAST_AREA: u64 = 65536;

impl Rooms {
    /// The fewest bytes that a volume of these rooms has: 65,728 + 40 nodes + 280 entries + 32
    /// chunks. It has 65,536 bytes for chunks then, which need not be enough for all of them.
    ///
    /// Numbers so great that no sum can tell give `u64::MAX`.
    pub fn least_length(&self) -> u64 {
        self.before_chunks().saturating_add(LEAST_AREA)
    }

    /// How many bytes a volume of these rooms needs so that as many chunks as it has room for can
    /// be in use at once. It is never under [`least_length`](Rooms::least_length).
    pub fn length_for(&self, size: ChunkSize) -> u64 {
        let chunks = self.chunks.saturating_mul(size.bytes());
        self.before_chunks().saturating_add(chunks.max(LEAST_AREA))
    }

    /// Bytes of all areas before the chunk area.
    pub(crate) fn before_chunks(&self) -> u64 {
        let nodes = self.nodes.saturating_mul(NODE_ROW);
        let entries = self.entries.saturating_mul(ENTRY_ROW);
        let chunks = self.chunks.saturating_mul(CHUNK_ROW + FREE_POINTER);
        FRONT
            .saturating_add(nodes)
            .saturating_add(entries)
            .saturating_add(chunks)
    }
}
