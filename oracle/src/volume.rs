//! Levels 2 and 3: directories and file bytes over the whole `StableStorage`. Each call is the
//! Rust's own; what is set up around it is said at the call.

use crate::{
    error::Error,
    filename_cache::FilenameCache,
    runtime::{
        structure_helpers,
        types::{ChunkSize, ChunkType},
    },
    scope::FIRST_POINTER,
    storage::{
        Storage,
        stable::StableStorage,
        types::{
            DirEntry, DirEntryIndex, FileChunkIndex, FileChunkPtr, FileSize, FileType, Metadata,
            Node,
        },
    },
};
use ic_stable_structures::{Memory, VectorMemory};
use std::collections::BTreeMap;

/// The scope's limit of a file without one; the Rust's own is 2^44 - 45,056.
pub const FILE_LIMIT: FileSize = 1 << 40;

pub struct Volume {
    /// Open to those who ask for more than the calls below.
    pub storage: StableStorage<VectorMemory>,
}

impl Volume {
    pub fn new(chunk_size: ChunkSize) -> Self {
        let mut storage = StableStorage::new(VectorMemory::default());
        storage.set_chunk_size(chunk_size).expect("no chunk yet");
        Volume { storage }
    }

    /// Lets the chunks' memory have so many pages from the start, so that no write waits for them.
    pub fn grow(&self, pages: u64) {
        self.storage.v2_filechunk.v2_chunks.grow(pages);
    }

    // Level 3: the bytes of files.

    pub fn read(&mut self, node: Node, at: FileSize, buffer: &mut [u8]) -> Result<u64, Error> {
        self.storage.read(node, at, buffer)
    }

    pub fn write(&mut self, node: Node, at: FileSize, bytes: &[u8]) -> Result<u64, Error> {
        self.storage.write(node, at, bytes)
    }

    pub fn resize(&mut self, node: Node, size: FileSize) -> Result<(), Error> {
        self.storage.resize_file(node, size)
    }

    /// No limit is 2^40 here, as in the scope: the Rust's resize has none of its own.
    pub fn set_limit(&mut self, node: Node, limit: Option<FileSize>) -> Result<(), Error> {
        let mut metadata = self.metadata(node)?;
        metadata.maximum_size_allowed = limit.or(Some(FILE_LIMIT));
        self.storage.put_metadata(node, &metadata)
    }

    pub fn remove(&mut self, node: Node) -> Result<(), Error> {
        self.storage.rm_file(node)
    }

    pub fn metadata(&self, node: Node) -> Result<Metadata, Error> {
        self.storage.get_metadata(node)
    }

    pub fn chunk_rows(&self, node: Node) -> Vec<(FileChunkIndex, FileChunkPtr)> {
        let pointers = &self.storage.v2_filechunk.v2_chunk_ptr;
        let rows = pointers.range((node, 0)..=(node, FileChunkIndex::MAX));
        rows.map(|row| (row.key().1, row.value())).collect()
    }

    /// The allocator's word 3.
    pub fn next_pointer(&self) -> FileChunkPtr {
        self.storage.v2_filechunk.v2_allocator.word(3)
    }

    pub fn free_pointers(&self) -> Vec<FileChunkPtr> {
        let allocator = &self.storage.v2_filechunk.v2_allocator;
        let words = FIRST_POINTER as u64..FIRST_POINTER as u64 + allocator.word(2);
        words.map(|index| allocator.word(index)).collect()
    }

    // Level 2: directories.

    /// A file begins with the limit 2^40, see `set_limit`.
    pub fn create(&mut self, parent: Node, name: &[u8], kind: FileType) -> Result<Node, Error> {
        let node = structure_helpers::create_dir_entry(parent, name, kind, &mut self.storage, 0)?;
        if kind != FileType::Directory {
            self.set_limit(node, None)?;
        }
        Ok(node)
    }

    /// The steps of `create_dir_entry`, which refuses this type. The bytes stand in V2 chunks.
    pub fn create_symbolic_link(&mut self, parent: Node, name: &[u8]) -> Result<Node, Error> {
        let node = self.storage.new_node();
        let metadata = Metadata {
            node,
            file_type: FileType::SymbolicLink,
            link_count: 1,
            chunk_type: Some(ChunkType::V2),
            maximum_size_allowed: Some(FILE_LIMIT),
            ..Metadata::default()
        };
        self.storage.put_metadata(node, &metadata)?;
        self.add_dir_entry(parent, name, node)?;
        Ok(node)
    }

    /// The last two steps of `create_hard_link`; those before them look up and create paths. The
    /// entry is made first, so that a refusal leaves the count.
    pub fn link(&mut self, parent: Node, name: &[u8], target: Node) -> Result<(), Error> {
        self.add_dir_entry(parent, name, target)?;
        let mut metadata = self.metadata(target)?;
        metadata.link_count += 1;
        self.storage.put_metadata(target, &metadata)
    }

    pub fn add_dir_entry(&mut self, parent: Node, name: &[u8], node: Node) -> Result<(), Error> {
        let kind = self.metadata(node)?.file_type;
        structure_helpers::add_dir_entry(parent, node, name, &mut self.storage, kind)
    }

    pub fn find(&self, start: Node, path: &str) -> Result<Node, Error> {
        structure_helpers::find_node(start, path, &mut FilenameCache, &self.storage)
    }

    /// `open` counts how often the entry's own node is open; no other node is.
    pub fn rm_dir_entry(
        &mut self,
        start: Node,
        path: &str,
        expect_dir: Option<bool>,
        open: usize,
    ) -> Result<Node, Error> {
        let open_counts = match self.find(start, path) {
            Ok(node) => BTreeMap::from([(node, open)]),
            Err(_) => BTreeMap::new(),
        };
        let removed = structure_helpers::rm_dir_entry(
            start,
            path,
            expect_dir,
            false, // renaming is left out
            &open_counts,
            &mut FilenameCache,
            &mut self.storage,
        );
        removed.map(|(node, _)| node)
    }

    /// The first entry that `with_direntries` lists at or above an index; without an index it
    /// begins with `.` and `..`.
    pub fn next_entry(&self, directory: Node, from: Option<DirEntryIndex>) -> Option<Listed> {
        let mut found = None;
        let mut keep_first = |&index: &DirEntryIndex, entry: &DirEntry| {
            let name = &entry.name.bytes[..entry.name.length as usize];
            found = Some(Listed {
                index,
                node: entry.node,
                name: name.to_vec(),
            });
            false
        };
        self.storage
            .with_direntries(directory, from, &mut keep_first);
        found
    }
}

#[derive(Clone, Debug, Default, PartialEq)]
pub struct Listed {
    pub index: DirEntryIndex,
    pub node: Node,
    pub name: Vec<u8>,
}
