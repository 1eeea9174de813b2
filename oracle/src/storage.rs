//! Stand-in, inert: the trait's signatures, read off its impl in stable.rs.

pub mod allocator;
pub mod chunk_iterator;
pub mod metadata_provider;
pub mod ptr_cache;
pub mod stable;
#[allow(dead_code)] // of the Rust file, which stays as it is
pub mod types;

use crate::{
    error::Error,
    runtime::types::{ChunkSize, ChunkType},
};
use ic_stable_structures::Memory;
use types::{DirEntry, DirEntryIndex, FileName, FileSize, Metadata, MountedFileSizePolicy, Node};

pub trait Storage {
    fn root_node(&self) -> Node;
    fn new_node(&mut self) -> Node;
    fn get_version(&self) -> u32;
    fn get_metadata(&self, node: Node) -> Result<Metadata, Error>;
    fn put_metadata(&mut self, node: Node, metadata: &Metadata) -> Result<(), Error>;
    fn get_direntry(&self, node: Node, index: DirEntryIndex) -> Result<DirEntry, Error>;
    fn get_direntry_index_by_name(&self, key: &(Node, FileName)) -> Option<DirEntryIndex>;
    fn new_direntry_index(&self, node: Node) -> DirEntryIndex;
    fn with_direntries(
        &self,
        node: Node,
        initial_index: Option<DirEntryIndex>,
        f: &mut dyn FnMut(&DirEntryIndex, &DirEntry) -> bool,
    );
    fn put_direntry(&mut self, node: Node, index: DirEntryIndex, entry: DirEntry);
    fn rm_direntry(&mut self, node: Node, index: DirEntryIndex);
    fn read(&mut self, node: Node, offset: FileSize, buf: &mut [u8]) -> Result<FileSize, Error>;
    fn write(&mut self, node: Node, offset: FileSize, buf: &[u8]) -> Result<FileSize, Error>;
    fn resize_file(&mut self, node: Node, new_size: FileSize) -> Result<(), Error>;
    fn rm_file(&mut self, node: Node) -> Result<(), Error>;
    fn mount_node(
        &mut self,
        node: Node,
        memory: Box<dyn Memory>,
        policy: MountedFileSizePolicy,
    ) -> Result<(), Error>;
    fn unmount_node(&mut self, node: Node) -> Result<Box<dyn Memory>, Error>;
    fn is_mounted(&self, node: Node) -> bool;
    fn get_mounted_memory(&self, node: Node) -> Option<&dyn Memory>;
    fn init_mounted_memory(&mut self, node: Node) -> Result<(), Error>;
    fn store_mounted_memory(&mut self, node: Node) -> Result<(), Error>;
    fn set_chunk_size(&mut self, chunk_size: ChunkSize) -> Result<(), Error>;
    fn chunk_size(&self) -> usize;
    fn set_chunk_type(&mut self, chunk_type: ChunkType);
    fn chunk_type(&self) -> ChunkType;
    fn flush(&mut self, node: Node);
}
