//! Stand-in that decides two things: node 0 stands from the start (a directory, links 1, size 0),
//! and metadata takes no chunk, so that pointers are those of file data alone.

use super::{
    allocator::ChunkPtrAllocator,
    ptr_cache::PtrCache,
    stable::V2FileChunks,
    types::{FileChunk, FileChunkIndex, FileChunkPtr, FileType, Metadata, Node},
};
use ic_stable_structures::{BTreeMap, Memory, memory_manager::VirtualMemory};
use std::marker::PhantomData;

type Rows<T, M> = BTreeMap<(Node, FileChunkIndex), T, VirtualMemory<M>>;

pub struct MetadataProvider<M: Memory> {
    records: std::collections::BTreeMap<(Node, bool), Metadata>,
    memory: PhantomData<M>,
}

impl<M: Memory> MetadataProvider<M> {
    pub fn new(_metadata: VirtualMemory<M>, _mounted: VirtualMemory<M>) -> Self {
        let root = Metadata {
            file_type: FileType::Directory,
            link_count: 1,
            ..Metadata::default()
        };
        MetadataProvider {
            records: [((0, false), root)].into(),
            memory: PhantomData,
        }
    }

    pub fn get_metadata(
        &self,
        node: Node,
        is_mounted: bool,
        _pointers: &Rows<FileChunkPtr, M>,
        _chunks: &VirtualMemory<M>,
    ) -> Option<(Metadata, Option<FileChunkPtr>)> {
        let record = self.records.get(&(node, is_mounted))?;
        Some((record.clone(), None))
    }

    pub fn put_metadata(
        &mut self,
        node: Node,
        is_mounted: bool,
        metadata: &Metadata,
        _pointer: Option<FileChunkPtr>,
        _chunks: &mut V2FileChunks<M>,
    ) {
        self.records.insert((node, is_mounted), metadata.clone());
    }

    pub fn remove_metadata(
        &mut self,
        node: Node,
        _cache: &mut PtrCache,
        _v1_chunks: &mut Rows<FileChunk, M>,
        _pointers: &mut Rows<FileChunkPtr, M>,
        _allocator: &mut ChunkPtrAllocator<M>,
    ) {
        self.records.remove(&(node, false));
    }
}
