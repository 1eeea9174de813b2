//! Stand-in that decides the order: each index once, ascending, from the one that holds `offset`
//! to the one that holds the byte before `last_address`. Further ones would change nothing, since
//! both loops over it stop when their bytes are done.

use super::{
    ptr_cache::{CachedChunkPtr, PtrCache},
    types::{FileChunkIndex, FileChunkPtr, FileSize, Node},
};
use ic_stable_structures::{BTreeMap, Memory, memory_manager::VirtualMemory};

type Pointers<M> = BTreeMap<(Node, FileChunkIndex), FileChunkPtr, VirtualMemory<M>>;

pub struct ChunkV2Iterator<'a, M: Memory> {
    node: Node,
    indexes: std::ops::Range<u64>,
    pointers: &'a Pointers<M>,
}

impl<'a, M: Memory> ChunkV2Iterator<'a, M> {
    pub fn new(
        node: Node,
        offset: FileSize,
        last_address: FileSize,
        chunk_size: FileSize,
        _cache: &'a mut PtrCache,
        pointers: &'a mut Pointers<M>,
    ) -> Self {
        ChunkV2Iterator {
            node,
            indexes: offset / chunk_size..last_address.div_ceil(chunk_size),
            pointers,
        }
    }
}

impl<M: Memory> Iterator for ChunkV2Iterator<'_, M> {
    type Item = ((Node, FileChunkIndex), CachedChunkPtr);

    fn next(&mut self) -> Option<Self::Item> {
        let key = (self.node, self.indexes.next()? as FileChunkIndex);
        let pointer = match self.pointers.get(&key) {
            Some(pointer) => CachedChunkPtr::ChunkExists(pointer),
            None => CachedChunkPtr::ChunkMissing,
        };
        Some((key, pointer))
    }
}
