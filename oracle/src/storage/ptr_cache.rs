//! Stand-in, inert: a cache that never holds anything.

use super::types::{FileChunkIndex, FileChunkPtr, Node};

pub enum CachedChunkPtr {
    ChunkExists(FileChunkPtr),
    ChunkMissing,
}

#[derive(Default)]
pub struct PtrCache;

impl PtrCache {
    pub fn new() -> Self {
        PtrCache
    }

    pub fn add(&mut self, _pointers: Vec<((Node, FileChunkIndex), CachedChunkPtr)>) {}

    pub fn clear(&mut self) {}
}
