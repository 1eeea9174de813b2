//! Stand-in that decides which chunk sizes `VALUES` holds: the scope's five. Of the Rust's own list
//! only a comment in stable.rs tells, which names 4K, 16K and 64K.

#[derive(Clone, Copy, Debug, PartialEq, Eq)]
pub enum ChunkSize {
    CHUNK4K = 4096,
    CHUNK8K = 8192,
    CHUNK16K = 16384,
    CHUNK32K = 32768,
    CHUNK64K = 65536,
}

impl ChunkSize {
    pub const VALUES: [Self; 5] = [
        Self::CHUNK4K,
        Self::CHUNK8K,
        Self::CHUNK16K,
        Self::CHUNK32K,
        Self::CHUNK64K,
    ];
}

#[derive(Clone, Copy, Debug, PartialEq, Eq, serde::Serialize, serde::Deserialize)]
pub enum ChunkType {
    V1,
    V2,
}
