include!(concat!(
    env!("RUST_FOLDER"),
    "/stable-fs/src/storage/allocator.rs"
));

impl<M: Memory> ChunkPtrAllocator<M> {
    /// `read_u64` is private in the file.
    pub fn word(&self, index: u64) -> u64 {
        self.read_u64(index)
    }
}
