include!(concat!(
    env!("RUST_FOLDER"),
    "/stable-fs/src/storage/stable.rs"
));

impl<M: Memory> StableStorage<M> {
    /// The V1 chunk rows, private in the file.
    pub fn v1_rows(&self) -> Vec<(Node, FileChunkIndex)> {
        self.filechunk.keys_range(..).collect()
    }

    /// Lets a run begin where only very many creates would lead.
    pub fn set_next_node(&mut self, next_node: Node) {
        let mut header = self.header.get().clone();
        header.next_node = next_node;
        self.header.set(header);
    }
}
