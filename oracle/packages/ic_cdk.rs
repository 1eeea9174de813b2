//! Stand-in, inert: the page size of WebAssembly, which is public knowledge.

pub mod stable {
    pub const WASM_PAGE_SIZE_IN_BYTES: u64 = 65536;
}
