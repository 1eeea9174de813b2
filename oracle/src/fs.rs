//! Stand-in, inert: types.rs takes this name from here.

pub use crate::runtime::types::ChunkType;
