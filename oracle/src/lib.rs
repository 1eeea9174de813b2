//! The four Rust files, unchanged, over stand-ins for what they lean on, and four ways to ask
//! them: `AllocatorWords` (allocator.rs alone), `path_parts`, `Volume` (the whole storage) and
//! `Numbered` (the same by the scope's calls and node numbers).
//!
//! The first five modules lie as in stable-fs/src. The first line of a stand-in says whether it
//! is inert or decides something; the others include one of the four files.

pub mod error;
pub mod filename_cache;
pub mod fs;
pub mod runtime;
pub mod storage;

pub mod allocator_words;
pub mod bytes;
pub mod calls;
pub mod caught;
pub mod numbered;
pub mod scope;
pub mod volume;
