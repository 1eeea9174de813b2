//! Lentilraft: a proved store for sparse measurement files in one memory.
//!
//! A [`Volume`] is a memory that holds files and directories. Files may have gaps, which take no
//! room and read as zero until they are written. A call is carried out in full, or it is refused
//! with an [`Error`] and has changed nothing. The memory may come from anywhere: every call checks
//! that it is a sound volume first, and any bytes get an answer.
//!
//! The calls are written and proved in Rattle, and come as an archive that `bash host/archive rim`
//! makes (docs/PROVED.md says what is proved). This crate links the archive and gives its calls the
//! form that is usual in Rust. It keeps nothing of its own, so it has nothing to prove but that it
//! hands on what it is given. Four calls are the exception: [`Volume::node`], [`Volume::written`],
//! [`Volume::geometry`] and [`Volume::rows`] read rows by plain Rust, once the proved check has
//! found the volume sound.
//!
//! The archive is for Linux on x86-64.
//!
//! # A new volume
//!
//! Files and directories are nodes, and a node has a number. [`ROOT`] is there from the start.
//!
//! ```
//! use lentilraft::{ChunkSize, Kind, Rooms, Volume, ROOT};
//!
//! # fn main() -> lentilraft::Result<()> {
//! let rooms = Rooms { nodes: 16, entries: 16, chunks: 16 };
//! let memory = vec![0; rooms.length_for(ChunkSize::K4) as usize];
//! let mut volume = Volume::new(memory, rooms, ChunkSize::K4)?;
//!
//! let traces = volume.create(ROOT, b"traces", Kind::Directory)?;
//! let file = volume.create(traces, b"hood-7", Kind::File)?;
//! assert_eq!(volume.find(ROOT, b"traces/hood-7"), Ok(file));
//! # Ok(())
//! # }
//! ```
//!
//! # A write behind a gap
//!
//! ```
//! # use lentilraft::{ChunkSize, Kind, Rooms, Stretch, Volume, ROOT};
//! # fn main() -> lentilraft::Result<()> {
//! # let rooms = Rooms { nodes: 16, entries: 16, chunks: 16 };
//! # let memory = vec![0; rooms.length_for(ChunkSize::K4) as usize];
//! # let mut volume = Volume::new(memory, rooms, ChunkSize::K4)?;
//! # let file = volume.create(ROOT, b"hood-7", Kind::File)?;
//! volume.write(file, 1_000_000, b"0.52 m/s")?;
//!
//! let mut buffer = [0xff; 8];
//! assert_eq!(volume.read(file, 0, &mut buffer), Ok(8));
//! assert_eq!(buffer, [0; 8]);
//! assert_eq!(volume.read(file, 1_000_004, &mut buffer), Ok(4));
//! assert_eq!(&buffer[..4], b" m/s");
//!
//! // The gap takes no room: there is one chunk, and it begins a little before the bytes.
//! assert_eq!(volume.geometry()?.used.chunks, 1);
//! assert_eq!(volume.written(file)?, [Stretch { start: 999_424, end: 1_000_008 }]);
//! # Ok(())
//! # }
//! ```
//!
//! # A folder listed
//!
//! ```
//! # use lentilraft::{ChunkSize, Kind, Rooms, Volume, ROOT};
//! # fn main() -> lentilraft::Result<()> {
//! # let rooms = Rooms { nodes: 16, entries: 16, chunks: 16 };
//! # let memory = vec![0; rooms.length_for(ChunkSize::K4) as usize];
//! # let mut volume = Volume::new(memory, rooms, ChunkSize::K4)?;
//! # volume.create(ROOT, b"hood-7", Kind::File)?;
//! # volume.create(ROOT, b"hood-8", Kind::File)?;
//! for entry in volume.entries(ROOT) {
//!     let entry = entry?;
//!     println!("{} {}", entry.node, String::from_utf8_lossy(entry.name));
//! }
//! # let names: Vec<_> = volume.entries(ROOT).map(|entry| entry.unwrap().name).collect();
//! # assert_eq!(names, [b"hood-7", b"hood-8"]);
//! # Ok(())
//! # }
//! ```
//!
//! # A volume that is not sound
//!
//! ```
//! # use lentilraft::{ChunkSize, Kind, Rooms, Volume, ROOT};
//! # fn main() -> lentilraft::Result<()> {
//! # let rooms = Rooms { nodes: 16, entries: 16, chunks: 16 };
//! # let memory = vec![0; rooms.length_for(ChunkSize::K4) as usize];
//! # let mut volume = Volume::new(memory, rooms, ChunkSize::K4)?;
//! # volume.create(ROOT, b"hood-7", Kind::File)?;
//! use lentilraft::Error;
//!
//! let mut bytes = volume.into_inner();
//! bytes[40] ^= 1; // how many entries are used, says the header
//!
//! let mut broken = Volume::over(&mut bytes[..]);
//! assert_eq!(broken.find(ROOT, b"hood-7"), Err(Error::UnsoundMemory));
//! assert_eq!(broken.create(ROOT, b"hood-8", Kind::File), Err(Error::UnsoundMemory));
//!
//! // Nothing was changed by that: with the byte as it was, all is there.
//! bytes[40] ^= 1;
//! assert!(Volume::over(bytes).find(ROOT, b"hood-7").is_ok());
//! # Ok(())
//! # }
//! ```

#![deny(missing_docs, unsafe_code)]

mod entries;
mod error;
#[allow(unsafe_code)]
mod ffi;
mod rows;
mod search;
mod types;
mod volume;

pub use entries::{Entries, Entry};
pub use error::{Error, Result};
pub use rows::{Geometry, Info, Rows, Stretch};
pub use search::Search;
pub use types::{ChunkSize, Expected, Kind, Node, Rooms, ROOT};
pub use volume::Volume;

/// Opens an allocator, on its words only, which stand by themselves in a memory of their own: an
/// unset chunk size becomes 16,384, and an old marker the new one. A volume's own allocator needs
/// no opening.
///
/// # Errors
///
/// `InvalidArgument`: under 128 bytes. `UnsoundMemory`: words that no allocator left.
///
/// ```
/// let mut words = [0; 128];
/// words[..4].copy_from_slice(b"ALO1");
/// lentilraft::open_allocator(&mut words)?;
/// assert_eq!(&words[..4], b"FSA1");
/// # Ok::<(), lentilraft::Error>(())
/// ```
pub fn open_allocator(words: &mut [u8]) -> Result<()> {
    ffi::open_allocator(words)
}
