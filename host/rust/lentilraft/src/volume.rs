//! The calls on a volume.

use std::fmt;

use crate::entries::{self, Entries, Entry};
use crate::error::Result;
use crate::ffi;
use crate::rows::{Geometry, Info, Rows, Stretch};
use crate::search::{self, Search};
use crate::types::{ChunkSize, Expected, Kind, Node, Rooms};

/// How many bytes every report fits into.
const REPORT: usize = 512;

/// A volume in one memory, which is owned or lent: `Vec<u8>`, `Box<[u8]>`, `&mut [u8]`, and
/// `&[u8]` for the calls that only read.
///
/// A call is carried out in full, or it is refused and has changed nothing. Every call checks the
/// whole memory first and refuses one that is no sound volume with
/// [`Error::UnsoundMemory`](crate::Error::UnsoundMemory), whatever its bytes are; so there is no
/// harm in a volume that comes from a file or from somebody else. The check is most of what a call
/// costs (docs/PERFORMANCE.md). Where several reasons to refuse hold, the first in the list of the
/// call is given.
#[derive(Clone)]
pub struct Volume<B> {
    memory: B,
}

impl<B: AsRef<[u8]>> Volume<B> {
    /// A volume over bytes that hold one already. Nothing is checked here: every call checks.
    pub fn over(bytes: B) -> Volume<B> {
        Volume { memory: bytes }
    }

    /// The volume's bytes.
    pub fn bytes(&self) -> &[u8] {
        self.memory.as_ref()
    }

    /// Gives the memory back.
    pub fn into_inner(self) -> B {
        self.memory
    }

    /// Whether the memory is a sound volume.
    ///
    /// # Errors
    ///
    /// `UnsoundMemory`: it is not.
    pub fn check(&self) -> Result<()> {
        ffi::check(self.bytes())
    }

    /// Reads bytes of a file from an offset on, and tells how many: as many as the buffer has, or
    /// as the file has behind the offset. Bytes that were never written read as zero. The buffer
    /// stays as it was behind the bytes read.
    ///
    /// # Errors
    ///
    /// `UnsoundMemory`. `NoSuchEntry`: no such node. `IsDirectory`.
    pub fn read(&self, node: Node, offset: u64, buffer: &mut [u8]) -> Result<usize> {
        ffi::read(self.bytes(), node.0, offset, buffer).map(|count| count as usize)
    }

    /// Finds the node that a path leads to from a start.
    ///
    /// Parts stand between `/`; empty parts and `.` are dropped, and `..` drops the part before
    /// it. A path with no parts left leads to the start itself. Symbolic links are not followed.
    ///
    /// Any other path that ends with `/`, `/.` or `/..` means a directory: it must lead to one, or
    /// to a symbolic link.
    ///
    /// # Errors
    ///
    /// `UnsoundMemory`. `InvalidArgument`: the path has more than 4,096 bytes. `PathNotPermitted`:
    /// a leading `/`, or a `..` with no part before it. `NoSuchEntry`: no such start. Then part by
    /// part, `BadName`: more than 255 bytes; or `NoSuchEntry`: no entry of that name there.
    /// `NotDirectory`: the path means a directory, and leads to a file.
    ///
    /// ```
    /// use lentilraft::{ChunkSize, Error, Kind, Rooms, Volume, ROOT};
    ///
    /// # let rooms = Rooms { nodes: 4, entries: 4, chunks: 4 };
    /// # let memory = vec![0; rooms.least_length() as usize];
    /// # let mut volume = Volume::new(memory, rooms, ChunkSize::K4)?;
    /// let traces = volume.create(ROOT, b"traces", Kind::Directory)?;
    /// let file = volume.create(traces, b"hood-7", Kind::File)?;
    /// assert_eq!(volume.find(ROOT, b"traces/hood-7"), Ok(file));
    /// assert_eq!(volume.find(ROOT, b"traces/"), Ok(traces));
    /// assert_eq!(volume.find(ROOT, b"traces/hood-7/"), Err(Error::NotDirectory));
    /// # Ok::<(), Error>(())
    /// ```
    pub fn find(&self, start: Node, path: &[u8]) -> Result<Node> {
        ffi::find_node(self.bytes(), start.0, path).map(Node)
    }

    /// The entry of a directory with the least index at or above one. See also
    /// [`entries`](Volume::entries), which gives all of them.
    ///
    /// # Errors
    ///
    /// `UnsoundMemory`. `NoSuchEntry`: no such node. `NotDirectory`. `NoSuchEntry`: no such entry.
    pub fn next_entry(&self, directory: Node, from: u32) -> Result<Entry<'_>> {
        entries::next_entry(self.bytes(), directory, from)
    }

    /// All entries of a directory, in index order: those that were entered first come first. Their
    /// names stand in the volume, so that it can't be changed while one is held.
    ///
    /// Each step is a call of [`next_entry`](Volume::next_entry). A refusal is given once, and
    /// ends the entries; that there is no further entry ends them without one.
    pub fn entries(&self, directory: Node) -> Entries<'_> {
        Entries::of(self.bytes(), directory)
    }

    /// Searches a directory for a name, which is one name and no path: looks, in index order, at
    /// the entries whose index is at or above `from`, and at no more than `most` of them. So a very
    /// large directory can be looked through a part at a time.
    ///
    /// A search that has stopped goes on from the index that it tells, with a `most` above 0. If
    /// the directory is not changed in between, it ends as one search does, and the numbers looked
    /// at add up to that one's. `u64::MAX` is no limit.
    ///
    /// # Errors
    ///
    /// `UnsoundMemory`. `NoSuchEntry`: no such node. `NotDirectory`. `BadName`: a name that
    /// [`create`](Volume::create) would not take.
    ///
    /// ```
    /// use lentilraft::{ChunkSize, Error, Kind, Rooms, Search, Volume, ROOT};
    ///
    /// # let rooms = Rooms { nodes: 4, entries: 4, chunks: 4 };
    /// # let memory = vec![0; rooms.least_length() as usize];
    /// # let mut volume = Volume::new(memory, rooms, ChunkSize::K4)?;
    /// volume.create(ROOT, b"hood-7", Kind::File)?;
    /// volume.create(ROOT, b"hood-8", Kind::File)?;
    /// let file = volume.create(ROOT, b"hood-9", Kind::File)?;
    ///
    /// // Two entries at a time.
    /// let stopped = Search::Stopped { index: 3, looked: 2 };
    /// assert_eq!(volume.search(ROOT, b"hood-9", 0, 2), Ok(stopped));
    /// let found = Search::Found { index: 3, node: file, looked: 1 };
    /// assert_eq!(volume.search(ROOT, b"hood-9", 3, 2), Ok(found));
    ///
    /// // All that there are.
    /// let absent = Search::Absent { looked: 3 };
    /// assert_eq!(volume.search(ROOT, b"hood-10", 0, u64::MAX), Ok(absent));
    /// # Ok::<(), Error>(())
    /// ```
    pub fn search(&self, directory: Node, name: &[u8], from: u32, most: u64) -> Result<Search> {
        search::search(self.bytes(), directory, name, from, most)
    }

    /// The report: lines `key=value` in a fixed order, each ended by a newline.
    ///
    /// # Errors
    ///
    /// `UnsoundMemory`.
    pub fn report(&self) -> Result<String> {
        let mut text = [0; REPORT];
        let count = ffi::report(self.bytes(), &mut text)?;
        let text = text[..count as usize].to_vec();
        Ok(String::from_utf8(text).expect("a report is plain ASCII"))
    }

    /// The volume's rows, checked once: for many questions of [`node`](Volume::node),
    /// [`written`](Volume::written), [`geometry`](Volume::geometry) and
    /// [`entries`](Volume::entries), each of which checks the volume for itself.
    ///
    /// What the rows say is read off by plain Rust, once the proved check has found the volume
    /// sound. It is not proved itself.
    ///
    /// # Errors
    ///
    /// `UnsoundMemory`.
    pub fn rows(&self) -> Result<Rows<'_>> {
        Rows::checked(self.bytes())
    }

    /// What the volume knows of a node.
    ///
    /// This is read off the volume's rows by plain Rust, once the proved check has found it sound.
    /// It is not proved itself.
    ///
    /// # Errors
    ///
    /// `UnsoundMemory`. `NoSuchEntry`: no such node.
    pub fn node(&self, node: Node) -> Result<Info> {
        self.rows()?.node(node)
    }

    /// The stretches of a file's bytes that have a chunk, in ascending order; those that touch are
    /// given as one. All other bytes of the file are holes, which take no room and read as zero.
    ///
    /// This is read off the volume's rows by plain Rust, once the proved check has found it sound.
    /// It is not proved itself.
    ///
    /// # Errors
    ///
    /// `UnsoundMemory`. `NoSuchEntry`: no such node. `IsDirectory`.
    pub fn written(&self, node: Node) -> Result<Vec<Stretch>> {
        self.rows()?.written(node)
    }

    /// What the volume has room for, and how much of it is used.
    ///
    /// This is read off the volume's header by plain Rust, once the proved check has found it
    /// sound. It is not proved itself.
    ///
    /// # Errors
    ///
    /// `UnsoundMemory`.
    pub fn geometry(&self) -> Result<Geometry> {
        self.rows().map(|rows| rows.geometry())
    }
}

impl<B: AsRef<[u8]> + AsMut<[u8]>> Volume<B> {
    /// Makes a new volume of all of a memory, whatever it held. It has one node, the
    /// [`ROOT`](crate::ROOT).
    ///
    /// The memory needs [`Rooms::least_length`] bytes, and may have more;
    /// [`Rooms::length_for`] says how many let all chunks be used.
    ///
    /// A refusal gives the memory up: lend it (`&mut bytes[..]`) to keep it. The bytes are
    /// unchanged then.
    ///
    /// # Errors
    ///
    /// `InvalidArgument`: a room that is not 1 to 4,096, or a memory too short for the rooms.
    ///
    /// ```
    /// use lentilraft::{ChunkSize, Error, Rooms, Volume};
    ///
    /// let rooms = Rooms { nodes: 1, entries: 1, chunks: 1 };
    /// let mut memory = vec![7; rooms.least_length() as usize - 1];
    /// let refused = Volume::new(&mut memory[..], rooms, ChunkSize::K4);
    /// assert_eq!(refused.unwrap_err(), Error::InvalidArgument);
    ///
    /// memory.push(7);
    /// let volume = Volume::new(memory, rooms, ChunkSize::K4)?;
    /// assert_eq!(volume.check(), Ok(()));
    /// # Ok::<(), Error>(())
    /// ```
    pub fn new(bytes: B, rooms: Rooms, size: ChunkSize) -> Result<Volume<B>> {
        let mut memory = bytes;
        ffi::new_volume(
            memory.as_mut(),
            rooms.nodes,
            rooms.entries,
            rooms.chunks,
            size.bytes(),
        )?;
        Ok(Volume { memory })
    }

    /// Sets the chunk size, as long as no chunk was ever given out.
    ///
    /// # Errors
    ///
    /// `UnsoundMemory`. `InvalidArgument`: another size than now after a chunk was given out, also
    /// if all chunks are free again.
    pub fn set_chunk_size(&mut self, size: ChunkSize) -> Result<()> {
        ffi::set_chunk_size(self.memory.as_mut(), size.bytes())
    }

    /// Writes bytes into a file at an offset, and tells how many: all of them. A gap before them
    /// costs nothing and reads as zero until it is written. A write of no bytes changes nothing,
    /// at any offset.
    ///
    /// # Errors
    ///
    /// `UnsoundMemory`. `NoSuchEntry`: no such node. `IsDirectory`. `FileTooLarge`: the end lies
    /// above the file's limit. `NoChunkRoom`: no room for the chunks.
    pub fn write(&mut self, node: Node, offset: u64, bytes: &[u8]) -> Result<usize> {
        ffi::write(self.memory.as_mut(), node.0, offset, bytes).map(|count| count as usize)
    }

    /// Cuts or extends a file. What lies above its old size reads as zero; what is cut off is
    /// gone. It takes no chunk, so that it needs no room.
    ///
    /// # Errors
    ///
    /// `UnsoundMemory`. `NoSuchEntry`: no such node. `IsDirectory`. `FileTooLarge`: above the
    /// file's limit.
    pub fn resize(&mut self, node: Node, size: u64) -> Result<()> {
        ffi::resize_file(self.memory.as_mut(), node.0, size)
    }

    /// Sets a limit of a file's size, at most 2^40 and not below its size; or clears it, so that
    /// 2^40 is the limit.
    ///
    /// # Errors
    ///
    /// `UnsoundMemory`. `NoSuchEntry`: no such node. `IsDirectory`. `InvalidArgument`: above 2^40.
    /// `FileTooLarge`: below the file's size.
    pub fn set_limit(&mut self, node: Node, limit: Option<u64>) -> Result<()> {
        match limit {
            Some(limit) => ffi::set_limit(self.memory.as_mut(), node.0, limit),
            None => ffi::clear_limit(self.memory.as_mut(), node.0),
        }
    }

    /// Makes a node of a kind and names it in a directory. It has one link, no bytes and no limit.
    ///
    /// A name has 1 to 255 bytes and no `/`, and is neither `.` nor `..`.
    ///
    /// # Errors
    ///
    /// `UnsoundMemory`. `NoSuchEntry`: no such parent, or one without links. `NotDirectory`: the
    /// parent. `BadName`. `NameExists`. `NoRowRoom`. `NoIndexLeft`.
    pub fn create(&mut self, parent: Node, name: &[u8], kind: Kind) -> Result<Node> {
        ffi::create(self.memory.as_mut(), parent.0, name, kind as u8).map(Node)
    }

    /// Names a file or a symbolic link once more, in a directory. It may be one whose last name
    /// was unlinked.
    ///
    /// # Errors
    ///
    /// `UnsoundMemory`. `NoSuchEntry`: no such parent, or one without links. `NotDirectory`: the
    /// parent. `BadName`. `NoSuchEntry`: no such target. `IsDirectory`: the target. `NameExists`.
    /// `NoRowRoom`. `NoIndexLeft`.
    pub fn link(&mut self, parent: Node, name: &[u8], target: Node) -> Result<()> {
        ffi::link(self.memory.as_mut(), parent.0, name, target.0)
    }

    /// Takes the name that a path leads to from a start out of its directory, and tells the node
    /// that it named. The node and its bytes stay, also without a name:
    /// [`link`](Volume::link) names a file again, [`remove`](Volume::remove) takes a node away.
    ///
    /// `opens` is how many have the node open. The volume does not count that itself.
    ///
    /// # Errors
    ///
    /// `UnsoundMemory`. Those of [`find`](Volume::find), with `NotDirectory` for a path that means
    /// a directory and leads to a file; `PathNotPermitted` also for a path with no parts.
    /// `IsDirectory`: a file was expected. `DirectoryNotEmpty`. `NotDirectory`: a directory was
    /// expected. `Busy`: it is open, and this is its last name.
    pub fn unlink(
        &mut self,
        start: Node,
        path: &[u8],
        expected: Expected,
        opens: u64,
    ) -> Result<Node> {
        ffi::unlink(self.memory.as_mut(), start.0, path, expected as u8, opens).map(Node)
    }

    /// Takes a node away that has no name left, and frees its chunks.
    ///
    /// # Errors
    ///
    /// `UnsoundMemory`. `NoSuchEntry`: no such node. `Busy`: it has a name, or is the root.
    ///
    /// ```
    /// use lentilraft::{ChunkSize, Error, Expected, Kind, Rooms, Volume, ROOT};
    ///
    /// # let rooms = Rooms { nodes: 4, entries: 4, chunks: 4 };
    /// # let memory = vec![0; rooms.least_length() as usize];
    /// # let mut volume = Volume::new(memory, rooms, ChunkSize::K4)?;
    /// let file = volume.create(ROOT, b"hood-7", Kind::File)?;
    /// assert_eq!(volume.remove(file), Err(Error::Busy));
    ///
    /// assert_eq!(volume.unlink(ROOT, b"hood-7", Expected::File, 0), Ok(file));
    /// assert_eq!(volume.remove(file), Ok(()));
    /// assert_eq!(volume.remove(file), Err(Error::NoSuchEntry));
    /// # Ok::<(), Error>(())
    /// ```
    pub fn remove(&mut self, node: Node) -> Result<()> {
        ffi::remove(self.memory.as_mut(), node.0)
    }
}

impl<B: AsRef<[u8]>> fmt::Debug for Volume<B> {
    /// Tells how long the volume is, and none of its bytes.
    fn fmt(&self, f: &mut fmt::Formatter<'_>) -> fmt::Result {
        f.debug_struct("Volume")
            .field("length", &self.bytes().len())
            .finish_non_exhaustive()
    }
}
