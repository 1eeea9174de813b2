//! Those that are measured, asked in one way: the proved calls with their check, the same without it where they are compiled as Rust (no library
//! has them), and the Rust over its stand-ins. All are asked about names in the root.

use crate::{
    exported::{lentilraft_create, lentilraft_find_node, lentilraft_next_entry, lentilraft_remove, lentilraft_unlink, lentilraft_write},
    laid::{Laid, ROOT, Rooms},
};
use oracle::{
    error::Error,
    filename_cache::FilenameCache,
    runtime::{structure_helpers, types::ChunkSize},
    scope,
    storage::{Storage, types::FileType},
    volume::Volume,
};
use std::{collections::BTreeMap, marker::PhantomData, ops::Range};

/// Room for as many rows of each table.
const ROWS: u64 = 4096;

const CHUNK: ChunkSize = ChunkSize::VALUES[0];

/// Of the Rust's memories.
const PAGE: u64 = 65536;

/// The name of node 1 in the root, where it is a directory.
const SECOND: &str = "d";

/// A volume: files with a name each in one directory.
pub struct Shape {
    /// The root; or node 1, whose entries stand behind those of the root.
    pub directory: u64,
    pub names: Vec<String>,
    /// How many chunks each of the first two files has.
    pub chunks: u64,
}

impl Shape {
    /// Their nodes follow the directories'.
    fn files(&self) -> Range<u64> {
        let first = self.directory + 1;
        first..first + self.names.len() as u64
    }

    /// Those that have chunks.
    fn filled(&self) -> impl Iterator<Item = u64> {
        self.files().take(if self.chunks == 0 { 0 } else { 2 })
    }

    fn content(&self) -> Vec<u8> {
        vec![1; self.chunks as usize * CHUNK as usize]
    }
}

/// What a call tells, 0 where it is nothing; or the number of its refusal.
pub type Answer = Result<u64, u32>;

#[derive(Debug, PartialEq)]
pub struct Entry<'a> {
    pub index: u32,
    pub node: u64,
    pub name: &'a [u8],
}

pub trait Side {
    /// A volume made anew.
    fn renew(&mut self, shape: &Shape);
    /// Whether the proved calls kept their volume sound; the Rust has no check.
    fn assert_sound(&self);

    fn find(&self, name: &str) -> Answer;
    /// An entry is shown where it stands, and its node told.
    fn next_entry(&self, from: u32, see: &mut dyn FnMut(Entry)) -> Answer;
    /// A file. The Rust may look for the name first, as the proved call does.
    fn create(&mut self, name: &str, looks: bool) -> Answer;
    fn unlink(&mut self, name: &str) -> Answer;
    fn remove(&mut self, node: u64) -> Answer;
}

// ---- the proved calls

/// Of the scope: a type, and what unlink may be told to expect.
const REGULAR_FILE: u8 = 1;
const ANYTHING: u8 = 0;

const NOT_OPEN: u64 = 0;

/// Where a name stands in the volume, and what its entry says.
pub struct NameAt {
    name: Range<usize>,
    index: u32,
    node: u64,
}

pub trait Calls {
    fn find(volume: &[u8], name: &[u8]) -> Answer;
    fn next_entry(volume: &[u8], from: u32) -> Result<NameAt, u32>;
    fn create(volume: &mut [u8], name: &[u8]) -> Answer;
    fn unlink(volume: &mut [u8], name: &[u8]) -> Answer;
    fn remove(volume: &mut [u8], node: u64) -> Answer;
}

fn told<T>(number: u32, value: T) -> Result<T, u32> {
    if number == 0 { Ok(value) } else { Err(number) }
}

pub struct Proved<C> {
    volume: Laid,
    calls: PhantomData<C>,
}

impl<C> Proved<C> {
    pub fn new() -> Self {
        let volume = Laid::new(Rooms { nodes: ROWS, entries: ROWS, chunks: ROWS }, CHUNK as u64);
        Proved { volume, calls: PhantomData }
    }

    fn put_names(&mut self, shape: &Shape) {
        let count = shape.names.len() as u64;
        self.volume.put_used(shape.files().end, count + shape.directory);
        if shape.directory != ROOT {
            self.volume.put_directory(ROOT, 1);
            self.volume.put_entry(0, ROOT, shape.directory, 1, SECOND.as_bytes());
        }
        self.volume.put_directory(shape.directory, count);
        for ((node, index), name) in shape.files().zip(1..).zip(&shape.names) {
            self.volume.put_file(node);
            self.volume.put_entry(node - 1, shape.directory, node, index, name.as_bytes());
        }
    }

    fn fill(&mut self, file: u64, bytes: &[u8]) {
        let (memory, mut count) = (&mut self.volume.memory, 0);
        let number = unsafe { lentilraft_write(memory.as_mut_ptr(), memory.len(), file, 0, bytes.as_ptr(), bytes.len(), &mut count) };
        assert_eq!((number, count), (0, bytes.len() as u64));
    }
}

impl<C: Calls> Side for Proved<C> {
    fn renew(&mut self, shape: &Shape) {
        self.volume.renew();
        self.put_names(shape);
        let content = shape.content();
        shape.filled().for_each(|file| self.fill(file, &content));
    }

    fn assert_sound(&self) {
        self.volume.assert_sound();
    }

    fn find(&self, name: &str) -> Answer {
        C::find(&self.volume.memory, name.as_bytes())
    }

    fn next_entry(&self, from: u32, see: &mut dyn FnMut(Entry)) -> Answer {
        let NameAt { name, index, node } = C::next_entry(&self.volume.memory, from)?;
        see(Entry { index, node, name: &self.volume.memory[name] });
        Ok(node)
    }

    fn create(&mut self, name: &str, _looks: bool) -> Answer {
        C::create(&mut self.volume.memory, name.as_bytes())
    }

    fn unlink(&mut self, name: &str) -> Answer {
        C::unlink(&mut self.volume.memory, name.as_bytes())
    }

    fn remove(&mut self, node: u64) -> Answer {
        C::remove(&mut self.volume.memory, node)
    }
}

/// The calls as C has them.
pub struct Checked;

impl Calls for Checked {
    fn find(volume: &[u8], name: &[u8]) -> Answer {
        let mut node = 0;
        let number = unsafe { lentilraft_find_node(volume.as_ptr(), volume.len(), ROOT, name.as_ptr(), name.len(), &mut node) };
        told(number, node)
    }

    fn next_entry(volume: &[u8], from: u32) -> Result<NameAt, u32> {
        let (mut at, mut length, mut index, mut node) = (0, 0, 0, 0);
        let number = unsafe { lentilraft_next_entry(volume.as_ptr(), volume.len(), ROOT, from, &mut at, &mut length, &mut index, &mut node) };
        told(number, NameAt { name: at as usize..(at + length) as usize, index, node })
    }

    fn create(volume: &mut [u8], name: &[u8]) -> Answer {
        let mut node = 0;
        let number = unsafe { lentilraft_create(volume.as_mut_ptr(), volume.len(), ROOT, name.as_ptr(), name.len(), REGULAR_FILE, &mut node) };
        told(number, node)
    }

    fn unlink(volume: &mut [u8], name: &[u8]) -> Answer {
        let mut node = 0;
        let number = unsafe { lentilraft_unlink(volume.as_mut_ptr(), volume.len(), ROOT, name.as_ptr(), name.len(), ANYTHING, NOT_OPEN, &mut node) };
        told(number, node)
    }

    fn remove(volume: &mut [u8], node: u64) -> Answer {
        told(unsafe { lentilraft_remove(volume.as_mut_ptr(), volume.len(), node) }, 0)
    }
}

/// What stands behind the check, in crates/directories.
#[cfg(plain)]
pub struct Worker;

#[cfg(plain)]
fn laid_out(volume: &[u8]) -> tables::Tables<'_> {
    tables::Tables { bytes: volume, layout: volume::read_layout(volume) }
}

#[cfg(plain)]
impl Calls for Worker {
    fn find(volume: &[u8], name: &[u8]) -> Answer {
        directories::find_node(&laid_out(volume), ROOT, name).map_err(u32::from)
    }

    fn next_entry(volume: &[u8], from: u32) -> Result<NameAt, u32> {
        let tables = laid_out(volume);
        let place = directories::next_place(&tables, ROOT, from as u64).map_err(u32::from)?;
        let at = tables.name_start(place);
        Ok(NameAt {
            name: at..at + tables.entry_name(place).len(),
            index: tables.entry_index(place) as u32,
            node: tables.entry_node(place),
        })
    }

    fn create(volume: &mut [u8], name: &[u8]) -> Answer {
        let layout = volume::read_layout(volume);
        directories::create(volume, layout, ROOT, name, REGULAR_FILE).map_err(u32::from)
    }

    fn unlink(volume: &mut [u8], name: &[u8]) -> Answer {
        let layout = volume::read_layout(volume);
        directories::unlink(volume, layout, ROOT, name, types::Expected::Any, NOT_OPEN).map_err(u32::from)
    }

    fn remove(volume: &mut [u8], node: u64) -> Answer {
        let layout = volume::read_layout(volume);
        directories::remove(volume, layout, node).map_err(u32::from)
    }
}

// ---- the Rust

/// Asked by its own functions: the oracle's do more, since they see to what the scope asks for.
pub struct Rust(Volume);

impl Rust {
    pub fn new() -> Self {
        Rust(Volume::new(CHUNK))
    }

    fn create_in(&mut self, directory: u64, name: &str, kind: FileType) -> Answer {
        structure_helpers::create_dir_entry(directory, name.as_bytes(), kind, &mut self.0.storage, 0).map_err(number)
    }
}

fn number(error: Error) -> u32 {
    scope::number(error).expect("an error of the domain") as u32
}

impl Side for Rust {
    /// Its memory is grown from the start, since the proved calls are lent theirs.
    fn renew(&mut self, shape: &Shape) {
        self.0 = Volume::new(CHUNK);
        self.0.grow(2 * shape.chunks * CHUNK as u64 / PAGE);
        if shape.directory != ROOT {
            assert_eq!(self.create_in(ROOT, SECOND, FileType::Directory), Ok(shape.directory));
        }
        for (node, name) in shape.files().zip(&shape.names) {
            assert_eq!(self.create_in(shape.directory, name, FileType::RegularFile), Ok(node));
        }
        let content = shape.content();
        for file in shape.filled() {
            assert_eq!(self.0.write(file, 0, &content).ok(), Some(content.len() as u64));
        }
    }

    fn assert_sound(&self) {}

    fn find(&self, name: &str) -> Answer {
        structure_helpers::find_node(ROOT, name, &mut FilenameCache, &self.0.storage).map_err(number)
    }

    fn next_entry(&self, from: u32, see: &mut dyn FnMut(Entry)) -> Answer {
        let mut answer = Err(scope::NO_SUCH_ENTRY as u32);
        self.0.storage.with_direntries(ROOT, Some(from), &mut |&index, entry| {
            see(Entry { index, node: entry.node, name: &entry.name.bytes[..entry.name.length as usize] });
            answer = Ok(entry.node);
            false
        });
        answer
    }

    fn create(&mut self, name: &str, looks: bool) -> Answer {
        if !looks {
            return self.create_in(ROOT, name, FileType::RegularFile);
        }
        let created = structure_helpers::create_path(ROOT, name, Some(FileType::RegularFile), 0, &mut self.0.storage);
        created.map(|(node, _)| node).map_err(number)
    }

    fn unlink(&mut self, name: &str) -> Answer {
        let none_open = BTreeMap::new();
        let unlinked = structure_helpers::rm_dir_entry(ROOT, name, None, false, &none_open, &mut FilenameCache, &mut self.0.storage);
        unlinked.map(|(node, _)| node).map_err(number)
    }

    fn remove(&mut self, node: u64) -> Answer {
        self.0.remove(node).map(|()| 0).map_err(number)
    }
}
