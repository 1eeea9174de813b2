//! The four that are measured, asked in one way: the proved calls with their check and without it, the Rust over its stand-ins, and plain copies.

use crate::{
    exported::{lentilraft_read, lentilraft_write},
    laid::{Laid, ROOT, Rooms},
};
use oracle::{error::Error, runtime::types::ChunkSize, scope, storage::types::FileType, volume::Volume};
use std::ops::Range;

/// The file that is measured, and another one whose chunk rows stand behind its rows.
const FILE: u64 = 1;
const OTHER: u64 = 2;
const NAMES: [u8; 2] = *b"ab";

/// Room of the volume's tables: N and E, then C.
const ROWS: u64 = 8;
pub const CHUNKS: u64 = 4096;

/// Of the Rust's memories.
const PAGE: u64 = 65536;

/// Where a call reads or writes: in the file, and in flat bytes that hold the places of all calls one behind the other.
pub struct Place {
    pub offset: u64,
    pub flat: Range<usize>,
}

/// The number, 0 for carried out, and the count.
pub type Answer = (u32, u64);

pub trait Side {
    /// A volume made anew, with two empty files; the other one then gets so many chunks.
    fn renew(&mut self, others: u64);
    fn write(&mut self, place: &Place, bytes: &[u8]) -> Answer;
    fn read(&mut self, place: &Place, buffer: &mut [u8]) -> Answer;
}

// ---- the proved calls

type Write = unsafe extern "C" fn(*mut u8, usize, u64, u64, *const u8, usize, *mut u64) -> u32;
type Read = unsafe extern "C" fn(*const u8, usize, u64, u64, *mut u8, usize, *mut u64) -> u32;

#[rustfmt::skip]
unsafe extern "C" {
    fn unchecked_write(volume: *mut u8, length: usize, node: u64, offset: u64, bytes: *const u8, bytes_length: usize, count: *mut u64) -> u32;
    fn unchecked_read(volume: *const u8, length: usize, node: u64, offset: u64, buffer: *mut u8, buffer_length: usize, count: *mut u64) -> u32;
}

pub struct Proved {
    chunk: u64,
    volume: Laid,
    write: Write,
    read: Read,
}

impl Proved {
    pub fn checked(chunk: u64) -> Self {
        Self::new(chunk, lentilraft_write, lentilraft_read)
    }

    pub fn worker(chunk: u64) -> Self {
        Self::new(chunk, unchecked_write, unchecked_read)
    }

    fn new(chunk: u64, write: Write, read: Read) -> Self {
        let volume = Laid::new(Rooms { nodes: ROWS, entries: ROWS, chunks: CHUNKS }, chunk);
        Proved { chunk, volume, write, read }
    }

    /// The rows of two empty files.
    fn put_files(&mut self) {
        let files = NAMES.len() as u64;
        self.volume.put_used(files + 1, files);
        self.volume.put_directory(ROOT, files);
        for (node, name) in (FILE..).zip(NAMES) {
            self.volume.put_file(node);
            self.volume.put_entry(node - FILE, ROOT, node, node, &[name]);
        }
    }

    fn ask_write(&mut self, write: Write, node: u64, offset: u64, bytes: &[u8]) -> Answer {
        let (memory, mut count) = (&mut self.volume.memory, 0);
        let number = unsafe { write(memory.as_mut_ptr(), memory.len(), node, offset, bytes.as_ptr(), bytes.len(), &mut count) };
        (number, count)
    }
}

impl Side for Proved {
    fn renew(&mut self, others: u64) {
        self.volume.renew();
        self.put_files();
        self.volume.assert_sound();
        for index in 0..others {
            assert_eq!(self.ask_write(unchecked_write, OTHER, index * self.chunk, &[1]), (0, 1));
        }
    }

    fn write(&mut self, place: &Place, bytes: &[u8]) -> Answer {
        self.ask_write(self.write, FILE, place.offset, bytes)
    }

    fn read(&mut self, place: &Place, buffer: &mut [u8]) -> Answer {
        let (memory, mut count) = (&self.volume.memory, 0);
        let number = unsafe { (self.read)(memory.as_ptr(), memory.len(), FILE, place.offset, buffer.as_mut_ptr(), buffer.len(), &mut count) };
        (number, count)
    }
}

// ---- the Rust

pub struct Rust {
    chunk: ChunkSize,
    volume: Volume,
}

impl Rust {
    pub fn new(chunk: ChunkSize) -> Self {
        Rust { chunk, volume: Volume::new(chunk) }
    }
}

fn told(answer: Result<u64, Error>) -> Answer {
    match answer {
        Ok(count) => (0, count),
        Err(error) => (scope::number(error).expect("an error of the domain") as u32, 0),
    }
}

impl Side for Rust {
    /// Its memory is grown from the start, since the proved calls are lent theirs.
    fn renew(&mut self, others: u64) {
        self.volume = Volume::new(self.chunk);
        self.volume.grow(CHUNKS * self.chunk as u64 / PAGE);
        for (node, name) in (FILE..).zip(NAMES) {
            assert_eq!(self.volume.create(0, &[name], FileType::RegularFile).ok(), Some(node));
        }
        for index in 0..others {
            assert_eq!(told(self.volume.write(OTHER, index * self.chunk as u64, &[1])), (0, 1));
        }
    }

    fn write(&mut self, place: &Place, bytes: &[u8]) -> Answer {
        told(self.volume.write(FILE, place.offset, bytes))
    }

    fn read(&mut self, place: &Place, buffer: &mut [u8]) -> Answer {
        told(self.volume.read(FILE, place.offset, buffer))
    }
}

// ---- plain copies

/// As much memory as the chunks have, of which the flat bytes are the first.
pub struct Copies(Vec<u8>);

impl Copies {
    pub fn new(chunk: u64) -> Self {
        Copies(vec![0; (CHUNKS * chunk) as usize])
    }
}

impl Side for Copies {
    fn renew(&mut self, _others: u64) {
        self.0.fill(0);
    }

    fn write(&mut self, place: &Place, bytes: &[u8]) -> Answer {
        self.0[place.flat.clone()].copy_from_slice(bytes);
        (0, bytes.len() as u64)
    }

    fn read(&mut self, place: &Place, buffer: &mut [u8]) -> Answer {
        buffer.copy_from_slice(&self.0[place.flat.clone()]);
        (0, buffer.len() as u64)
    }
}
