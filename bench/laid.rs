//! A volume's memory, made anew by the call, with rows put into it by docs/LAYOUT.md: calls would take long to make thousands, since each checks
//! all that are there.

use crate::exported::{lentilraft_check, lentilraft_new_volume};
use oracle::volume::FILE_LIMIT;

pub const ROOT: u64 = 0;

/// The first bytes of a node's row behind its number: the type, and whether there is a limit.
const DIRECTORY: u64 = 0;
const LIMITED_FILE: u64 = 0x0101;

/// How many rows of each table there is room for.
#[derive(Clone, Copy)]
pub struct Rooms {
    pub nodes: u64,
    pub entries: u64,
    pub chunks: u64,
}

pub struct Laid {
    rooms: Rooms,
    chunk: u64,
    pub memory: Vec<u8>,
}

impl Laid {
    pub fn new(rooms: Rooms, chunk: u64) -> Self {
        let tables = 192 + 40 * rooms.nodes + 280 * rooms.entries + 32 * rooms.chunks;
        let memory = vec![0; (tables + rooms.chunks * chunk) as usize];
        Laid { rooms, chunk, memory }
    }

    pub fn renew(&mut self) {
        let (memory, length) = (self.memory.as_mut_ptr(), self.memory.len());
        let Rooms { nodes, entries, chunks } = self.rooms;
        assert_eq!(unsafe { lentilraft_new_volume(memory, length, nodes, entries, chunks, self.chunk) }, 0);
    }

    /// What the calls without the check ask for; they keep it so.
    pub fn assert_sound(&self) {
        assert_eq!(unsafe { lentilraft_check(self.memory.as_ptr(), self.memory.len()) }, 0);
    }

    fn put(&mut self, at: u64, words: &[u64]) {
        for (word, to) in words.iter().zip(self.memory[at as usize..].chunks_exact_mut(8)) {
            to.copy_from_slice(&word.to_le_bytes());
        }
    }

    fn node_row(&self, place: u64) -> u64 {
        192 + 8 * self.rooms.chunks + 40 * place
    }

    /// Rows in use. Every node has the number of its place, so that the next one's is their count.
    pub fn put_used(&mut self, nodes: u64, entries: u64) {
        self.put(32, &[nodes, entries, 0, nodes]);
    }

    /// A directory with one link.
    pub fn put_directory(&mut self, node: u64, entries: u64) {
        self.put(self.node_row(node), &[node, DIRECTORY, 1, entries, 0]);
    }

    /// An empty file with one link.
    pub fn put_file(&mut self, node: u64) {
        self.put(self.node_row(node), &[node, LIMITED_FILE, 1, 0, FILE_LIMIT]);
    }

    pub fn put_entry(&mut self, place: u64, parent: u64, node: u64, index: u64, name: &[u8]) {
        let at = self.node_row(self.rooms.nodes) + 280 * place;
        self.put(at, &[parent, node, (name.len() as u64) << 32 | index]);
        self.memory[at as usize + 24..][..name.len()].copy_from_slice(name);
    }
}
