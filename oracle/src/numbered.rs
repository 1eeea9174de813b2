//! The Rust, asked by the scope's calls. It may number nodes otherwise, since a create that it
//! refuses uses a number up; so each node that a create gives has two numbers, kept here. And it
//! takes a chunk for a cut that ends in a hole, which the scope leaves one; so these are kept, too.

use std::collections::BTreeSet;

use crate::{
    bytes::filled,
    calls::{Answer, Call, Told},
    error::Error,
    runtime::types::ChunkSize,
    scope,
    storage::types::{FileType, Metadata, Node},
    volume::{Listed, Volume},
};

/// A node that the Rust never gives.
const NEVER: Node = 1 << 63;

/// The rooms of the scope's tables, and the bytes of its chunk area. The Rust has none of these.
#[derive(Clone, Copy, Debug)]
pub struct Rooms {
    pub nodes: u64,
    pub entries: u64,
    pub chunks: u64,
    pub area: u64,
}

pub struct Numbered {
    pub rooms: Rooms,
    pub chunk_size: u64,
    rust: Volume,
    /// The Rust's number of each node that was given, by the scope's.
    nodes: Vec<Node>,
    /// The chunks that the Rust took for cuts: by the scope's node and the index, where the scope
    /// has a hole until it is written.
    taken_by_cuts: BTreeSet<(u64, u64)>,
}

impl Numbered {
    pub fn new(rooms: Rooms, chunk_size: ChunkSize) -> Self {
        Numbered {
            rooms,
            chunk_size: chunk_size as u64,
            rust: Volume::new(chunk_size),
            nodes: vec![0],
            taken_by_cuts: BTreeSet::new(),
        }
    }

    pub fn ask(&mut self, call: &Call) -> Answer {
        if let Call::Read {
            node,
            offset,
            length,
            seed,
        } = *call
        {
            let (node, mut buffer) = (self.of_rust(node), filled(seed, length));
            return match self.rust.read(node, offset, &mut buffer) {
                Ok(count) => answer(0, Told::Read(count, buffer)),
                Err(error) => answer(number(error), Told::Read(0, buffer)),
            };
        }
        if let Call::NextEntry { directory, from } = *call {
            return match self.next_entry(directory, from) {
                Some(listed) => answer(0, Told::Entry(listed)),
                None => answer(scope::NO_SUCH_ENTRY, Told::Entry(Listed::default())),
            };
        }
        match self.carry_out(call) {
            Ok(value) => answer(0, Told::Value(value)),
            Err(error) => answer(number(error), Told::Value(0)),
        }
    }

    /// A call that tells one number at most.
    fn carry_out(&mut self, call: &Call) -> Result<u64, Error> {
        let number = |node| self.of_rust(node);
        match call {
            &Call::Write {
                node,
                offset,
                length,
                seed,
            } => {
                let bytes = filled(seed, length);
                let count = self.rust.write(number(node), offset, &bytes)?;
                let (first, behind) = scope::touched(self.chunk_size, offset, length);
                let is_hole = |at: &(u64, u64)| at.0 != node || at.1 < first || behind <= at.1;
                self.taken_by_cuts.retain(is_hole);
                Ok(count)
            }
            &Call::Resize { node, size } => {
                let before = self.chunks_of_rust(node);
                self.rust.resize(self.of_rust(node), size)?;
                let after = self.chunks_of_rust(node).into_iter();
                let taken = after.filter(|index| !before.contains(index));
                self.taken_by_cuts.extend(taken.map(|index| (node, index)));
                Ok(0)
            }
            &Call::SetLimit { node, limit } => {
                let node = number(node);
                self.rust.set_limit(node, limit).map(|()| 0)
            }
            Call::Create { parent, kind, name } => {
                let parent = number(*parent);
                let node = match file_type(*kind)? {
                    FileType::SymbolicLink => {
                        self.rust.create_symbolic_link(parent, name.as_bytes())
                    }
                    kind => self.rust.create(parent, name.as_bytes(), kind),
                };
                self.nodes.push(node?);
                Ok(self.next_node() - 1)
            }
            Call::Link {
                parent,
                target,
                name,
            } => {
                let (parent, target) = (number(*parent), number(*target));
                let linked = self.rust.link(parent, name.as_bytes(), target);
                linked.map(|()| 0)
            }
            Call::Unlink {
                start,
                path,
                expect_dir,
                opens,
            } => {
                let start = number(*start);
                let opens = *opens as usize;
                let node = self.rust.rm_dir_entry(start, path, *expect_dir, opens);
                node.map(|node| self.of_scope(node))
            }
            &Call::Remove { node } => {
                let node = number(node);
                self.rust.remove(node).map(|()| 0)
            }
            Call::Find { start, path } => {
                let node = self.rust.find(number(*start), path);
                node.map(|node| self.of_scope(node))
            }
            Call::Read { .. } | Call::NextEntry { .. } => unreachable!("tells more"),
        }
    }

    // What is there, by the scope's numbers.

    /// Nodes from this one on were never given.
    pub fn next_node(&self) -> u64 {
        self.nodes.len() as u64
    }

    /// Those that are there.
    pub fn nodes(&self) -> Vec<u64> {
        let is_there = |node: &u64| self.metadata(*node).is_some();
        (0..self.next_node()).filter(is_there).collect()
    }

    pub fn metadata(&self, node: u64) -> Option<Metadata> {
        self.rust.metadata(self.of_rust(node)).ok()
    }

    pub fn is_directory(&self, node: u64) -> bool {
        let metadata = self.metadata(node);
        metadata.is_some_and(|metadata| metadata.file_type == FileType::Directory)
    }

    pub fn next_entry(&self, directory: u64, from: u32) -> Option<Listed> {
        let listed = self.rust.next_entry(self.of_rust(directory), Some(from))?;
        Some(Listed {
            node: self.of_scope(listed.node),
            ..listed
        })
    }

    pub fn entries(&self, directory: u64) -> Vec<Listed> {
        let mut found = Vec::new();
        let mut from = 0;
        while let Some(listed) = self.next_entry(directory, from) {
            from = listed.index + 1;
            found.push(listed);
        }
        found
    }

    /// The indexes at which a file has a chunk.
    pub fn chunks(&self, node: u64) -> Vec<u64> {
        let mut indexes = self.chunks_of_rust(node);
        indexes.retain(|&index| !self.taken_by_cuts.contains(&(node, index)));
        indexes
    }

    fn chunks_of_rust(&self, node: u64) -> Vec<u64> {
        let rows = self.rust.chunk_rows(self.of_rust(node));
        rows.iter().map(|row| row.0 as u64).collect()
    }

    fn of_rust(&self, node: u64) -> Node {
        let given = self.nodes.get(node as usize);
        given.copied().unwrap_or(NEVER)
    }

    fn of_scope(&self, node: Node) -> u64 {
        let given = self.nodes.iter().position(|&given| given == node);
        given.expect("a node that a create gave") as u64
    }
}

/// By the Rust's own bytes for types; the scope has others.
fn file_type(kind: u8) -> Result<FileType, Error> {
    let byte = [3, 4, 7].get(kind as usize);
    FileType::try_from(byte.copied().unwrap_or(u8::MAX))
}

fn number(error: Error) -> u64 {
    scope::number(error).expect("an error of the domain")
}

fn answer(number: u64, told: Told) -> Answer {
    Answer { number, told }
}
