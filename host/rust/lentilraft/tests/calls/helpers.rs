//! What the tests share: small volumes, and what is told of them.

use std::fmt::Debug;

use lentilraft::{ChunkSize, Error, Kind, Node, Result, Rooms, Volume, ROOT};

pub type Owned = Volume<Vec<u8>>;

pub const ROOMS: Rooms = Rooms {
    nodes: 8,
    entries: 8,
    chunks: 8,
};

/// A node that no volume of the tests has.
pub const MISSING: Node = Node(77);

/// Numbers of bytes that no chunk has: a bit too far down or up, two bits, and all of them.
pub const NO_CHUNK_SIZES: [u64; 5] = [2048, 131_072, 12_288, (1 << 32) + 4096, u64::MAX];

/// Where words of the header and of the allocator stand that tests change.
pub const NEXT_NODE: usize = 56;
pub const CHUNK_SIZE: usize = 72;
pub const FREE_COUNT: usize = 80;
/// Where the free pointers stand.
pub const FREE_WORDS: usize = 192;
/// Where the tables of a volume with `ROOMS` stand.
pub const NODE_ROWS: usize = FREE_WORDS + 8 * 8;
pub const ENTRY_ROWS: usize = NODE_ROWS + 40 * 8;
pub const CHUNK_ROWS: usize = ENTRY_ROWS + 280 * 8;
pub const CHUNK_AREA: usize = CHUNK_ROWS + 24 * 8;
/// Where an entry's row has its index.
pub const ENTRY_INDEX: usize = 16;

/// A new volume that has memory for all its chunks.
pub fn new_volume(size: ChunkSize) -> Owned {
    let bytes = vec![0xa5; ROOMS.length_for(size) as usize];
    Volume::new(bytes, ROOMS, size).expect("a new volume")
}

/// A new volume with the smallest chunks and one file in its root.
pub fn with_file() -> (Owned, Node) {
    let mut volume = new_volume(ChunkSize::K4);
    let file = volume.create(ROOT, b"hood-7", Kind::File).expect("a file");
    (volume, file)
}

/// The same volume with some of its bytes changed.
pub fn with_bytes(volume: Owned, at: usize, bytes: &[u8]) -> Owned {
    let mut memory = volume.into_inner();
    memory[at..at + bytes.len()].copy_from_slice(bytes);
    Volume::over(memory)
}

/// Why a call is refused. It must have changed no byte.
pub fn refusal<T: Debug>(volume: &mut Owned, call: impl FnOnce(&mut Owned) -> Result<T>) -> Error {
    let before = volume.bytes().to_vec();
    let error = call(volume).expect_err("a call that should be refused was carried out");
    assert!(volume.bytes() == before, "refused, and changed something");
    error
}

/// Bytes of a file, as many as there are up to a length.
pub fn content<B: AsRef<[u8]>>(
    volume: &Volume<B>,
    file: Node,
    offset: u64,
    length: usize,
) -> Vec<u8> {
    let mut buffer = vec![0xa5; length];
    let count = volume.read(file, offset, &mut buffer).expect("read");
    buffer.truncate(count);
    buffer
}

/// A number of the report.
pub fn reported(volume: &Owned, key: &str) -> u64 {
    let report = volume.report().expect("a report");
    let mut lines = report.lines().filter_map(|line| line.split_once('='));
    let line = lines.find(|(name, _)| *name == key).expect("a line");
    line.1.parse().expect("a number")
}
