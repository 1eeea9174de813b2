//! Runs of calls on the bytes of files: read, write, resize and set limit.

use super::{
    generator::Generator,
    lists::{Item, spelled},
};
use oracle::{
    bytes::{adler_32, filled},
    error::Error,
    runtime::types::ChunkSize,
    scope,
    storage::types::FileType,
    volume::{FILE_LIMIT, Volume},
};

/// The files of a run are nodes 1 to 3, below node 0.
const NAMES: [u8; 3] = *b"abc";
const MISSING: u64 = 7;
const CALLS: usize = 100;

/// Room of the volume's tables: N and E, then C.
const ROWS: u64 = 8;
const CHUNK_ROWS: u64 = 64;

/// Bytes for chunks: twenty of the greatest size.
const MOST_AREA: u64 = 1_310_720;

/// The proved program lends no longer memory and no longer buffer.
const MOST_MEMORY: u64 = 1_572_864;
const MOST_BUFFER: u64 = 262_144;

/// The line of a call starts with its kind.
const READ: u64 = 2;
const WRITE: u64 = 3;
const RESIZE: u64 = 4;
const SET_LIMIT: u64 = 5;

#[derive(Clone, Copy)]
struct Call {
    kind: u64,
    node: u64,
    /// The offset, the new size or the limit.
    place: u64,
    /// The bytes to read or write; for a limit 1, or 0 where there is to be none.
    length: u64,
    /// What the bytes are made of, see `filled`.
    seed: u64,
}

pub fn summary(items: &[Item]) -> String {
    items.iter().map(|item| item.answers.as_str()).collect()
}

pub fn fixed(generator: &mut Generator) -> Vec<Item> {
    items(generator, 10)
}

pub fn bulk(generator: &mut Generator) -> Vec<Item> {
    items(generator, 300)
}

/// So many runs at each chunk size.
fn items(generator: &mut Generator, runs: usize) -> Vec<Item> {
    let mut tally = [[0; 6]; 4];
    let mut items = Vec::new();
    for _ in 0..runs {
        for size in ChunkSize::VALUES {
            items.push(Run::new(size).item(generator, &mut tally));
        }
    }
    println!("files: {} runs, {} calls", items.len(), CALLS * items.len());
    for (name, answers) in ["read", "write", "resize", "set limit"].iter().zip(tally) {
        let (done, missing, large) = (answers[0], answers[2], answers[5]);
        println!("{name}: {done} carried out, {missing} answer 2, {large} answer 5");
    }
    items
}

struct Run {
    rust: Volume,
    chunk: u64,
    /// Where something was written or cut, to look there again.
    touched: Vec<(u64, u64)>,
}

impl Run {
    fn new(size: ChunkSize) -> Self {
        let mut rust = Volume::new(size);
        for (i, name) in NAMES.iter().enumerate() {
            let node = rust.create(0, &[*name], FileType::RegularFile);
            assert_eq!(node.ok(), Some(i as u64 + 1));
        }
        Run {
            rust,
            chunk: size as u64,
            touched: Vec::new(),
        }
    }

    fn item(mut self, generator: &mut Generator, tally: &mut [[usize; 6]; 4]) -> Item {
        let mut lines = self.volume();
        let mut answers = "volume\n".to_string();
        for _ in 0..CALLS {
            let call = self.call(generator);
            let Call {
                kind,
                node,
                place,
                length,
                seed,
            } = call;
            lines += &(spelled([kind, node, place, length, seed]) + "\n");
            let told = self.carry_out(call);
            tally[kind as usize - 2][told[0] as usize] += 1;
            let told: Vec<String> = told.iter().map(u64::to_string).collect();
            answers += &(told.join(" ") + "\n");
        }
        Item {
            lines,
            answers,
            count: CALLS,
        }
    }

    // What the program starts from.

    /// How many chunks the volume has room for.
    fn room(&self) -> u64 {
        CHUNK_ROWS.min(MOST_AREA / self.chunk)
    }

    /// The volume with its empty files, laid out by docs/LAYOUT.md.
    fn volume(&self) -> String {
        let files = NAMES.len() as u64;
        let node_rows = 192 + 8 * CHUNK_ROWS;
        let entry_rows = node_rows + 40 * ROWS;
        let area = entry_rows + 280 * ROWS + 24 * CHUNK_ROWS;
        let length = area + self.room() * self.chunk;
        assert!(length <= MOST_MEMORY);
        let marker = u64::from_le_bytes(*b"FSA1\0\0\0\0");
        let header = [1, ROWS, ROWS, CHUNK_ROWS, files + 1, files, 0, files + 1];
        let mut runs = vec![(0, [&header[..], &[marker, self.chunk]].concat())];
        let mut nodes = vec![0, 0, 1, files, 0];
        for (node, name) in (1..).zip(NAMES) {
            // a regular file with a limit flag, links 1, size 0
            nodes.extend([node, 0x0101, 1, 0, FILE_LIMIT]);
            // parent, node, index and name length, name
            let entry = vec![0, node, 1 << 32 | node, name as u64];
            runs.push((entry_rows + 280 * (node - 1), entry));
        }
        runs.push((node_rows, nodes));
        let mut lines = spelled([1, length, runs.len() as u64]) + "\n";
        for (at, words) in runs {
            lines += &(spelled([at, words.len() as u64].into_iter().chain(words)) + "\n");
        }
        lines
    }

    // What the Rust answers.

    /// The number, the count and the size afterwards; for a read, Adler-32 of the buffer.
    fn carry_out(&mut self, call: Call) -> Vec<u64> {
        let (node, place) = (call.node, call.place);
        let mut buffer = filled(call.seed, call.length);
        let limit = (call.length == 1).then_some(place);
        let answer = match call.kind {
            READ => self.rust.read(node, place, &mut buffer),
            WRITE => self.rust.write(node, place, &buffer),
            RESIZE => self.rust.resize(node, place).map(|()| 0),
            _ => self.rust.set_limit(node, limit).map(|()| 0),
        };
        let number = |error: Error| scope::number(error).expect("an error of the domain");
        let mut told = match answer {
            Ok(count) => vec![0, count, self.size(node)],
            Err(error) => vec![number(error), 0, self.size(node)],
        };
        if call.kind == READ {
            told.push(adler_32(&buffer));
        }
        told
    }

    fn size(&self, node: u64) -> u64 {
        self.rust.metadata(node).map_or(0, |metadata| metadata.size)
    }

    fn limit(&self, node: u64) -> u64 {
        let metadata = self.rust.metadata(node).expect("a file");
        metadata.maximum_size_allowed.expect("each file has one")
    }

    // What is asked.

    fn call(&mut self, generator: &mut Generator) -> Call {
        let node = 1 + generator.below(NAMES.len() as u64);
        let call = self.any_call(generator, node);
        if call.kind == WRITE && !self.fits(call) {
            return self.shrink(generator);
        }
        if call.kind == WRITE || call.kind == RESIZE {
            self.touched.push((node, call.place));
        }
        match generator.below(150) {
            0 => Call {
                node: MISSING,
                ..call
            },
            _ => call,
        }
    }

    fn any_call(&self, generator: &mut Generator, node: u64) -> Call {
        let tight = self.limit(node) < FILE_LIMIT;
        let kind = match generator.below(20) {
            _ if tight && generator.once_in(4) => SET_LIMIT,
            0..=7 => READ,
            8..=14 => WRITE,
            15..=18 => RESIZE,
            _ => SET_LIMIT,
        };
        let mut call = Call {
            kind,
            node,
            place: self.place(generator, node),
            length: 0,
            seed: 0,
        };
        match kind {
            READ | WRITE => {
                let size = self.size(node);
                if kind == READ && 0 < size && size <= call.place && !generator.once_in(6) {
                    // rather the last bytes
                    call.place = size - 1 - generator.below(size.min(2 * self.chunk));
                }
                call.length = self.length(generator, node, call.place);
                call.seed = generator.below(251);
                if call.length > 0 && kind == WRITE {
                    // the Rust adds the two unchecked
                    call.place = call.place.min(u64::MAX - call.length);
                }
            }
            RESIZE => {}
            _ => {
                let unlimited = if tight { 2 } else { 5 };
                call.length = !generator.once_in(unlimited) as u64;
                // the Rust knows no highest limit
                call.place = call.length * call.place.min(FILE_LIMIT);
            }
        }
        call
    }

    /// An offset, a size or a limit.
    fn place(&self, generator: &mut Generator, node: u64) -> u64 {
        let chunk = self.chunk;
        let around = |generator: &mut Generator, place: u64| {
            let ahead = generator.one_of(&[0, 0, 1, 2, 3]);
            (place + ahead).saturating_sub(generator.one_of(&[0, 0, 1, 2, 3]))
        };
        let of_node = self.touched.iter().filter(|touched| touched.0 == node);
        let touched: Vec<u64> = of_node.map(|touched| touched.1).collect();
        match generator.below(24) {
            0..=7 => {
                let boundary = generator.below(6) * chunk;
                around(generator, boundary)
            }
            8..=10 => generator.below(6 * chunk),
            11..=13 => around(generator, self.size(node).min(FILE_LIMIT)),
            14..=19 if !touched.is_empty() => {
                let place = generator.one_of(&touched);
                match generator.below(3) {
                    0 => place,
                    1 => around(generator, place.min(FILE_LIMIT)),
                    _ => place.min(FILE_LIMIT) / chunk * chunk,
                }
            }
            20 => {
                let below = generator.one_of(&[0, 0, chunk, 5 * chunk]);
                around(generator, FILE_LIMIT - below)
            }
            21 if generator.once_in(3) => generator.one_of(&[u64::MAX, 1 << 63, FILE_LIMIT + 1]),
            21 | 22 => {
                let power = 1 << (20 + generator.below(20));
                around(generator, power)
            }
            23 => generator.below(FILE_LIMIT),
            _ => 0,
        }
    }

    fn length(&self, generator: &mut Generator, node: u64, place: u64) -> u64 {
        let chunk = self.chunk;
        let left = self.size(node).saturating_sub(place);
        let to_boundary = chunk - place % chunk;
        let length = match generator.below(16) {
            0 => 0,
            1..=4 => 1 + generator.below(4),
            5 | 6 => to_boundary + generator.below(3) - 1,
            7 => to_boundary + chunk + generator.below(3) - 1,
            8 => chunk + generator.below(3) - 1,
            9 | 10 if left < 3 * chunk => left + generator.below(300),
            11 => generator.below(3 * chunk),
            12 | 13 => generator.below(chunk),
            _ => generator.below(200),
        };
        length.min(MOST_BUFFER)
    }

    /// Whether there is room for every chunk that a write touches. The Rust has all that the scope
    /// has, and those that it took for cuts.
    fn fits(&self, write: Call) -> bool {
        let rows = |node| self.rust.chunk_rows(node).len() as u64;
        let used: u64 = (1..=NAMES.len() as u64).map(rows).sum();
        let (first, behind) = scope::touched(self.chunk, write.place, write.length);
        used + (behind - first) <= self.room()
    }

    /// The file with the most chunks is cut, at a multiple of the chunk size.
    fn shrink(&mut self, generator: &mut Generator) -> Call {
        let rows = |node: &u64| self.rust.chunk_rows(*node).len();
        let node = (1..=NAMES.len() as u64).max_by_key(rows).expect("files");
        Call {
            kind: RESIZE,
            node,
            place: generator.below(3) * self.chunk,
            length: 0,
            seed: 0,
        }
    }
}
