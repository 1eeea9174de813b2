//! Node, written and geometry, which are plain Rust, against what the proved calls say.

use lentilraft::{ChunkSize, Error, Expected, Geometry, Info, Kind, Node, Stretch, Volume, ROOT};

use crate::helpers::{content, new_volume, reported, with_file, Owned, MISSING, ROOMS};

const NAMES: [&[u8]; 6] = [b"a", b"b", b"c", b"d", b"e", b"f"];

#[test]
fn the_root_of_a_new_volume() {
    let wanted = Info {
        kind: Kind::Directory,
        links: 1,
        size: 0,
        limit: None,
    };
    assert_eq!(new_volume(ChunkSize::K4).node(ROOT), Ok(wanted));
}

#[test]
fn a_node_by_its_calls() {
    let (mut volume, file) = with_file();
    volume.write(file, 9000, b"0.52").unwrap();
    volume.link(ROOT, b"latest", file).unwrap();
    volume.set_limit(file, Some(10_000)).unwrap();
    let wanted = Info {
        kind: Kind::File,
        links: 2,
        size: 9004,
        limit: Some(10_000),
    };
    assert_eq!(volume.node(file), Ok(wanted));
    assert_eq!(volume.node(ROOT).unwrap().size, 2);
    volume.set_limit(file, None).unwrap();
    assert_eq!(volume.node(file).unwrap().limit, None);
}

#[test]
fn a_limit_of_0_is_a_limit() {
    let (mut volume, file) = with_file();
    volume.set_limit(file, Some(0)).unwrap();
    assert_eq!(volume.node(file).unwrap().limit, Some(0));
}

#[test]
fn node_and_written_are_refused() {
    let (volume, file) = with_file();
    let rows = volume.rows().unwrap();
    assert_eq!(rows.entries(MISSING).err(), Some(Error::NoSuchEntry));
    assert_eq!(rows.entries(file).err(), Some(Error::NotDirectory));
    assert_eq!(volume.node(MISSING), Err(Error::NoSuchEntry));
    assert_eq!(volume.written(MISSING), Err(Error::NoSuchEntry));
    assert_eq!(volume.written(ROOT), Err(Error::IsDirectory));
}

#[test]
fn chunks_that_touch_are_one_stretch() {
    let (mut volume, file) = with_file();
    assert_eq!(volume.written(file), Ok(vec![]));
    for offset in [0, 4096, 20_000, 12_288] {
        volume.write(file, offset, b"x").unwrap();
    }
    let wanted = vec![
        Stretch {
            start: 0,
            end: 8192,
        },
        Stretch {
            start: 12_288,
            end: 20_001,
        },
    ];
    assert_eq!(volume.written(file), Ok(wanted));
}

#[test]
fn a_hole_at_the_end_is_not_written() {
    let (mut volume, file) = with_file();
    volume.write(file, 0, b"x").unwrap();
    volume.resize(file, 1 << 40).unwrap();
    let wanted = Stretch {
        start: 0,
        end: 4096,
    };
    assert_eq!(volume.written(file), Ok(vec![wanted]));
}

#[test]
fn the_geometry_of_a_new_volume() {
    let mut used = ROOMS;
    (used.nodes, used.entries, used.chunks) = (1, 0, 0);
    for chunk_size in ChunkSize::ALL {
        let wanted = Geometry {
            rooms: ROOMS,
            chunk_size,
            used,
            next_node: 1,
            free_chunks: 8,
        };
        assert_eq!(new_volume(chunk_size).geometry(), Ok(wanted));
    }
}

#[test]
fn a_chunk_that_was_freed_is_free() {
    let bytes = vec![0; ROOMS.least_length() as usize];
    let mut volume = Volume::new(bytes, ROOMS, ChunkSize::K16).unwrap();
    let file = volume.create(ROOT, b"f", Kind::File).unwrap();
    let free = |volume: &Owned| volume.geometry().unwrap().free_chunks;
    assert_eq!(free(&volume), 4);
    volume.write(file, 0, &[1; 65_536]).unwrap();
    assert_eq!(free(&volume), 0);
    volume.resize(file, 16_384).unwrap();
    assert_eq!(free(&volume), 3);
}

/// Numbers that look like chance and are the same each time.
struct Chance(u64);

impl Chance {
    fn below(&mut self, bound: u64) -> u64 {
        self.0 ^= self.0 << 13;
        self.0 ^= self.0 >> 7;
        self.0 ^= self.0 << 17;
        (self.0 >> 11) % bound
    }

    fn name(&mut self) -> &'static [u8] {
        NAMES[self.below(NAMES.len() as u64) as usize]
    }

    fn node(&mut self) -> Node {
        Node(self.below(9))
    }

    fn kind(&mut self) -> Kind {
        match self.below(4) {
            0 => Kind::Directory,
            1 => Kind::SymbolicLink,
            _ => Kind::File,
        }
    }
}

/// One call by chance. Some are refused, and that is well.
fn step(volume: &mut Owned, chance: &mut Chance) {
    let node = chance.node();
    let _ = match chance.below(12) {
        0 | 1 => volume.create(node, chance.name(), chance.kind()).map(drop),
        2 => volume.create(ROOT, chance.name(), chance.kind()).map(drop),
        3 => volume.link(ROOT, chance.name(), node),
        4 => volume
            .unlink(ROOT, chance.name(), Expected::Any, 0)
            .map(drop),
        5 => volume.remove(node),
        6 | 7 => volume.resize(node, chance.below(90_000)),
        8 => volume.set_limit(node, Some(chance.below(300_000))),
        _ => volume
            .write(node, chance.below(90_000), &[7; 9000])
            .map(drop),
    };
}

/// A volume of each chunk size in turn: one that runs out of rows for chunks first, or one with the
/// least memory, which runs out of that first if its chunks are large.
fn volume_by(seed: u64) -> Owned {
    let size = ChunkSize::ALL[seed as usize % ChunkSize::ALL.len()];
    if seed % 2 == 0 {
        return new_volume(size);
    }
    let bytes = vec![0; ROOMS.least_length() as usize];
    Volume::new(bytes, ROOMS, size).unwrap()
}

#[test]
fn rows_agree_with_the_calls_whatever_was_called() {
    for seed in 1..=20 {
        let mut chance = Chance(seed);
        let mut volume = volume_by(seed);
        for _ in 0..10 {
            (0..10).for_each(|_| step(&mut volume, &mut chance));
            rows_agree(&volume);
        }
    }
}

fn rows_agree(volume: &Owned) {
    geometry_agrees(volume);
    let next_node = volume.geometry().unwrap().next_node;
    (0..next_node).for_each(|node| node_agrees(volume, Node(node)));
}

/// The geometry against the report, and against how many chunks can be taken.
fn geometry_agrees(volume: &Owned) {
    let geometry = volume.geometry().unwrap();
    assert_eq!(geometry.rooms, ROOMS);
    assert_eq!(geometry.chunk_size.bytes(), reported(volume, "chunk_size"));
    assert_eq!(geometry.used.nodes, reported(volume, "nodes"));
    assert_eq!(geometry.used.entries, reported(volume, "entries"));
    assert_eq!(geometry.used.chunks, reported(volume, "chunks"));
    assert_eq!(geometry.next_node, reported(volume, "next_node"));
    let file = (0..geometry.next_node)
        .map(Node)
        .find(|node| volume.written(*node).is_ok());
    if let Some(file) = file {
        assert_eq!(chunks_that_can_be_taken(volume, file), geometry.free_chunks);
    }
}

/// How often a byte can be written into a new chunk of a file.
fn chunks_that_can_be_taken(volume: &Owned, file: Node) -> u64 {
    let mut volume = volume.clone();
    volume.set_limit(file, None).unwrap();
    let span = volume.geometry().unwrap().chunk_size.bytes();
    let behind = volume.node(file).unwrap().size / span + 1;
    let fails = |index: &u64| volume.write(file, (behind + index) * span, b"x").is_err();
    (0..).find(fails).unwrap()
}

/// What a node's rows say against what the calls on it do.
fn node_agrees(volume: &Owned, node: Node) {
    match volume.node(node) {
        Err(error) => {
            assert_eq!(error, Error::NoSuchEntry);
            assert_eq!(volume.find(node, b""), Err(error));
        }
        Ok(info) => {
            assert_eq!(volume.find(node, b""), Ok(node));
            assert_eq!(info.links, links(volume, node));
            match info.kind {
                Kind::Directory => directory_agrees(volume, node, info),
                Kind::File | Kind::SymbolicLink => file_agrees(volume, node, info),
            }
        }
    }
}

/// How many entries name a node; one more for the root.
fn links(volume: &Owned, node: Node) -> u64 {
    let next_node = volume.geometry().unwrap().next_node;
    let entries = (0..next_node).flat_map(|directory| volume.entries(Node(directory)));
    let naming = entries.filter(|entry| matches!(entry, Ok(entry) if entry.node == node));
    naming.count() as u64 + u64::from(node == ROOT)
}

fn directory_agrees(volume: &Owned, directory: Node, info: Info) {
    let rows = volume.rows().unwrap();
    let by_rows: Vec<_> = rows.entries(directory).unwrap().collect();
    let by_calls: Vec<_> = volume.entries(directory).map(Result::unwrap).collect();
    assert_eq!(by_rows, by_calls);
    assert_eq!(info.limit, None);
    assert_eq!(info.size, volume.entries(directory).count() as u64);
    assert_eq!(volume.read(directory, 0, &mut []), Err(Error::IsDirectory));
    assert_eq!(volume.written(directory), Err(Error::IsDirectory));
}

fn file_agrees(volume: &Owned, file: Node, info: Info) {
    let bytes = content(volume, file, 0, 100_000);
    assert_eq!(bytes.len() as u64, info.size);
    assert!(volume.entries(file).eq([Err(Error::NotDirectory)]));
    limit_agrees(&mut volume.clone(), file, info);
    let stretches = volume.written(file).unwrap();
    assert!(stretches.iter().all(|stretch| stretch.start < stretch.end));
    assert!(stretches.windows(2).all(|pair| pair[0].end < pair[1].start));
    assert!(bytes == written_only(&bytes, &stretches));
}

/// The bytes of a file with zeros in all its holes.
fn written_only(bytes: &[u8], stretches: &[Stretch]) -> Vec<u8> {
    let mut written = vec![0; bytes.len()];
    for stretch in stretches {
        let range = stretch.start as usize..stretch.end as usize;
        written[range.clone()].copy_from_slice(&bytes[range]);
    }
    written
}

fn limit_agrees(volume: &mut Owned, file: Node, info: Info) {
    let limit = info.limit.unwrap_or(1 << 40);
    assert_eq!(volume.resize(file, limit + 1), Err(Error::FileTooLarge));
    assert_eq!(volume.resize(file, limit), Ok(()));
}
