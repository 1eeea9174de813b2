//! A volume with one broken byte: every call refuses it, and leaves every byte. And the last pointer
//! that a volume may have: it stands once, in a row or free. And a name: once in a directory,
//! wherever it stands there.

use lentilraft::{ChunkSize, Error, Expected, Kind, Node, Result, Rooms, Volume, ROOT};

use crate::helpers::{
    new_volume, refusal, with_bytes, Owned, CHUNK_AREA, CHUNK_ROWS, CHUNK_SIZE, ENTRY_ROWS,
    FREE_COUNT, FREE_WORDS, NODE_ROWS, NO_CHUNK_SIZES, ROOMS,
};

const FILE: Node = Node(1);

const GREATEST: Rooms = Rooms {
    nodes: 2,
    entries: 1,
    chunks: 4096,
};
const CHUNK: u64 = 4096;
/// The last chunk row of a volume with `GREATEST`.
const LAST_ROW: usize = FREE_WORDS + 8 * 4096 + 40 * 2 + 280 + 24 * 4095;

/// Room for two directories with `NAMES` each.
const MANY: Rooms = Rooms {
    nodes: 67,
    entries: 66,
    chunks: 1,
};
const NAMES: usize = 32;
/// The rows of entries of a volume with `MANY`, and where one has its name, with the length before it.
const MANY_ROWS: usize = FREE_WORDS + 8 + 40 * 67;
const ROW: usize = 280;
const NAME: usize = 20;

type Call = fn(&mut Owned) -> Result<()>;

/// Every call on a volume but new, as one that a sound volume would carry out.
const CALLS: [(&str, Call); 19] = [
    ("check", |v| v.check()),
    ("read", |v| v.read(FILE, 0, &mut [0; 4]).map(drop)),
    ("find", |v| v.find(ROOT, b"f").map(drop)),
    ("next_entry", |v| v.next_entry(ROOT, 0).map(drop)),
    ("entries", |v| {
        v.entries(ROOT).try_for_each(|entry| entry.map(drop))
    }),
    ("search", |v| v.search(ROOT, b"f", 0, 1).map(drop)),
    ("report", |v| v.report().map(drop)),
    ("node", |v| v.node(FILE).map(drop)),
    ("written", |v| v.written(FILE).map(drop)),
    ("geometry", |v| v.geometry().map(drop)),
    ("set_chunk_size", |v| v.set_chunk_size(ChunkSize::K4)),
    ("write", |v| v.write(FILE, 0, b"x").map(drop)),
    ("resize", |v| v.resize(FILE, 2)),
    ("set_limit", |v| v.set_limit(FILE, Some(9000))),
    ("set_limit, none", |v| v.set_limit(FILE, None)),
    ("create", |v| v.create(ROOT, b"g", Kind::File).map(drop)),
    ("link", |v| v.link(ROOT, b"g", FILE)),
    ("unlink", |v| {
        v.unlink(ROOT, b"f", Expected::Any, 0).map(drop)
    }),
    ("remove", |v| v.remove(Node(2))),
];

/// Bytes of the volume below whose lowest bit can not be another one.
const PLACES: [(&str, usize); 14] = [
    ("the form", 0),
    ("the room for nodes", 8),
    ("nodes used", 32),
    ("entries used", 40),
    ("chunks used", 48),
    ("the marker", 64),
    ("the chunk size", CHUNK_SIZE),
    ("the free count", FREE_COUNT),
    ("the root's kind", NODE_ROWS + 8),
    ("the file's links", NODE_ROWS + 40 + 16),
    ("an unused node row", NODE_ROWS + 40 * 7),
    ("behind the entry's name", ENTRY_ROWS + 24 + 200),
    ("the chunk's pointer", CHUNK_ROWS + 16),
    ("the chunk behind the file's end", CHUNK_AREA + 4095),
];

/// A root with a file of one chunk, and a file without a name.
fn sound() -> Owned {
    let mut volume = new_volume(ChunkSize::K4);
    assert_eq!(volume.create(ROOT, b"f", Kind::File), Ok(FILE));
    volume.write(FILE, 0, b"0.52").unwrap();
    let nameless = volume.create(ROOT, b"g", Kind::File).unwrap();
    volume.unlink(ROOT, b"g", Expected::File, 0).unwrap();
    assert_eq!(nameless, Node(2));
    volume
}

#[test]
fn a_sound_volume_carries_every_call_out() {
    for (name, call) in CALLS {
        assert_eq!(call(&mut sound()), Ok(()), "{}", name);
    }
}

#[test]
fn every_call_refuses_every_broken_byte() {
    for (place, at) in PLACES {
        let mut bytes = sound().into_inner();
        bytes[at] ^= 1;
        let mut broken = Volume::over(bytes);
        for (name, call) in CALLS {
            let error = refusal(&mut broken, call);
            assert_eq!(error, Error::UnsoundMemory, "{}: {}", place, name);
        }
    }
}

/// A volume that has given no chunk out, with a number in the place of its chunk size.
fn with_chunk_size(bytes: u64) -> Owned {
    with_bytes(new_volume(ChunkSize::K64), CHUNK_SIZE, &bytes.to_le_bytes())
}

#[test]
fn every_call_refuses_every_other_chunk_size() {
    for bytes in NO_CHUNK_SIZES.into_iter().chain([0]) {
        let mut broken = with_chunk_size(bytes);
        for (name, call) in CALLS {
            let error = refusal(&mut broken, call);
            assert_eq!(error, Error::UnsoundMemory, "{}: {}", bytes, name);
        }
    }
    for size in ChunkSize::ALL {
        assert_eq!(with_chunk_size(size.bytes()).check(), Ok(()));
    }
}

#[test]
fn a_refused_read_of_a_broken_volume_leaves_the_buffer() {
    let mut buffer = *b"kept";
    let broken = Volume::over([0; 10]);
    assert_eq!(broken.read(FILE, 0, &mut buffer), Err(Error::UnsoundMemory));
    assert_eq!(&buffer, b"kept");
}

#[test]
fn a_memory_that_was_cut_is_refused() {
    let bytes = sound().into_inner();
    for length in [0, 1, 63, 64, 192, NODE_ROWS, CHUNK_AREA, bytes.len() - 1] {
        let mut cut = Volume::over(bytes[..length].to_vec());
        for (name, call) in CALLS {
            let error = refusal(&mut cut, call);
            assert_eq!(error, Error::UnsoundMemory, "{} bytes: {}", length, name);
        }
    }
}

#[test]
fn a_broken_volume_is_made_new() {
    let mut bytes = sound().into_inner();
    bytes[0] ^= 1;
    let volume = Volume::new(bytes, ROOMS, ChunkSize::K4).unwrap();
    assert_eq!(volume.check(), Ok(()));
}

/// As many chunks as a volume may have, all of them in one file: the check has a mark for the pointer of each.
fn greatest() -> Owned {
    let bytes = vec![0xa5; GREATEST.length_for(ChunkSize::K4) as usize];
    let mut volume = Volume::new(bytes, GREATEST, ChunkSize::K4).unwrap();
    assert_eq!(volume.create(ROOT, b"f", Kind::File), Ok(FILE));
    let length = GREATEST.chunks as usize * CHUNK as usize;
    assert_eq!(volume.write(FILE, 0, &vec![1; length]), Ok(length));
    volume
}

#[test]
fn the_last_pointer_that_a_volume_may_have_stands_once() {
    let mut volume = greatest();
    assert_eq!(volume.check(), Ok(()));
    let last = LAST_ROW + 16;
    let word3 = GREATEST.chunks * CHUNK;
    for wrong in [
        0,
        CHUNK,
        word3 - 2 * CHUNK,
        word3 - CHUNK + 1,
        word3,
        u64::MAX - CHUNK + 1,
    ] {
        volume = with_bytes(volume, last, &wrong.to_le_bytes());
        assert_eq!(volume.check(), Err(Error::UnsoundMemory), "{}", wrong);
    }
    volume = with_bytes(volume, last, &(word3 - CHUNK).to_le_bytes());
    assert_eq!(volume.check(), Ok(()));
}

#[test]
fn the_last_pointer_that_a_volume_may_have_is_free_once() {
    let mut volume = greatest();
    volume.resize(FILE, (GREATEST.chunks - 1) * CHUNK).unwrap();
    assert_eq!(volume.check(), Ok(()));
    volume = with_bytes(volume, FREE_COUNT, &0u64.to_le_bytes());
    assert_eq!(volume.check(), Err(Error::UnsoundMemory), "missing");
    volume = with_bytes(volume, FREE_COUNT, &1u64.to_le_bytes());
    assert_eq!(volume.check(), Ok(()));
    volume = with_bytes(volume, FREE_WORDS, &0u64.to_le_bytes());
    assert_eq!(volume.check(), Err(Error::UnsoundMemory), "the first row's");
}

/// One of `NAMES` that differ: of three lengths, in no order, and anywhere in the bytes.
fn name(i: usize) -> Vec<u8> {
    let length = [1, 9, 255][i % 3];
    let mut name = vec![b'x'; length];
    name[i * 7 % length] = b'A' + (i * 11 % NAMES) as u8;
    name
}

/// The same names in two directories, whose entries stand behind those of the root.
fn many_names() -> Owned {
    let bytes = vec![0xa5; MANY.length_for(ChunkSize::K4) as usize];
    let mut volume = Volume::new(bytes, MANY, ChunkSize::K4).unwrap();
    for folder in [b"a", b"b"] {
        let folder = volume.create(ROOT, folder, Kind::Directory).unwrap();
        for i in 0..NAMES {
            volume.create(folder, &name(i), Kind::File).unwrap();
        }
    }
    volume
}

#[test]
fn a_name_stands_once_in_a_directory_wherever_it_stands() {
    let mut volume = many_names();
    assert_eq!(volume.check(), Ok(()));
    let row = |folder, i| MANY_ROWS + ROW * (2 + NAMES * folder + i) + NAME;
    for (folder, i, j) in pairs() {
        let taken = volume.bytes()[row(folder, j)..][..ROW - NAME].to_vec();
        let other = volume.bytes()[row(folder, i)..][..ROW - NAME].to_vec();
        volume = with_bytes(volume, row(folder, j), &other);
        assert_eq!(volume.check(), Err(Error::UnsoundMemory), "{} as {}", j, i);
        volume = with_bytes(volume, row(folder, j), &taken);
    }
    assert_eq!(volume.check(), Ok(()));
}

/// Every two entries of each of the directories.
fn pairs() -> impl Iterator<Item = (usize, usize, usize)> {
    let entries = (0..2).flat_map(|folder| (0..NAMES).map(move |i| (folder, i)));
    entries
        .flat_map(|(folder, i)| (0..NAMES).map(move |j| (folder, i, j)))
        .filter(|(_, i, j)| i != j)
}
