//! New volume, check, set chunk size, report and the allocator's open; and the plain types.

use lentilraft::{open_allocator, ChunkSize, Error, Expected, Kind, Node, Rooms, Volume, ROOT};

use crate::helpers::{new_volume, refusal, reported, with_file, NO_CHUNK_SIZES, ROOMS};

#[test]
fn a_new_volume_has_the_root_only() {
    for size in ChunkSize::ALL {
        let volume = new_volume(size);
        assert_eq!(volume.check(), Ok(()));
        assert_eq!(volume.node(ROOT).unwrap().kind, Kind::Directory);
        assert_eq!(volume.entries(ROOT).count(), 0);
    }
}

#[test]
fn a_volume_is_made_of_any_memory() {
    let length = ROOMS.least_length() as usize;
    let mut owned = vec![1; length];
    let made = Volume::new(&mut owned[..], ROOMS, ChunkSize::K4).unwrap();
    assert_eq!(made.check(), Ok(()));
    let boxed = vec![2; length].into_boxed_slice();
    let made = Volume::new(boxed, ROOMS, ChunkSize::K4).unwrap();
    assert!(made.bytes() == owned);
    assert!(made.into_inner()[..] == owned);
}

#[test]
fn a_volume_made_before_is_taken_up_again() {
    let (volume, file) = with_file();
    let mut bytes = volume.into_inner();
    assert_eq!(Volume::over(&bytes[..]).find(ROOT, b"hood-7"), Ok(file));
    assert_eq!(Volume::over(&mut bytes[..]).write(file, 0, b"0.52"), Ok(4));
    assert_eq!(Volume::over(bytes).node(file).unwrap().size, 4);
}

#[test]
fn new_is_refused_and_leaves_lent_bytes() {
    let least = ROOMS.least_length() as usize;
    let short = vec![0xa5; least - 1];
    refuse_new(short, ROOMS);
    for wrong in [0, 4097, u64::MAX] {
        refuse_new(
            vec![0xa5; least],
            Rooms {
                nodes: wrong,
                ..ROOMS
            },
        );
        refuse_new(
            vec![0xa5; least],
            Rooms {
                entries: wrong,
                ..ROOMS
            },
        );
        refuse_new(
            vec![0xa5; least],
            Rooms {
                chunks: wrong,
                ..ROOMS
            },
        );
    }
    refuse_new(Vec::new(), ROOMS);
}

fn refuse_new(mut bytes: Vec<u8>, rooms: Rooms) {
    let before = bytes.clone();
    let refused = Volume::new(&mut bytes[..], rooms, ChunkSize::K4);
    assert_eq!(refused.unwrap_err(), Error::InvalidArgument);
    assert!(bytes == before);
}

#[test]
fn a_volume_has_the_greatest_rooms() {
    let rooms = Rooms {
        nodes: 4096,
        entries: 4096,
        chunks: 4096,
    };
    let bytes = vec![0; rooms.least_length() as usize];
    let volume = Volume::new(bytes, rooms, ChunkSize::K4).unwrap();
    assert_eq!(volume.geometry().unwrap().rooms, rooms);
}

#[test]
fn a_volume_does_not_show_its_bytes() {
    let volume = Volume::over([0; 3]);
    assert_eq!(format!("{:?}", volume), "Volume { length: 3, .. }");
    let entries = format!("{:?}", volume.entries(ROOT));
    assert_eq!(entries, "Entries { directory: Node(0), from: Some(0), .. }");
}

#[test]
fn a_clone_is_a_volume_of_its_own() {
    let (mut volume, file) = with_file();
    let kept = volume.clone();
    volume.write(file, 0, b"0.52").unwrap();
    assert_eq!(kept.node(file).unwrap().size, 0);
}

#[test]
fn the_chunk_size_is_set_before_the_first_chunk() {
    let (mut volume, file) = with_file();
    for size in ChunkSize::ALL {
        assert_eq!(volume.set_chunk_size(size), Ok(()));
        assert_eq!(volume.geometry().unwrap().chunk_size, size);
    }
    volume.write(file, 0, b"x").unwrap();
    volume.resize(file, 0).unwrap();
    let (now, others) = ChunkSize::ALL.split_last().unwrap();
    for size in others {
        assert_eq!(
            refusal(&mut volume, |v| v.set_chunk_size(*size)),
            Error::InvalidArgument
        );
    }
    assert_eq!(volume.set_chunk_size(*now), Ok(()));
}

#[test]
fn the_report_of_a_new_volume() {
    let wanted = "format=1\nchunk_size=16384\nchunk_shift=14\nnodes=1\nentries=0\nchunks=0\nfree=0\nnext_ptr=0\nnext_node=1\n";
    assert_eq!(new_volume(ChunkSize::K16).report().unwrap(), wanted);
}

#[test]
fn the_report_tells_the_chunk_size_and_its_shift() {
    for (size, shift) in ChunkSize::ALL.into_iter().zip(12..) {
        let volume = new_volume(size);
        assert_eq!(reported(&volume, "chunk_size"), size.bytes());
        assert_eq!(reported(&volume, "chunk_shift"), shift);
    }
}

/// Sixteen words of an allocator: a marker, a chunk size, a free count and the next pointer.
fn words(marker: &[u8; 4], numbers: [u64; 3]) -> Vec<u8> {
    let mut words = vec![0; 128];
    words[..4].copy_from_slice(marker);
    for (place, number) in numbers.into_iter().enumerate() {
        words[8 + 8 * place..16 + 8 * place].copy_from_slice(&number.to_le_bytes());
    }
    words
}

#[test]
fn older_words_are_opened() {
    let mut older = words(b"ALO1", [0, 0, 0]);
    assert_eq!(open_allocator(&mut older), Ok(()));
    assert_eq!(older, words(b"FSA1", [16384, 0, 0]));
    assert_eq!(open_allocator(&mut older), Ok(()));
    assert_eq!(older, words(b"FSA1", [16384, 0, 0]));
}

#[test]
fn words_with_any_chunk_size_are_opened() {
    for size in ChunkSize::ALL {
        let numbers = [size.bytes(), 0, 3 * size.bytes()];
        let mut older = words(b"ALO1", numbers);
        assert_eq!(open_allocator(&mut older), Ok(()));
        assert_eq!(older, words(b"FSA1", numbers));
    }
}

#[test]
fn the_words_of_a_volume_are_an_allocator() {
    for size in ChunkSize::ALL {
        let mut bytes = new_volume(size).into_inner();
        let before = bytes.clone();
        assert_eq!(open_allocator(&mut bytes[64..]), Ok(()));
        assert!(bytes == before);
    }
}

#[test]
fn wrong_words_are_refused() {
    refuse_open(
        words(b"FSA1", [16384, 0, 0])[..127].to_vec(),
        Error::InvalidArgument,
    );
    refuse_open(Vec::new(), Error::InvalidArgument);
    refuse_open(words(b"FSA2", [16384, 0, 0]), Error::UnsoundMemory);
    refuse_open(words(b"FSA1", [0, 0, 16384]), Error::UnsoundMemory);
    for bytes in NO_CHUNK_SIZES {
        refuse_open(words(b"FSA1", [bytes, 0, 0]), Error::UnsoundMemory);
        refuse_open(words(b"ALO1", [bytes, 0, 0]), Error::UnsoundMemory);
    }
    refuse_open(words(b"FSA1", [16384, 1, 16384]), Error::UnsoundMemory);
    refuse_open(words(b"FSA1", [16384, 0, 1]), Error::UnsoundMemory);
}

fn refuse_open(mut words: Vec<u8>, error: Error) {
    let before = words.clone();
    assert_eq!(open_allocator(&mut words), Err(error));
    assert_eq!(words, before);
}

#[test]
fn lengths_by_rooms() {
    assert_eq!(ROOMS.least_length(), 65_728 + 40 * 8 + 280 * 8 + 32 * 8);
    assert_eq!(ROOMS.length_for(ChunkSize::K4), ROOMS.least_length());
    assert_eq!(
        ROOMS.length_for(ChunkSize::K64),
        ROOMS.least_length() + 7 * 65_536
    );
    let endless = Rooms {
        nodes: u64::MAX,
        entries: 1,
        chunks: u64::MAX,
    };
    assert_eq!(endless.least_length(), u64::MAX);
    assert_eq!(endless.length_for(ChunkSize::K4), u64::MAX);
}

#[test]
fn chunk_sizes_by_bytes() {
    let bytes = [4096, 8192, 16_384, 32_768, 65_536];
    assert_eq!(ChunkSize::ALL.map(ChunkSize::bytes), bytes);
    assert_eq!(bytes.map(ChunkSize::try_from), ChunkSize::ALL.map(Ok));
    for bytes in NO_CHUNK_SIZES.into_iter().chain([0]) {
        assert_eq!(ChunkSize::try_from(bytes), Err(Error::InvalidArgument));
    }
}

#[test]
fn a_node_is_shown_as_its_number() {
    assert_eq!(format!("{} {:>3}", ROOT, Node(12)), "0  12");
    assert!(ROOT < Node(1));
}

#[test]
fn numbers_and_messages_are_those_of_the_scope() {
    let wanted = [
        (Error::UnsoundMemory, 1, "unsound memory"),
        (Error::NoSuchEntry, 2, "no such node or entry"),
        (Error::IsDirectory, 3, "is a directory"),
        (Error::NotDirectory, 4, "not a directory"),
        (Error::FileTooLarge, 5, "file too large"),
        (Error::NoChunkRoom, 6, "no chunk room"),
        (
            Error::NoRowRoom,
            7,
            "node or entry rows used up, or next node is u64::MAX",
        ),
        (Error::PathNotPermitted, 8, "path not permitted"),
        (Error::BadName, 9, "bad name"),
        (Error::NameExists, 10, "name exists"),
        (Error::DirectoryNotEmpty, 11, "directory not empty"),
        (Error::Busy, 12, "busy"),
        (Error::InvalidArgument, 13, "invalid argument"),
        (
            Error::NoIndexLeft,
            14,
            "directory's greatest index is u32::MAX",
        ),
        (Error::OutputTooShort, 15, "output shorter than 512 bytes"),
    ];
    for (error, number, message) in wanted {
        assert_eq!(error.number(), number);
        assert_eq!(error.to_string(), message);
    }
}

#[test]
fn a_refusal_is_an_error_like_others() {
    fn unlink() -> std::result::Result<Node, Box<dyn std::error::Error>> {
        let (mut volume, _) = with_file();
        Ok(volume.unlink(ROOT, b"hood-9", Expected::Any, 0)?)
    }
    assert_eq!(unlink().unwrap_err().to_string(), "no such node or entry");
}
