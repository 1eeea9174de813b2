//! Read, write, resize and set limit.

use lentilraft::{ChunkSize, Error, Kind, ROOT};

use crate::helpers::{content, new_volume, refusal, reported, with_file, MISSING, ROOMS};

const SPAN: u64 = 4096;
const GREATEST: u64 = 1 << 40;

#[test]
fn a_gap_reads_zero() {
    let (mut volume, file) = with_file();
    assert_eq!(volume.write(file, 9000, b"0.52"), Ok(4));
    assert_eq!(content(&volume, file, 0, 9000), vec![0; 9000]);
    assert_eq!(content(&volume, file, 8998, 6), b"\0\x000.52");
}

#[test]
fn a_reused_chunk_shows_nothing_old() {
    let (mut volume, file) = with_file();
    volume.write(file, 0, &[7; 4096]).unwrap();
    volume.resize(file, 0).unwrap();
    volume.write(file, 10, &[8; 10]).unwrap();
    assert_eq!(reported(&volume, "next_ptr"), SPAN);
    volume.resize(file, SPAN).unwrap();
    let mut wanted = vec![0; 4096];
    wanted[10..20].fill(8);
    assert_eq!(content(&volume, file, 0, 4096), wanted);
}

#[test]
fn a_write_replaces_what_it_meets_only() {
    let (mut volume, file) = with_file();
    volume.write(file, SPAN - 3, b"abcdef").unwrap();
    volume.write(file, SPAN - 1, b"XY").unwrap();
    assert_eq!(content(&volume, file, SPAN - 3, 9), b"abXYef");
}

#[test]
fn a_read_tells_how_many_bytes_there_were() {
    let (mut volume, file) = with_file();
    volume.write(file, 0, b"abcdef").unwrap();
    let mut buffer = [9; 4];
    assert_eq!(volume.read(file, 4, &mut buffer), Ok(2));
    assert_eq!(&buffer, b"ef\x09\x09");
    assert_eq!(volume.read(file, 1, &mut buffer), Ok(4));
    assert_eq!(&buffer, b"bcde");
    for offset in [6, 7, u64::MAX] {
        assert_eq!(volume.read(file, offset, &mut buffer), Ok(0));
        assert_eq!(&buffer, b"bcde");
    }
    assert_eq!(volume.read(file, 0, &mut []), Ok(0));
}

#[test]
fn a_refused_read_leaves_the_buffer() {
    let (volume, _) = with_file();
    let mut buffer = *b"kept";
    assert_eq!(
        volume.read(MISSING, 0, &mut buffer),
        Err(Error::NoSuchEntry)
    );
    assert_eq!(volume.read(ROOT, 0, &mut buffer), Err(Error::IsDirectory));
    assert_eq!(&buffer, b"kept");
}

#[test]
fn a_symbolic_link_has_bytes() {
    let mut volume = new_volume(ChunkSize::K4);
    let link = volume.create(ROOT, b"newest", Kind::SymbolicLink).unwrap();
    assert_eq!(volume.write(link, 0, b"traces/hood-7"), Ok(13));
    assert_eq!(content(&volume, link, 0, 100), b"traces/hood-7");
}

#[test]
fn an_empty_write_changes_nothing() {
    let (mut volume, file) = with_file();
    let before = volume.bytes().to_vec();
    for offset in [0, 5, GREATEST, u64::MAX] {
        assert_eq!(volume.write(file, offset, b""), Ok(0));
    }
    assert!(volume.bytes() == before);
    assert_eq!(
        refusal(&mut volume, |v| v.write(MISSING, 0, b"")),
        Error::NoSuchEntry
    );
    assert_eq!(
        refusal(&mut volume, |v| v.write(ROOT, 0, b"")),
        Error::IsDirectory
    );
}

#[test]
fn write_is_refused() {
    let (mut volume, file) = with_file();
    assert_eq!(
        refusal(&mut volume, |v| v.write(MISSING, 0, b"x")),
        Error::NoSuchEntry
    );
    assert_eq!(
        refusal(&mut volume, |v| v.write(ROOT, 0, b"x")),
        Error::IsDirectory
    );
    for offset in [GREATEST, u64::MAX] {
        assert_eq!(
            refusal(&mut volume, |v| v.write(file, offset, b"x")),
            Error::FileTooLarge
        );
    }
    assert_eq!(
        refusal(&mut volume, |v| v.write(file, 0, &[1; 9 * 4096])),
        Error::NoChunkRoom
    );
    assert_eq!(volume.write(file, GREATEST - 1, b"x"), Ok(1));
}

#[test]
fn chunks_are_counted_before_the_first_is_taken() {
    let (mut volume, file) = with_file();
    volume.write(file, 0, &[1; 7 * 4096]).unwrap();
    let across = 7 * SPAN - 1;
    assert_eq!(volume.write(file, across, &[2; 2]), Ok(2));
    assert_eq!(
        refusal(&mut volume, |v| v.write(file, 8 * SPAN - 1, &[3; 2])),
        Error::NoChunkRoom
    );
    assert_eq!(volume.write(file, 8 * SPAN - 1, &[3]), Ok(1));
}

#[test]
fn a_short_memory_has_fewer_chunks_than_rooms() {
    let bytes = vec![0; ROOMS.least_length() as usize];
    let mut volume = lentilraft::Volume::new(bytes, ROOMS, ChunkSize::K16).unwrap();
    let file = volume.create(ROOT, b"f", Kind::File).unwrap();
    assert_eq!(volume.write(file, 0, &[1; 65536]), Ok(65536));
    assert_eq!(
        refusal(&mut volume, |v| v.write(file, 65536, b"x")),
        Error::NoChunkRoom
    );
}

#[test]
fn a_cut_is_not_seen_again() {
    let (mut volume, file) = with_file();
    volume.write(file, 0, b"abcdef").unwrap();
    volume.resize(file, 3).unwrap();
    assert_eq!(content(&volume, file, 0, 10), b"abc");
    volume.resize(file, 6).unwrap();
    assert_eq!(content(&volume, file, 0, 10), b"abc\0\0\0");
}

#[test]
fn resize_is_refused() {
    let (mut volume, file) = with_file();
    assert_eq!(
        refusal(&mut volume, |v| v.resize(MISSING, 0)),
        Error::NoSuchEntry
    );
    assert_eq!(
        refusal(&mut volume, |v| v.resize(ROOT, 0)),
        Error::IsDirectory
    );
    assert_eq!(
        refusal(&mut volume, |v| v.resize(file, GREATEST + 1)),
        Error::FileTooLarge
    );
    assert_eq!(volume.resize(file, GREATEST), Ok(()));
}

#[test]
fn a_sparse_file_is_cut_on_a_full_volume() {
    let (mut volume, full) = with_file();
    let sparse = volume.create(ROOT, b"sparse", Kind::File).unwrap();
    volume.write(full, 0, &[1; 8 * 4096]).unwrap();
    volume.resize(sparse, 10 * SPAN).unwrap();
    assert_eq!(volume.resize(sparse, SPAN + 1), Ok(()));
    assert_eq!(reported(&volume, "chunks"), 8);
    assert_eq!(content(&volume, sparse, SPAN, 10), [0]);
    volume.resize(sparse, 10 * SPAN).unwrap();
    assert_eq!(content(&volume, sparse, 0, 10 * 4096), [0; 10 * 4096]);
    assert_eq!(
        refusal(&mut volume, |v| v.write(sparse, SPAN, b"x")),
        Error::NoChunkRoom
    );
}

#[test]
fn a_limit_keeps_a_file_small() {
    let (mut volume, file) = with_file();
    volume.write(file, 0, b"abc").unwrap();
    assert_eq!(volume.set_limit(file, Some(5)), Ok(()));
    assert_eq!(
        refusal(&mut volume, |v| v.write(file, 3, b"def")),
        Error::FileTooLarge
    );
    assert_eq!(
        refusal(&mut volume, |v| v.resize(file, 6)),
        Error::FileTooLarge
    );
    assert_eq!(volume.write(file, 3, b"de"), Ok(2));
    assert_eq!(volume.set_limit(file, None), Ok(()));
    assert_eq!(volume.write(file, 5, b"f"), Ok(1));
}

#[test]
fn set_limit_is_refused() {
    let (mut volume, file) = with_file();
    volume.write(file, 0, b"abc").unwrap();
    for limit in [None, Some(5), Some(u64::MAX)] {
        assert_eq!(
            refusal(&mut volume, |v| v.set_limit(MISSING, limit)),
            Error::NoSuchEntry
        );
        assert_eq!(
            refusal(&mut volume, |v| v.set_limit(ROOT, limit)),
            Error::IsDirectory
        );
    }
    assert_eq!(
        refusal(&mut volume, |v| v.set_limit(file, Some(GREATEST + 1))),
        Error::InvalidArgument
    );
    assert_eq!(
        refusal(&mut volume, |v| v.set_limit(file, Some(2))),
        Error::FileTooLarge
    );
    assert_eq!(volume.set_limit(file, Some(3)), Ok(()));
    assert_eq!(volume.set_limit(file, Some(GREATEST)), Ok(()));
}

/// The boundary table of the scope, rows P1 to P3, for each chunk size.
#[test]
fn three_bytes_across_a_boundary() {
    for size in ChunkSize::ALL {
        let span = size.bytes();
        let mut volume = new_volume(size);
        let file = volume.create(ROOT, b"f", Kind::File).unwrap();
        assert_eq!(volume.write(file, span - 1, b"abc"), Ok(3));
        assert_eq!(volume.node(file).unwrap().size, span + 2);
        assert_eq!(reported(&volume, "next_ptr"), 2 * span);
        volume.resize(file, span - 1).unwrap();
        assert_eq!(
            (reported(&volume, "chunks"), reported(&volume, "free")),
            (1, 1)
        );
        volume.resize(file, span + 2).unwrap();
        assert_eq!(content(&volume, file, span - 1, 9), [0, 0, 0]);
    }
}
