//! The calls of the archive, as functions on slices. All `unsafe` of this crate is here.
//!
//! What the archive asks of its caller is what Rust's references promise (host/lentilraft.h,
//! "What C must see to itself"):
//!
//! - A pointer is not null and points to as many bytes as the length beside it says. Both are
//!   always taken from one slice, whose pointer is not null even when it is empty.
//! - Memory that a call writes to overlaps no other memory given to that call. It is always lent
//!   by `&mut`, and nothing else that is lent during the call can overlap that.
//!
//! The archive keeps no pointer, allocates nothing and gives an answer for any bytes and any
//! numbers. That the types below are those of the archive's functions is what host/check-header
//! holds them to.

use crate::error::{answer, Result};

#[rustfmt::skip]
extern "C" {
    fn lentilraft_new_volume(volume: *mut u8, length: usize, nodes: u64, entries: u64, chunks: u64, chunk_size: u64) -> u32;
    fn lentilraft_check(volume: *const u8, length: usize) -> u32;
    fn lentilraft_open_allocator(words: *mut u8, length: usize) -> u32;
    fn lentilraft_set_chunk_size(volume: *mut u8, length: usize, chunk_size: u64) -> u32;
    fn lentilraft_read(volume: *const u8, length: usize, node: u64, offset: u64, buffer: *mut u8, buffer_length: usize, count: &mut u64) -> u32;
    fn lentilraft_write(volume: *mut u8, length: usize, node: u64, offset: u64, bytes: *const u8, bytes_length: usize, count: &mut u64) -> u32;
    fn lentilraft_resize_file(volume: *mut u8, length: usize, node: u64, size: u64) -> u32;
    fn lentilraft_set_limit(volume: *mut u8, length: usize, node: u64, limit: u64) -> u32;
    fn lentilraft_clear_limit(volume: *mut u8, length: usize, node: u64) -> u32;
    fn lentilraft_create(volume: *mut u8, length: usize, parent: u64, name: *const u8, name_length: usize, kind: u8, node: &mut u64) -> u32;
    fn lentilraft_link(volume: *mut u8, length: usize, parent: u64, name: *const u8, name_length: usize, target: u64) -> u32;
    fn lentilraft_find_node(volume: *const u8, length: usize, start: u64, path: *const u8, path_length: usize, node: &mut u64) -> u32;
    fn lentilraft_unlink(volume: *mut u8, length: usize, start: u64, path: *const u8, path_length: usize, expected: u8, opens: u64, node: &mut u64) -> u32;
    fn lentilraft_remove(volume: *mut u8, length: usize, node: u64) -> u32;
    fn lentilraft_next_entry(volume: *const u8, length: usize, directory: u64, from: u32, name_start: &mut u64, name_length: &mut u64, index: &mut u32, node: &mut u64) -> u32;
    fn lentilraft_search(volume: *const u8, length: usize, directory: u64, name: *const u8, name_length: usize, from: u32, most: u64, found: &mut u32, index: &mut u32, node: &mut u64, looked: &mut u64) -> u32;
    fn lentilraft_report(volume: *const u8, length: usize, out: *mut u8, out_length: usize, count: &mut u64) -> u32;
}

pub(crate) fn new_volume(
    volume: &mut [u8],
    nodes: u64,
    entries: u64,
    chunks: u64,
    chunk_size: u64,
) -> Result<()> {
    // SAFETY: pointer and length are of one slice, lent by `&mut`; the rest are numbers.
    let number = unsafe {
        lentilraft_new_volume(
            volume.as_mut_ptr(),
            volume.len(),
            nodes,
            entries,
            chunks,
            chunk_size,
        )
    };
    answer(number, ())
}

pub(crate) fn check(volume: &[u8]) -> Result<()> {
    // SAFETY: pointer and length are of one slice, which is only read.
    let number = unsafe { lentilraft_check(volume.as_ptr(), volume.len()) };
    answer(number, ())
}

pub(crate) fn open_allocator(words: &mut [u8]) -> Result<()> {
    // SAFETY: pointer and length are of one slice, lent by `&mut`.
    let number = unsafe { lentilraft_open_allocator(words.as_mut_ptr(), words.len()) };
    answer(number, ())
}

pub(crate) fn set_chunk_size(volume: &mut [u8], chunk_size: u64) -> Result<()> {
    // SAFETY: pointer and length are of one slice, lent by `&mut`.
    let number =
        unsafe { lentilraft_set_chunk_size(volume.as_mut_ptr(), volume.len(), chunk_size) };
    answer(number, ())
}

pub(crate) fn read(volume: &[u8], node: u64, offset: u64, buffer: &mut [u8]) -> Result<u64> {
    let mut count = 0;
    // SAFETY: each pointer and the length behind it are of one slice. The volume is only read; the
    // buffer and the count are lent by `&mut`, so they overlap neither it nor one another.
    let number = unsafe {
        lentilraft_read(
            volume.as_ptr(),
            volume.len(),
            node,
            offset,
            buffer.as_mut_ptr(),
            buffer.len(),
            &mut count,
        )
    };
    answer(number, count)
}

pub(crate) fn write(volume: &mut [u8], node: u64, offset: u64, bytes: &[u8]) -> Result<u64> {
    let mut count = 0;
    // SAFETY: each pointer and the length behind it are of one slice. The volume and the count are
    // lent by `&mut`, so they overlap neither the bytes nor one another.
    let number = unsafe {
        lentilraft_write(
            volume.as_mut_ptr(),
            volume.len(),
            node,
            offset,
            bytes.as_ptr(),
            bytes.len(),
            &mut count,
        )
    };
    answer(number, count)
}

pub(crate) fn resize_file(volume: &mut [u8], node: u64, size: u64) -> Result<()> {
    // SAFETY: pointer and length are of one slice, lent by `&mut`.
    let number = unsafe { lentilraft_resize_file(volume.as_mut_ptr(), volume.len(), node, size) };
    answer(number, ())
}

pub(crate) fn set_limit(volume: &mut [u8], node: u64, limit: u64) -> Result<()> {
    // SAFETY: pointer and length are of one slice, lent by `&mut`.
    let number = unsafe { lentilraft_set_limit(volume.as_mut_ptr(), volume.len(), node, limit) };
    answer(number, ())
}

pub(crate) fn clear_limit(volume: &mut [u8], node: u64) -> Result<()> {
    // SAFETY: pointer and length are of one slice, lent by `&mut`.
    let number = unsafe { lentilraft_clear_limit(volume.as_mut_ptr(), volume.len(), node) };
    answer(number, ())
}

pub(crate) fn create(volume: &mut [u8], parent: u64, name: &[u8], kind: u8) -> Result<u64> {
    let mut node = 0;
    // SAFETY: each pointer and the length behind it are of one slice. The volume and the node are
    // lent by `&mut`, so they overlap neither the name nor one another.
    let number = unsafe {
        lentilraft_create(
            volume.as_mut_ptr(),
            volume.len(),
            parent,
            name.as_ptr(),
            name.len(),
            kind,
            &mut node,
        )
    };
    answer(number, node)
}

pub(crate) fn link(volume: &mut [u8], parent: u64, name: &[u8], target: u64) -> Result<()> {
    // SAFETY: each pointer and the length behind it are of one slice. The volume is lent by `&mut`,
    // so it does not overlap the name.
    let number = unsafe {
        lentilraft_link(
            volume.as_mut_ptr(),
            volume.len(),
            parent,
            name.as_ptr(),
            name.len(),
            target,
        )
    };
    answer(number, ())
}

pub(crate) fn find_node(volume: &[u8], start: u64, path: &[u8]) -> Result<u64> {
    let mut node = 0;
    // SAFETY: each pointer and the length behind it are of one slice. Both slices are only read, so
    // they may overlap; the node is lent by `&mut`, so it overlaps neither.
    let number = unsafe {
        lentilraft_find_node(
            volume.as_ptr(),
            volume.len(),
            start,
            path.as_ptr(),
            path.len(),
            &mut node,
        )
    };
    answer(number, node)
}

pub(crate) fn unlink(
    volume: &mut [u8],
    start: u64,
    path: &[u8],
    expected: u8,
    opens: u64,
) -> Result<u64> {
    let mut node = 0;
    // SAFETY: each pointer and the length behind it are of one slice. The volume and the node are
    // lent by `&mut`, so they overlap neither the path nor one another.
    let number = unsafe {
        lentilraft_unlink(
            volume.as_mut_ptr(),
            volume.len(),
            start,
            path.as_ptr(),
            path.len(),
            expected,
            opens,
            &mut node,
        )
    };
    answer(number, node)
}

pub(crate) fn remove(volume: &mut [u8], node: u64) -> Result<()> {
    // SAFETY: pointer and length are of one slice, lent by `&mut`.
    let number = unsafe { lentilraft_remove(volume.as_mut_ptr(), volume.len(), node) };
    answer(number, ())
}

/// Where in the volume the name of an entry stands, how long it is, and the entry's numbers.
#[derive(Default)]
pub(crate) struct NameGiven {
    pub start: u64,
    pub length: u64,
    pub index: u32,
    pub node: u64,
}

pub(crate) fn next_entry(volume: &[u8], directory: u64, from: u32) -> Result<NameGiven> {
    let mut name = NameGiven::default();
    // SAFETY: pointer and length are of one slice, which is only read; the four numbers are lent by
    // `&mut` and are fields of their own, so they overlap nothing.
    let number = unsafe {
        lentilraft_next_entry(
            volume.as_ptr(),
            volume.len(),
            directory,
            from,
            &mut name.start,
            &mut name.length,
            &mut name.index,
            &mut name.node,
        )
    };
    answer(number, name)
}

/// What came of a search, 0 to 2, and the numbers beside it.
#[derive(Debug, Default, PartialEq)]
pub(crate) struct SearchGiven {
    pub found: u32,
    pub index: u32,
    pub node: u64,
    pub looked: u64,
}

pub(crate) fn search(
    volume: &[u8],
    directory: u64,
    name: &[u8],
    from: u32,
    most: u64,
) -> Result<SearchGiven> {
    let mut given = SearchGiven::default();
    let number = search_into(volume, directory, name, from, most, &mut given);
    answer(number, given)
}

/// The number that a search gives back, and the others where they are lent.
fn search_into(
    volume: &[u8],
    directory: u64,
    name: &[u8],
    from: u32,
    most: u64,
    given: &mut SearchGiven,
) -> u32 {
    // SAFETY: each pointer and the length behind it are of one slice. Both slices are only read, so
    // they may overlap; the four numbers are lent by `&mut` and are fields of their own, so they
    // overlap nothing.
    unsafe {
        lentilraft_search(
            volume.as_ptr(),
            volume.len(),
            directory,
            name.as_ptr(),
            name.len(),
            from,
            most,
            &mut given.found,
            &mut given.index,
            &mut given.node,
            &mut given.looked,
        )
    }
}

pub(crate) fn report(volume: &[u8], out: &mut [u8]) -> Result<u64> {
    let mut count = 0;
    // SAFETY: each pointer and the length behind it are of one slice. The volume is only read; the
    // output and the count are lent by `&mut`, so they overlap neither it nor one another.
    let number = unsafe {
        lentilraft_report(
            volume.as_ptr(),
            volume.len(),
            out.as_mut_ptr(),
            out.len(),
            &mut count,
        )
    };
    answer(number, count)
}

/// Numbers that the types of this crate keep from ever being given, and places that it does not show.
#[cfg(test)]
mod tests {
    use super::*;
    use crate::error::Error;

    fn volume() -> Vec<u8> {
        let mut volume = vec![0; 65_728 + 40 + 280 + 32];
        new_volume(&mut volume, 1, 1, 1, 4096).unwrap();
        volume
    }

    #[test]
    fn a_short_output_is_refused() {
        let mut out = [7; 511];
        assert_eq!(report(&volume(), &mut out), Err(Error::OutputTooShort));
        assert_eq!(out, [7; 511]);
    }

    #[test]
    fn another_chunk_size_is_refused() {
        let mut volume = volume();
        let before = volume.clone();
        for size in [0, 2048, 12_288, 131_072, (1 << 32) + 4096, u64::MAX] {
            let refused = Err(Error::InvalidArgument);
            assert_eq!(set_chunk_size(&mut volume, size), refused, "{}", size);
            assert_eq!(new_volume(&mut volume, 1, 1, 1, size), refused, "{}", size);
        }
        assert!(volume == before);
    }

    #[test]
    fn another_kind_is_refused() {
        let mut volume = volume();
        assert_eq!(create(&mut volume, 0, b"f", 3), Err(Error::InvalidArgument));
        assert_eq!(
            unlink(&mut volume, 0, b"f", 3, 0),
            Err(Error::InvalidArgument)
        );
    }

    fn with_file() -> (Vec<u8>, u64) {
        let mut volume = vec![0; 65_728 + 2 * 40 + 280 + 32];
        new_volume(&mut volume, 2, 1, 1, 4096).unwrap();
        let file = create(&mut volume, 0, b"f", 1).unwrap();
        (volume, file)
    }

    /// What a search gives back and leaves in places that hold something else.
    fn searched(volume: &[u8], directory: u64, name: &[u8], most: u64) -> (u32, SearchGiven) {
        let mut given = SearchGiven {
            found: 7,
            index: 7,
            node: 7,
            looked: 7,
        };
        let number = search_into(volume, directory, name, 0, most, &mut given);
        (number, given)
    }

    #[test]
    fn a_refused_search_sets_every_place_to_0() {
        let (volume, file) = with_file();
        let refused = |number| (number, SearchGiven::default());
        for most in [0, 1, u64::MAX] {
            assert_eq!(searched(&volume[1..], 9, b"", most), refused(1));
            assert_eq!(searched(&volume, 9, b"", most), refused(2));
            assert_eq!(searched(&volume, file, b"", most), refused(4));
            assert_eq!(searched(&volume, 0, b"", most), refused(9));
        }
    }

    #[test]
    fn a_search_sets_every_place() {
        let (volume, file) = with_file();
        let told = |found, index, node, looked| {
            let given = SearchGiven {
                found,
                index,
                node,
                looked,
            };
            (0, given)
        };
        assert_eq!(searched(&volume, 0, b"f", 1), told(1, 1, file, 1));
        assert_eq!(searched(&volume, 0, b"g", 1), told(0, 0, 0, 1));
        assert_eq!(searched(&volume, 0, b"f", 0), told(2, 1, 0, 0));
    }
}
