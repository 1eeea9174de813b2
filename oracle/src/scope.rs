//! The scope's own answers where the Rust may differ: the allocator's open and the cutting of
//! paths, spelled out once more so that every difference is found, and its numbers. And the rule
//! by which calls are left out of runs, since the two differ on them.

use crate::{
    calls::Call,
    error::Error,
    numbered::Numbered,
    storage::types::{MAX_FILE_ENTRY_INDEX, MAX_FILE_NAME},
    volume::FILE_LIMIT,
};

pub const UNSOUND_MEMORY: u64 = 1;
pub const NO_SUCH_ENTRY: u64 = 2;
pub const PATH_NOT_PERMITTED: u64 = 8;
pub const INVALID_ARGUMENT: u64 = 13;

pub const FIRST_POINTER: usize = 16;
pub const DEFAULT_SIZE: u64 = 16384;
pub const MARKER: u64 = marker(b"FSA1");
pub const OLD_MARKER: u64 = marker(b"ALO1");

const fn marker(name: &[u8; 4]) -> u64 {
    u32::from_le_bytes(*name) as u64
}

/// The scope's number for an error of the Rust, where it has one.
pub fn number(error: Error) -> Option<u64> {
    Some(match error {
        Error::IllegalByteSequence => UNSOUND_MEMORY,
        Error::NoSuchFileOrDirectory => NO_SUCH_ENTRY,
        Error::IsDirectory => 3,
        Error::NotADirectoryOrSymbolicLink => 4,
        Error::FileTooLarge => 5,
        Error::OperationNotPermitted => PATH_NOT_PERMITTED,
        Error::FilenameTooLong => 9,
        Error::DirectoryNotEmpty => 11,
        Error::TextFileBusy => 12,
        Error::InvalidArgument => INVALID_ARGUMENT,
        _ => return None,
    })
}

fn is_chunk_size(size: u64) -> bool {
    size.count_ones() == 1 && (12..=16).contains(&size.trailing_zeros())
}

/// The words after an accepted open, or the number of the refusal.
pub fn open(words: &[u64]) -> Result<Vec<u64>, u64> {
    if words.len() < FIRST_POINTER {
        return Err(INVALID_ARGUMENT);
    }
    let (size, count, next) = (words[1], words[2], words[3]);
    let marked = words[0] & 0xffff_ffff;
    if marked != MARKER && marked != OLD_MARKER || size == 0 && next != 0 {
        return Err(UNSOUND_MEMORY);
    }
    let size = if size == 0 { DEFAULT_SIZE } else { size };
    if !is_chunk_size(size) || count > (words.len() - FIRST_POINTER) as u64 {
        return Err(UNSOUND_MEMORY);
    }
    let free = &words[FIRST_POINTER..][..count as usize];
    let is_bad = |i: usize| free[i] % size != 0 || free[i] >= next || free[..i].contains(&free[i]);
    if next % size != 0 || (0..free.len()).any(is_bad) {
        return Err(UNSOUND_MEMORY);
    }
    let mut after = words.to_vec();
    after[1] = size;
    if marked == OLD_MARKER {
        after[0] = MARKER;
    }
    Ok(after)
}

/// The parts of a path, or the number of the refusal.
pub fn path_parts(path: &[u8]) -> Result<Vec<&[u8]>, u64> {
    if path.first() == Some(&b'/') {
        return Err(PATH_NOT_PERMITTED);
    }
    let mut parts = Vec::new();
    for piece in path.split(|&byte| byte == b'/') {
        match piece {
            b"" | b"." => {}
            b".." => drop(parts.pop().ok_or(PATH_NOT_PERMITTED)?),
            name => parts.push(name),
        }
    }
    Ok(parts)
}

/// Whether a path's last piece is empty, `.` or `..`, with a part left: it then means a directory.
fn means_directory(path: &[u8]) -> bool {
    let last_piece = path.rsplit(|&byte| byte == b'/').next();
    let has_part = path_parts(path).is_ok_and(|parts| !parts.is_empty());
    has_part && matches!(last_piece, Some(b"" | b"." | b".."))
}

/// The longest path that the scope takes; the Rust takes any.
pub const MAX_PATH: usize = 4096;

/// The last type byte.
const LAST_KIND: u8 = 2;

/// Why a call stands in no run: the name of the difference in docs/DIFFERENCES.md. `None` for a
/// call on which the two agree.
pub fn left_out(call: &Call, volume: &Numbered) -> Option<&'static str> {
    match call {
        Call::Read { node, .. } => on_directory(volume, *node, "directory-read"),
        &Call::Write {
            node,
            offset,
            length,
            ..
        } => on_directory(volume, node, "directory-write")
            .or(when(offset.checked_add(length).is_none(), "write-wraps"))
            .or(when(cramped_write(volume, node, offset, length), "room")),
        &Call::Resize { node, .. } => on_directory(volume, node, "directory-resize"),
        &Call::SetLimit { node, limit } => on_directory(volume, node, "directory-limit").or(when(
            limit.is_some_and(|limit| limit > FILE_LIMIT),
            "limit-above",
        )),
        Call::Create { parent, kind, name } => {
            let refused_before = volume.metadata(*parent).is_none() || name.len() > MAX_FILE_NAME;
            new_name(volume, *parent, name)
                .or(when(*kind > LAST_KIND && refused_before, "create-type"))
                .or(when(rows_used_up(volume), "rows"))
        }
        Call::Link {
            parent,
            target,
            name,
        } => {
            let no_target = volume.metadata(*target).is_none();
            new_name(volume, *parent, name)
                .or(when(volume.is_directory(*target), "link-directory"))
                .or(when(no_target && name.len() > MAX_FILE_NAME, "link-order"))
                .or(when(entry_rows_used_up(volume), "rows"))
        }
        Call::Unlink { start, path, .. } => looked_up(volume, *start, path).or(when(
            path_parts(path.as_bytes()).is_ok_and(|parts| parts.is_empty()),
            "unlink-no-parts",
        )),
        Call::Remove { node } => when(links(volume, *node) > Some(0), "remove-linked"),
        Call::Find { start, path } => looked_up(volume, *start, path),
        &Call::NextEntry { directory, from } => {
            let is_file = volume.metadata(directory).is_some() && !volume.is_directory(directory);
            when(from >= MAX_FILE_ENTRY_INDEX, "list-high").or(when(is_file, "list-no-directory"))
        }
    }
}

fn when(differs: bool, name: &'static str) -> Option<&'static str> {
    differs.then_some(name)
}

fn on_directory(volume: &Numbered, node: u64, name: &'static str) -> Option<&'static str> {
    when(volume.is_directory(node), name)
}

fn links(volume: &Numbered, node: u64) -> Option<u64> {
    Some(volume.metadata(node)?.link_count)
}

/// A new entry. Where the parent is missing or the name is too long, both refuse alike.
fn new_name(volume: &Numbered, parent: u64, name: &str) -> Option<&'static str> {
    volume.metadata(parent)?;
    let is_bad = name.is_empty() || name == "." || name == ".." || name.contains('/');
    let entries = volume.entries(parent);
    let is_there = entries.iter().any(|entry| entry.name == name.as_bytes());
    let is_last = |index: u32| index + 1 >= MAX_FILE_ENTRY_INDEX;
    when(links(volume, parent) == Some(0), "under-removed")
        .or(when(!volume.is_directory(parent), "below-file"))
        .or(when(is_bad && name.len() <= MAX_FILE_NAME, "name-bad"))
        .or(when(is_there, "name-twice"))
        .or(when(entries.iter().any(|e| is_last(e.index)), "index-full"))
}

/// A path that is refused before any lookup needs no start. One that means a directory is left out
/// wherever it leads: the Rust takes it as any other.
fn looked_up(volume: &Numbered, start: u64, path: &str) -> Option<&'static str> {
    let is_permitted = path_parts(path.as_bytes()).is_ok();
    let is_missing = volume.metadata(start).is_none();
    when(path.len() > MAX_PATH, "path-long")
        .or(when(is_permitted && is_missing, "find-missing-start"))
        .or(when(means_directory(path.as_bytes()), "folder-path"))
}

fn rows_used_up(volume: &Numbered) -> bool {
    volume.nodes().len() as u64 >= volume.rooms.nodes || entry_rows_used_up(volume)
}

fn entry_rows_used_up(volume: &Numbered) -> bool {
    let nodes = volume.nodes();
    let entries: usize = nodes.iter().map(|&node| volume.entries(node).len()).sum();
    entries as u64 >= volume.rooms.entries
}

/// The chunks that can still be taken.
pub fn chunk_room(volume: &Numbered) -> u64 {
    let nodes = volume.nodes();
    let used: usize = nodes.iter().map(|&node| volume.chunks(node).len()).sum();
    let most = volume
        .rooms
        .chunks
        .min(volume.rooms.area / volume.chunk_size);
    most - used as u64
}

/// The indexes that a write touches: the first, and the one behind the last.
pub fn touched(chunk_size: u64, offset: u64, length: u64) -> (u64, u64) {
    let first = offset / chunk_size;
    match length {
        0 => (first, first),
        _ => (first, (offset + length).div_ceil(chunk_size)),
    }
}

fn cramped_write(volume: &Numbered, node: u64, offset: u64, length: u64) -> bool {
    if offset.saturating_add(length) > FILE_LIMIT {
        return false;
    }
    let (first, behind) = touched(volume.chunk_size, offset, length);
    let chunks = volume.chunks(node);
    let there = chunks
        .iter()
        .filter(|index| (first..behind).contains(*index));
    behind - first - there.count() as u64 > chunk_room(volume)
}
