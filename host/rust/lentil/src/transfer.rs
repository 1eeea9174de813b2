//! Bytes between files of a volume and files of the host.

use std::fs::File;
use std::io::Write;
use std::ops::Range;
use std::os::unix::fs::FileExt;

use lentilraft::{Node, Result};

use crate::failure::{About, Outcome, Subject};
use crate::host::Source;
use crate::progress::Progress;
use crate::replace;
use crate::store::Volume;
use crate::text;

/// What is read at once, a multiple of every chunk size. Each call on a volume checks all of it, so
/// that few calls with much are better than many.
const PIECE: usize = 16 << 20;

/// No file is larger.
const GREATEST_FILE: u64 = 1 << 40;

/// What writing must know of a volume. It is asked for once, and not for each file.
#[derive(Clone, Copy)]
pub struct Chunks {
    /// How many bytes each has.
    span: u64,
    /// How many bytes all have together: more are never written at once.
    all: u64,
}

impl Chunks {
    pub fn of(volume: &Volume) -> Result<Chunks> {
        let geometry = volume.geometry()?;
        let span = geometry.chunk_size.bytes();
        Ok(Chunks {
            span,
            all: geometry.rooms.chunks * span,
        })
    }
}

/// Writes all of a source into a file, at an offset.
pub fn write_all(
    volume: &mut Volume,
    chunks: Chunks,
    (node, path): (Node, &[u8]),
    offset: u64,
    source: &mut Source,
) -> Outcome<()> {
    let bytes = read_all(source, chunks.all)?;
    volume.write(node, offset, &bytes).about(path)?;
    Ok(())
}

/// All bytes of a source. Of one that is too large for the volume, only so many that the store
/// refuses them, so that one without an end does no harm.
fn read_all(source: &mut Source, most: u64) -> Outcome<Vec<u8>> {
    let mut progress = Progress::new();
    let mut piece = vec![0; PIECE];
    let mut bytes = Vec::new();
    while bytes.len() as u64 <= most {
        let count = source.fill(&mut piece)?;
        bytes.extend_from_slice(&piece[..count]);
        if count < PIECE {
            break;
        }
        progress.at(|| format!("read {}", text::short_size(bytes.len() as u64)));
    }
    Ok(bytes)
}

/// Writes all of a source into an empty file; of the chunks that the file is cut into, those of
/// zeros stay gaps.
pub fn write_sparse(
    volume: &mut Volume,
    chunks: Chunks,
    (node, path): (Node, &[u8]),
    source: &mut Source,
) -> Outcome<()> {
    let mut progress = Progress::new();
    let mut buffer = vec![0; PIECE];
    let (mut offset, mut written) = (0, 0);
    while offset <= GREATEST_FILE {
        offset = source.skip_hole(offset, chunks.span)?;
        let count = source.fill(&mut buffer)?;
        for run in data_runs(&buffer[..count], chunks.span as usize) {
            let at = offset + run.start as u64;
            written = at + run.len() as u64;
            volume.write(node, at, &buffer[run]).about(path)?;
        }
        offset += count as u64;
        if count < buffer.len() {
            break;
        }
        progress.at(|| format!("read {}", text::short_size(offset)));
    }
    match written < offset {
        true => volume.resize(node, offset).about(path),
        false => Ok(()),
    }
}

/// The stretches of a buffer that hold more than zeros, by whole spans.
fn data_runs(buffer: &[u8], span: usize) -> Vec<Range<usize>> {
    let mut runs: Vec<Range<usize>> = Vec::new();
    for (index, bytes) in buffer.chunks(span).enumerate() {
        let start = index * span;
        let end = start + bytes.len();
        match runs.last_mut() {
            _ if replace::is_zero(bytes) => (),
            Some(last) if last.end == start => last.end = end,
            _ => runs.push(start..end),
        }
    }
    runs
}

/// A stretch of a file's bytes as far as the file has them.
pub fn stretch(volume: &Volume, node: Node, at: u64, count: Option<u64>) -> Result<Range<u64>> {
    let size = volume.node(node)?.size;
    let end = count.map_or(size, |count| size.min(at.saturating_add(count)));
    Ok(at.min(end)..end)
}

/// Writes bytes of a file to an output, gaps as zeros.
pub fn copy_out(
    volume: &Volume,
    (node, path): (Node, &[u8]),
    stretch: Range<u64>,
    output: &mut impl Write,
    name: impl Subject + Copy,
) -> Outcome<()> {
    let mut progress = Progress::new();
    for_pieces(volume, (node, path), stretch, |offset, bytes| {
        progress.at(|| format!("written up to {}", text::short_size(offset)));
        output.write_all(bytes).about(name)
    })?;
    output.flush().about(name)
}

/// Writes bytes of a file into an empty file of the host, and leaves its gaps as holes.
pub fn copy_out_with_holes(
    volume: &Volume,
    (node, path): (Node, &[u8]),
    stretch: Range<u64>,
    file: &File,
    name: impl Subject + Copy,
) -> Outcome<()> {
    file.set_len(stretch.end - stretch.start).about(name)?;
    for written in volume.written(node).about(path)? {
        let start = written.start.max(stretch.start);
        let end = written.end.min(stretch.end);
        for_pieces(volume, (node, path), start..end, |offset, bytes| {
            file.write_all_at(bytes, offset - stretch.start).about(name)
        })?;
    }
    Ok(())
}

/// Reads a stretch piece by piece.
fn for_pieces(
    volume: &Volume,
    (node, path): (Node, &[u8]),
    stretch: Range<u64>,
    mut use_piece: impl FnMut(u64, &[u8]) -> Outcome<()>,
) -> Outcome<()> {
    let mut offset = stretch.start;
    let length = stretch.end.saturating_sub(offset).min(PIECE as u64);
    let mut buffer = vec![0; length as usize];
    while offset < stretch.end {
        let room = buffer.len().min((stretch.end - offset) as usize);
        let count = volume.read(node, offset, &mut buffer[..room]).about(path)?;
        use_piece(offset, &buffer[..count])?;
        offset += count as u64;
    }
    Ok(())
}

/// All bytes of a symbolic link, or whatever small file it is.
pub fn content(volume: &Volume, node: Node, size: u64) -> Result<Vec<u8>> {
    let mut bytes = vec![0; size.min(PIECE as u64) as usize];
    let count = volume.read(node, 0, &mut bytes)?;
    bytes.truncate(count);
    Ok(bytes)
}

#[cfg(test)]
mod tests {
    use lentilraft::ChunkSize;

    use super::*;

    #[test]
    fn a_piece_is_whole_chunks() {
        for size in ChunkSize::ALL {
            assert_eq!(PIECE as u64 % size.bytes(), 0);
        }
    }

    #[test]
    fn runs_are_whole_spans_that_are_not_zero() {
        let mut bytes = vec![0; 45];
        assert_eq!(data_runs(&bytes, 10), []);
        bytes[3] = 1;
        bytes[19] = 1;
        bytes[44] = 1;
        assert_eq!(data_runs(&bytes, 10), [0..20, 40..45]);
        assert_eq!(data_runs(&[], 10), []);
    }
}
