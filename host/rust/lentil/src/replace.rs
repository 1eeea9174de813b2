//! A new file that takes its place in a folder in one step, so that whoever looks there, also after
//! a power cut, finds what was there before or all of the new file.

use std::ffi::{OsStr, OsString};
use std::fs::{self, File, Metadata, OpenOptions};
use std::io;
use std::os::unix::ffi::{OsStrExt, OsStringExt};
use std::os::unix::fs::{FileExt, MetadataExt, OpenOptionsExt};
use std::path::{Path, PathBuf};
use std::process;

use crate::sys;

/// What stands in the name of a temporary file between the name that it is for and a number.
const MARK: &[u8] = b".lentil-";

/// So much of a long name goes into the name of its temporary file, which may have 255 bytes.
const NAME_KEPT: usize = 200;

/// How many numbers are tried for a temporary file's name.
const TRIES: u32 = 1000;

/// Any of these bits lets someone write.
const WRITABLE: u32 = 0o222;

/// Zero blocks of this size are left as holes.
const BLOCK: usize = 4096;

/// The most that is written at once.
const MOST_WRITTEN: usize = 256 * BLOCK;

/// A temporary file beside the place that it is for. It is locked while it is in work, and removed
/// if it does not get to its place.
pub struct Replacement {
    file: File,
    temporary: PathBuf,
    target: PathBuf,
    placed: bool,
}

impl Replacement {
    /// A file that is to stand where there is none now.
    pub fn of_nothing(target: &Path) -> io::Result<Replacement> {
        Replacement::beside(target, 0o666)
    }

    /// A file that is to take the place of another, with its owner and rights as far as we may. No
    /// one else may look into it before it has them.
    pub fn of(old: &File, target: &Path) -> io::Result<Replacement> {
        let replacement = Replacement::beside(target, 0o600)?;
        let old = old.metadata()?;
        sys::try_give(&replacement.file, old.uid(), old.gid());
        replacement.file.set_permissions(old.permissions())?;
        Ok(replacement)
    }

    fn beside(target: &Path, mode: u32) -> io::Result<Replacement> {
        remove_left_overs(target);
        let first = process::id();
        for number in first..first.saturating_add(TRIES) {
            let temporary = temporary_path(target, number);
            match Replacement::at(temporary, target, mode) {
                Err(error) if error.kind() == io::ErrorKind::AlreadyExists => (),
                Err(error) => return Err(error),
                Ok(replacement) if replacement.is_ours()? => return Ok(replacement),
                Ok(_) => (),
            }
        }
        Err(io::ErrorKind::AlreadyExists.into())
    }

    fn at(temporary: PathBuf, target: &Path, mode: u32) -> io::Result<Replacement> {
        let mut options = OpenOptions::new();
        let file = options
            .write(true)
            .create_new(true)
            .mode(mode)
            .open(&temporary)?;
        Ok(Replacement {
            file,
            temporary,
            target: target.to_path_buf(),
            placed: false,
        })
    }

    /// Locks it. Before that, another command could take it for a left-over one and remove it.
    fn is_ours(&self) -> io::Result<bool> {
        Ok(sys::try_lock(&self.file)? && leads_to(&self.temporary, &self.file))
    }

    pub fn file(&self) -> &File {
        &self.file
    }

    /// Puts it in the place of what is there.
    pub fn place(mut self) -> io::Result<()> {
        self.file.sync_all()?;
        fs::rename(&self.temporary, &self.target)?;
        self.placed = true;
        sync_folder(&self.target)
    }

    /// Puts it in its place if nothing is there.
    pub fn place_new(mut self) -> io::Result<()> {
        self.file.sync_all()?;
        sys::rename_to_new(&self.temporary, &self.target)?;
        self.placed = true;
        sync_folder(&self.target)
    }
}

impl Drop for Replacement {
    fn drop(&mut self) {
        if !self.placed {
            // If even this fails, the next command that changes the volume removes it.
            let _ = fs::remove_file(&self.temporary);
        }
    }
}

fn temporary_path(target: &Path, number: u32) -> PathBuf {
    let mut name = temporary_front(target);
    name.extend(number.to_string().bytes());
    target.with_file_name(OsString::from_vec(name))
}

/// The name of a temporary file before its number: `.NAME.lentil-`.
fn temporary_front(target: &Path) -> Vec<u8> {
    let name = target.file_name().unwrap_or_default().as_bytes();
    [b".", &name[..name.len().min(NAME_KEPT)], MARK].concat()
}

/// Removes temporary files that killed commands have left beside a file. They do no harm where they
/// are, so that a failure is none of the command's.
fn remove_left_overs(target: &Path) {
    let front = temporary_front(target);
    let entries = fs::read_dir(folder_of(target)).into_iter().flatten();
    for entry in entries.flatten() {
        if is_temporary(&entry.file_name(), &front) {
            let _ = remove_left_over(&entry.path());
        }
    }
}

fn is_temporary(name: &OsStr, front: &[u8]) -> bool {
    let number = name.as_bytes().strip_prefix(front).unwrap_or(b"");
    !number.is_empty() && number.iter().all(u8::is_ascii_digit)
}

/// Removes a file unless another command has it locked, and so in work.
fn remove_left_over(path: &Path) -> io::Result<()> {
    if !path.symlink_metadata()?.is_file() {
        return Ok(());
    }
    let file = File::open(path)?;
    match sys::try_lock(&file)? && leads_to(path, &file) {
        true => fs::remove_file(path),
        false => Ok(()),
    }
}

/// Whether a path leads to an open file.
pub fn leads_to(path: &Path, file: &File) -> bool {
    match (path.metadata(), file.metadata()) {
        (Ok(there), Ok(here)) => is_same(&there, &here),
        _ => false,
    }
}

/// Whether two files are one.
pub fn is_same(one: &Metadata, other: &Metadata) -> bool {
    (one.dev(), one.ino()) == (other.dev(), other.ino())
}

/// A file that nobody may write to is not replaced either, not even for the system's administrator.
pub fn demand_writable(file: &File) -> io::Result<()> {
    match file.metadata()?.mode() & WRITABLE {
        0 => Err(io::Error::new(
            io::ErrorKind::PermissionDenied,
            "is read-only",
        )),
        _ => Ok(()),
    }
}

/// The folder that a file stands in.
pub fn folder_of(file: &Path) -> &Path {
    match file.parent() {
        Some(folder) if !folder.as_os_str().is_empty() => folder,
        _ => Path::new("."),
    }
}

/// Makes sure that a new name in a folder outlives a power cut.
fn sync_folder(target: &Path) -> io::Result<()> {
    File::open(folder_of(target))?.sync_all()
}

/// Writes bytes into an empty file, and leaves blocks of zeros as holes.
pub fn write_with_holes(file: &File, bytes: &[u8]) -> io::Result<()> {
    file.set_len(bytes.len() as u64)?;
    let mut start = 0;
    while start < bytes.len() {
        let end = data_end(bytes, start);
        file.write_all_at(&bytes[start..end], start as u64)?;
        start = next_data(bytes, end);
    }
    Ok(())
}

/// Where the data from an offset on ends: at a block of zeros, or where enough is written at once.
fn data_end(bytes: &[u8], start: usize) -> usize {
    let most = bytes.len().min(start + MOST_WRITTEN);
    let blocks = bytes[start..most].chunks(BLOCK);
    let data = blocks.take_while(|block| !is_zero(block));
    start + data.map(<[u8]>::len).sum::<usize>()
}

/// Where the blocks of zeros from an offset on end.
fn next_data(bytes: &[u8], start: usize) -> usize {
    let zeros = bytes[start..]
        .chunks(BLOCK)
        .take_while(|block| is_zero(block));
    start + zeros.map(<[u8]>::len).sum::<usize>()
}

/// Whether all bytes are zero, compared in blocks, which is fast in every build.
pub fn is_zero(bytes: &[u8]) -> bool {
    const ZEROS: [u8; BLOCK] = [0; BLOCK];
    bytes
        .chunks(BLOCK)
        .all(|block| *block == ZEROS[..block.len()])
}
