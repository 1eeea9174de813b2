//! The few calls of the C library that Rust's own library does not offer. All `unsafe` code of the
//! program stands here.

use std::fs::File;
use std::io;
use std::os::raw::{c_char, c_int, c_uint, c_ulong};
use std::os::unix::ffi::OsStrExt;
use std::os::unix::io::AsRawFd;
use std::path::Path;

extern "C" {
    fn isatty(fd: c_int) -> c_int;
    fn flock(fd: c_int, operation: c_int) -> c_int;
    fn fchown(fd: c_int, owner: c_uint, group: c_uint) -> c_int;
    fn ioctl(fd: c_int, request: c_ulong, ...) -> c_int;
    fn lseek64(fd: c_int, offset: i64, whence: c_int) -> i64;
    fn access(path: *const c_char, mode: c_int) -> c_int;
    fn renameat2(
        old_folder: c_int,
        old: *const c_char,
        new_folder: c_int,
        new: *const c_char,
        flags: c_uint,
    ) -> c_int;
    fn signal(number: c_int, action: usize) -> usize;
}

const LOCK_EX: c_int = 2;
const LOCK_NB: c_int = 4;
const TIOCGWINSZ: c_ulong = 0x5413;
const SEEK_DATA: c_int = 3;
const W_OK_AND_X_OK: c_int = 2 | 1;
const AT_FDCWD: c_int = -100;
const RENAME_NOREPLACE: c_uint = 1;
const SIGPIPE: c_int = 13;
const SIGXFSZ: c_int = 25;
const SIG_DFL: usize = 0;
const SIG_IGN: usize = 1;
/// Leaves the owner as it is.
const SAME_OWNER: c_uint = c_uint::MAX;
const ENXIO: i32 = 6;
const EINVAL: i32 = 22;
const ENOSYS: i32 = 38;

/// A reader that goes away ends the program quietly, as it does other tools; a file that may not
/// grow further is an error that can be told, not the program's end.
pub fn set_signals() {
    // Safety: both actions are fixed ones of the system, and no other thread runs yet.
    unsafe {
        signal(SIGPIPE, SIG_DFL);
        signal(SIGXFSZ, SIG_IGN);
    }
}

/// Whether an open file, standard output or standard error, is a terminal.
pub fn is_terminal(file: &impl AsRawFd) -> bool {
    // Safety: isatty takes any number.
    unsafe { isatty(file.as_raw_fd()) == 1 }
}

/// How many columns a terminal has, if the file is one and it tells.
pub fn columns(file: &impl AsRawFd) -> Option<usize> {
    let mut size: [u16; 4] = [0; 4];
    // Safety: the request writes four u16: rows, columns and two more.
    let answer = unsafe { ioctl(file.as_raw_fd(), TIOCGWINSZ, size.as_mut_ptr()) };
    match size[1] {
        columns if answer == 0 && columns > 0 => Some(columns.into()),
        _ => None,
    }
}

/// Takes the exclusive lock of an open file, or says at once that another has it.
pub fn try_lock(file: &File) -> io::Result<bool> {
    // Safety: flock takes any numbers.
    match unsafe { flock(file.as_raw_fd(), LOCK_EX | LOCK_NB) } {
        0 => Ok(true),
        _ => match io::Error::last_os_error() {
            error if error.kind() == io::ErrorKind::WouldBlock => Ok(false),
            error => Err(error),
        },
    }
}

/// Gives a file an owner and a group, as far as the system lets us: the group alone, or neither.
pub fn try_give(file: &File, owner: u32, group: u32) {
    // Safety: fchown takes any numbers.
    unsafe {
        if fchown(file.as_raw_fd(), owner, group) != 0 {
            fchown(file.as_raw_fd(), SAME_OWNER, group);
        }
    }
}

/// Whether files can be made in a folder.
pub fn can_make_files_in(folder: &Path) -> io::Result<()> {
    let folder = c_path(folder)?;
    // Safety: the path ends with a zero, and stays until the call is over.
    done(unsafe { access(folder.as_ptr().cast(), W_OK_AND_X_OK) })
}

/// The first offset at or above one that may hold data, and none if only a hole follows.
pub fn next_data(file: &File, offset: u64) -> io::Result<Option<u64>> {
    // Safety: lseek64 takes any numbers; an offset above i64::MAX becomes a negative one, which it
    // refuses.
    let found = unsafe { lseek64(file.as_raw_fd(), offset as i64, SEEK_DATA) };
    if found >= 0 {
        return Ok(Some(found as u64));
    }
    match io::Error::last_os_error() {
        error if error.raw_os_error() == Some(ENXIO) => Ok(None),
        error if error.raw_os_error() == Some(EINVAL) => Ok(Some(offset)),
        error => Err(error),
    }
}

/// Renames a file, unless there is one of the new name.
pub fn rename_to_new(old: &Path, new: &Path) -> io::Result<()> {
    let (from, to) = (c_path(old)?, c_path(new)?);
    // Safety: both paths end with a zero, and stay until the call is over.
    let answer = done(unsafe {
        renameat2(
            AT_FDCWD,
            from.as_ptr().cast(),
            AT_FDCWD,
            to.as_ptr().cast(),
            RENAME_NOREPLACE,
        )
    });
    match answer {
        Err(error) if matches!(error.raw_os_error(), Some(EINVAL) | Some(ENOSYS)) => {
            rename_after_a_look(old, new)
        }
        answer => answer,
    }
}

/// For file systems that can't do it in one step.
fn rename_after_a_look(old: &Path, new: &Path) -> io::Result<()> {
    if new.symlink_metadata().is_ok() {
        return Err(io::ErrorKind::AlreadyExists.into());
    }
    std::fs::rename(old, new)
}

fn c_path(path: &Path) -> io::Result<Vec<u8>> {
    let bytes = path.as_os_str().as_bytes();
    if bytes.contains(&0) {
        return Err(io::ErrorKind::InvalidInput.into());
    }
    Ok([bytes, &[0]].concat())
}

fn done(answer: c_int) -> io::Result<()> {
    match answer {
        0 => Ok(()),
        _ => Err(io::Error::last_os_error()),
    }
}
