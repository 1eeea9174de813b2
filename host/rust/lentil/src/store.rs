//! The file that a volume is kept in: read, locked, and replaced when it was changed.
//!
//! Reading takes no lock. A volume's file is never written to, only replaced, so that whoever has
//! opened it reads one state of it.
//!
//! A command that changes a volume holds the lock of its file from before it reads the file until
//! the changed volume stands in its place. The lock is of the file, not of its name: so it counts
//! only if the name still leads to that file once it is locked.

use std::ffi::{OsStr, OsString};
use std::fs::{self, File, OpenOptions};
use std::io::{self, Read};
use std::path::{Path, PathBuf};

use crate::failure::{About, Failure, Outcome};
use crate::replace::{self, Replacement};
use crate::sys;

pub type Volume = lentilraft::Volume<Vec<u8>>;

/// The first bytes of every volume.
const FORM: [u8; 8] = [1, 0, 0, 0, 0, 0, 0, 0];

/// How often a lock is tried if the file is replaced at the same moment.
const TRIES: u32 = 100;

/// Reads a volume that is only looked at.
pub fn read(path: &OsStr) -> Outcome<Volume> {
    let mut file = open_ordinary(Path::new(path), OpenOptions::new().read(true)).about(path)?;
    checked(path, &mut file)
}

/// A volume that a command changes, with the lock of its file.
pub struct Held {
    pub volume: Volume,
    lock: Lock,
}

impl Held {
    pub fn open(path: &OsStr) -> Outcome<Held> {
        let mut lock = Lock::take(path)?;
        let volume = checked(path, &mut lock.file)?;
        Ok(Held { volume, lock })
    }

    pub fn save(self) -> Outcome<()> {
        self.lock.replace(self.volume.bytes())
    }
}

/// Makes the file of a new volume: where none is, or in the place of one.
pub fn save_new(path: &OsStr, volume: &Volume, force: bool) -> Outcome<()> {
    let target = Path::new(path);
    if target.symlink_metadata().is_err() {
        return write_new(target, volume.bytes()).about(path);
    }
    match force {
        true => Lock::take(path)?.replace(volume.bytes()),
        false => Err(Failure::declined(
            path,
            "is there already, and --force would replace it",
        )),
    }
}

fn write_new(target: &Path, bytes: &[u8]) -> io::Result<()> {
    let new = Replacement::of_nothing(target)?;
    replace::write_with_holes(new.file(), bytes)?;
    new.place_new()
}

/// The lock of a file that is to be replaced.
struct Lock {
    /// As the command was given it, for errors.
    name: OsString,
    /// Where the file is, behind symbolic links.
    path: PathBuf,
    file: File,
}

impl Lock {
    fn take(name: &OsStr) -> Outcome<Lock> {
        for _ in 0..TRIES {
            let path = fs::canonicalize(name).about(name)?;
            let file =
                open_ordinary(&path, OpenOptions::new().read(true).write(true)).about(name)?;
            demand_replaceable(name, &path, &file)?;
            if !sys::try_lock(&file).about(name)? {
                break;
            }
            if replace::leads_to(&path, &file) {
                return Ok(Lock {
                    name: name.to_os_string(),
                    path,
                    file,
                });
            }
        }
        Err(Failure::declined(
            name,
            "in use: another command changes it",
        ))
    }

    fn replace(self, bytes: &[u8]) -> Outcome<()> {
        self.write(bytes).about(self.name.as_os_str())
    }

    fn write(&self, bytes: &[u8]) -> io::Result<()> {
        let new = Replacement::of(&self.file, &self.path)?;
        replace::write_with_holes(new.file(), bytes)?;
        if !replace::leads_to(&self.path, &self.file) {
            let reason = "was replaced by another program, and stays as that left it";
            return Err(io::Error::new(io::ErrorKind::Other, reason));
        }
        new.place()
    }
}

/// Says at once what would else be found out when all the work is done.
fn demand_replaceable(name: &OsStr, path: &Path, file: &File) -> Outcome<()> {
    replace::demand_writable(file).about(name)?;
    let folder = replace::folder_of(path);
    sys::can_make_files_in(folder).about(folder)
}

/// Opens a file, but no folder, pipe or device.
fn open_ordinary(path: &Path, options: &OpenOptions) -> io::Result<File> {
    if !path.metadata()?.is_file() {
        return Err(io::Error::new(
            io::ErrorKind::InvalidInput,
            "is not an ordinary file",
        ));
    }
    options.open(path)
}

/// All of a file, which must be a sound volume.
fn checked(name: &OsStr, file: &mut File) -> Outcome<Volume> {
    let volume = Volume::over(read_all(file).about(name)?);
    volume.check().about(name)?;
    Ok(volume)
}

/// All bytes of a file; but of one that does not begin as a volume does, however long it is, only
/// so many that the check refuses them.
fn read_all(file: &mut File) -> io::Result<Vec<u8>> {
    let mut bytes = Vec::new();
    file.take(FORM.len() as u64).read_to_end(&mut bytes)?;
    if bytes != FORM {
        return Ok(bytes);
    }
    let rest = file.metadata()?.len().try_into().unwrap_or(usize::MAX);
    let room = bytes.try_reserve_exact(rest);
    room.map_err(|_| io::ErrorKind::OutOfMemory)?;
    file.read_to_end(&mut bytes)?;
    Ok(bytes)
}
