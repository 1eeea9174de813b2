//! Files of the host that commands read and write, other than the volume's own.

use std::ffi::{OsStr, OsString};
use std::fs::{self, File, OpenOptions};
use std::io::{self, Read, Seek, SeekFrom};
use std::path::Path;

use crate::failure::{About, Failure, Outcome};
use crate::replace::{self, Replacement};
use crate::sys;

/// The name of standard input and of standard output on the command line.
pub const STANDARD: &str = "-";

/// Something to read from: a file, or standard input.
pub struct Source {
    name: OsString,
    input: Input,
}

enum Input {
    Standard(io::Stdin),
    /// A file whose holes can be asked for.
    Ordinary(File),
    /// A pipe or a device.
    Other(File),
}

impl Source {
    /// Opens a file; no name at all means standard input, too.
    pub fn open(name: &OsStr) -> Outcome<Source> {
        let input = match name.to_str() {
            Some("" | STANDARD) => Ok(Input::Standard(io::stdin())),
            _ => open_input(name),
        };
        let input = input.about(name)?;
        Ok(Source {
            name: name.to_os_string(),
            input,
        })
    }

    /// Reads until a buffer is full or the input ends, and tells how much it was.
    pub fn fill(&mut self, buffer: &mut [u8]) -> Outcome<usize> {
        let mut count = 0;
        while count < buffer.len() {
            match self.input.read(&mut buffer[count..]) {
                Ok(0) => break,
                Ok(more) => count += more,
                Err(error) if error.kind() == io::ErrorKind::Interrupted => (),
                Err(error) => return Err(error).about(self.name.as_os_str()),
            }
        }
        Ok(count)
    }

    /// Goes on behind a hole of the file, at a multiple of the span, and tells where.
    pub fn skip_hole(&mut self, offset: u64, span: u64) -> Outcome<u64> {
        self.input
            .skip_hole(offset, span)
            .about(self.name.as_os_str())
    }
}

fn open_input(name: &OsStr) -> io::Result<Input> {
    let file = File::open(name)?;
    let metadata = file.metadata()?;
    if metadata.is_dir() {
        return Err(io::Error::new(io::ErrorKind::InvalidInput, "is a folder"));
    }
    Ok(match metadata.is_file() {
        true => Input::Ordinary(file),
        false => Input::Other(file),
    })
}

impl Input {
    fn read(&mut self, buffer: &mut [u8]) -> io::Result<usize> {
        match self {
            Input::Standard(input) => input.read(buffer),
            Input::Ordinary(file) | Input::Other(file) => file.read(buffer),
        }
    }

    fn skip_hole(&mut self, offset: u64, span: u64) -> io::Result<u64> {
        let file = match self {
            Input::Ordinary(file) => file,
            Input::Standard(_) | Input::Other(_) => return Ok(offset),
        };
        let data = match sys::next_data(file, offset)? {
            Some(data) => data / span * span,
            None => offset.max(file.metadata()?.len()),
        };
        file.seek(SeekFrom::Start(data))
    }
}

/// Writes a file that is to be made, or to take the place of one: it gets there complete or not at
/// all. A pipe or a device is written to as it stands. The volume's own file is refused.
pub fn write_file(
    name: &OsStr,
    volume: &OsStr,
    fill: impl FnOnce(&File) -> Outcome<()>,
) -> Outcome<()> {
    let there = match fs::metadata(name) {
        Err(error) if error.kind() == io::ErrorKind::NotFound => return make_file(name, fill),
        there => there.about(name)?,
    };
    if replace::is_same(&there, &fs::metadata(volume).about(volume)?) {
        return Err(Failure::declined(name, "is the volume itself"));
    }
    match there.is_file() {
        true => replace_file(name, fill),
        false => fill(&OpenOptions::new().write(true).open(name).about(name)?),
    }
}

fn make_file(name: &OsStr, fill: impl FnOnce(&File) -> Outcome<()>) -> Outcome<()> {
    let new = Replacement::of_nothing(Path::new(name)).about(name)?;
    fill(new.file())?;
    new.place_new().about(name)
}

fn replace_file(name: &OsStr, fill: impl FnOnce(&File) -> Outcome<()>) -> Outcome<()> {
    let path = fs::canonicalize(name).about(name)?;
    let old = OpenOptions::new()
        .read(true)
        .write(true)
        .open(&path)
        .about(name)?;
    replace::demand_writable(&old).about(name)?;
    let new = Replacement::of(&old, &path).about(name)?;
    fill(new.file())?;
    new.place().about(name)
}
