//! Why a call is refused.

use std::fmt;

/// Why a call was refused. A refused call has changed nothing.
///
/// Each reason has a number, the same in every host of Lentilraft.
#[derive(Clone, Copy, Debug, PartialEq, Eq, Hash)]
#[repr(u32)]
pub enum Error {
    /// The memory is no sound volume.
    UnsoundMemory = 1,
    /// There is no such node, or no such entry.
    NoSuchEntry = 2,
    /// The node is a directory, and the call is not for directories.
    IsDirectory = 3,
    /// The node is no directory, and the call or the path is for directories only.
    NotDirectory = 4,
    /// The file would grow above its limit, or the limit lies below its size.
    FileTooLarge = 5,
    /// There is no room for the chunks that are needed.
    NoChunkRoom = 6,
    /// Node or entry rows are used up, or no node number is left.
    NoRowRoom = 7,
    /// The path begins with `/`, leads above its start, or names nothing to unlink.
    PathNotPermitted = 8,
    /// The name is not allowed: see [`Volume::create`](crate::Volume::create).
    BadName = 9,
    /// The directory has an entry of that name.
    NameExists = 10,
    /// The directory has entries.
    DirectoryNotEmpty = 11,
    /// The node is open, or has a name still.
    Busy = 12,
    /// A number is out of its range, or a path too long.
    InvalidArgument = 13,
    /// The directory's greatest index is `u32::MAX`, so that no entry can stand behind it.
    NoIndexLeft = 14,
    /// The output has fewer than 512 bytes. No call of this crate lends so little.
    OutputTooShort = 15,
}

/// What a call gives, or why it was refused.
pub type Result<T> = std::result::Result<T, Error>;

/// All reasons, in the order of their numbers.
const ALL: [Error; 15] = [
    Error::UnsoundMemory,
    Error::NoSuchEntry,
    Error::IsDirectory,
    Error::NotDirectory,
    Error::FileTooLarge,
    Error::NoChunkRoom,
    Error::NoRowRoom,
    Error::PathNotPermitted,
    Error::BadName,
    Error::NameExists,
    Error::DirectoryNotEmpty,
    Error::Busy,
    Error::InvalidArgument,
    Error::NoIndexLeft,
    Error::OutputTooShort,
];

impl Error {
    /// The number of this reason, 1 to 15, as host/lentilraft.h has it.
    pub fn number(self) -> u32 {
        self as u32
    }

    fn message(self) -> &'static str {
        match self {
            Error::UnsoundMemory => "unsound memory",
            Error::NoSuchEntry => "no such node or entry",
            Error::IsDirectory => "is a directory",
            Error::NotDirectory => "not a directory",
            Error::FileTooLarge => "file too large",
            Error::NoChunkRoom => "no chunk room",
            Error::NoRowRoom => "node or entry rows used up, or next node is u64::MAX",
            Error::PathNotPermitted => "path not permitted",
            Error::BadName => "bad name",
            Error::NameExists => "name exists",
            Error::DirectoryNotEmpty => "directory not empty",
            Error::Busy => "busy",
            Error::InvalidArgument => "invalid argument",
            Error::NoIndexLeft => "directory's greatest index is u32::MAX",
            Error::OutputTooShort => "output shorter than 512 bytes",
        }
    }
}

impl fmt::Display for Error {
    fn fmt(&self, f: &mut fmt::Formatter<'_>) -> fmt::Result {
        f.pad(self.message())
    }
}

impl std::error::Error for Error {}

/// What the number that a call gave back says: the value, or a refusal.
pub(crate) fn answer<T>(number: u32, value: T) -> Result<T> {
    match number {
        0 => Ok(value),
        1..=15 => Err(ALL[number as usize - 1]),
        _ => panic!(
            "the archive gave back {}: it is not the one that this crate is for",
            number
        ),
    }
}

#[cfg(test)]
mod tests {
    use super::*;

    #[test]
    fn reasons_stand_in_the_order_of_their_numbers() {
        for (place, error) in ALL.iter().enumerate() {
            assert_eq!(error.number() as usize, place + 1);
            assert_eq!(answer(error.number(), ()), Err(*error));
        }
    }

    #[test]
    fn number_0_gives_the_value() {
        assert_eq!(answer(0, 7), Ok(7));
    }

    #[test]
    #[should_panic(expected = "the archive gave back 16")]
    fn other_numbers_are_of_another_archive() {
        let _ = answer(16, ());
    }
}
