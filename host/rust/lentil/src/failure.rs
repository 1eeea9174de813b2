//! Why a command failed, and what it failed at.

use std::ffi::OsStr;
use std::fmt;
use std::io;
use std::os::unix::ffi::OsStrExt;
use std::path::Path;

use crate::text;

pub type Outcome<T> = Result<T, Failure>;

/// Why a command failed. What it failed at is a path on the volume or on the host.
#[derive(Debug)]
pub enum Failure {
    /// The store refused a call.
    Refused(Vec<u8>, lentilraft::Error),
    /// The system did.
    System(Vec<u8>, io::Error),
    /// The program did.
    Declined(Vec<u8>, String),
    /// The command line makes no sense.
    Usage(String),
}

impl Failure {
    pub fn declined(subject: impl Subject, reason: impl Into<String>) -> Failure {
        Failure::Declined(subject.name().to_vec(), reason.into())
    }

    pub fn usage(reason: impl Into<String>) -> Failure {
        Failure::Usage(reason.into())
    }
}

impl fmt::Display for Failure {
    fn fmt(&self, f: &mut fmt::Formatter<'_>) -> fmt::Result {
        match self {
            Failure::Refused(subject, error) => {
                write!(f, "{}: {} ({})", named(subject), error, error.number())
            }
            Failure::System(subject, error) => {
                write!(f, "{}: {}", named(subject), plain_reason(error))
            }
            Failure::Declined(subject, reason) => write!(f, "{}: {}", named(subject), reason),
            Failure::Usage(reason) => f.write_str(reason),
        }
    }
}

/// An empty path leads to the root, and would not be seen.
fn named(subject: &[u8]) -> String {
    match subject {
        b"" => "''".to_string(),
        _ => text::quoted(subject),
    }
}

/// The system's words without its number, which could be taken for one of the store's.
fn plain_reason(error: &io::Error) -> String {
    let reason = error.to_string();
    match reason.find(" (os error") {
        Some(end) => reason[..end].to_string(),
        None => reason,
    }
}

/// What a command can fail at.
pub trait Subject {
    fn name(&self) -> &[u8];
}

impl Subject for &[u8] {
    fn name(&self) -> &[u8] {
        self
    }
}

impl Subject for &OsStr {
    fn name(&self) -> &[u8] {
        self.as_bytes()
    }
}

impl Subject for &Path {
    fn name(&self) -> &[u8] {
        self.as_os_str().as_bytes()
    }
}

/// Says of an error what it is about.
pub trait About<T> {
    fn about(self, subject: impl Subject) -> Outcome<T>;
}

impl<T> About<T> for lentilraft::Result<T> {
    fn about(self, subject: impl Subject) -> Outcome<T> {
        self.map_err(|error| Failure::Refused(subject.name().to_vec(), error))
    }
}

impl<T> About<T> for io::Result<T> {
    fn about(self, subject: impl Subject) -> Outcome<T> {
        self.map_err(|error| Failure::System(subject.name().to_vec(), error))
    }
}
