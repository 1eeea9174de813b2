//! Stand-in, inert: the names of errors that the four files use.

#[derive(Clone, Copy, Debug, PartialEq, Eq)]
pub enum Error {
    DeviceOrResourceBusy,
    DirectoryNotEmpty,
    FilenameTooLong,
    FileTooLarge,
    FunctionNotSupported,
    IllegalByteSequence,
    InvalidArgument,
    IsDirectory,
    NoSuchDevice,
    NoSuchFileOrDirectory,
    NotADirectoryOrSymbolicLink,
    OperationNotPermitted,
    PermissionDenied,
    TextFileBusy,
}
