//! Why a call was refused.

use core::fmt::{self, Display, Formatter};
#[cfg(feature = "std")]
use std::io;

/// The reason why a call on a path or an open file failed.
#[derive(Clone, Copy, Debug, PartialEq, Eq)]
#[non_exhaustive]
pub enum Error {
    /// A name does not exist, or the path is empty.
    NotFound,
    /// A name follows a node that is not a directory.
    NotADirectory,
    /// More than 40 symbolic links.
    TooManyLinks,
    /// A path of more than 4095 bytes, or a name of more than 255.
    NameTooLong,
    /// A path without a slash in front, no symbolic link, or a range that is empty or too long.
    Invalid,
    /// The path leads to a directory.
    IsADirectory,
    /// The path leads to neither a directory nor a regular file.
    IsASpecialFile,
    /// The bytes do not follow one another in the image.
    InPieces,
    /// A look-up compares more names than its budget has.
    OverBudget,
    /// A number that this crate does not know.
    Other(u32),
}

impl Error {
    pub(crate) fn of(number: u32) -> Error {
        match number {
            1 => Error::NotFound,
            2 => Error::NotADirectory,
            3 => Error::TooManyLinks,
            4 => Error::NameTooLong,
            5 => Error::Invalid,
            7 => Error::IsADirectory,
            8 => Error::IsASpecialFile,
            10 => Error::InPieces,
            16 => Error::OverBudget,
            other => Error::Other(other),
        }
    }

    /// Returns the number that `romtool.h` has for it.
    pub fn number(self) -> u32 {
        match self {
            Error::NotFound => 1,
            Error::NotADirectory => 2,
            Error::TooManyLinks => 3,
            Error::NameTooLong => 4,
            Error::Invalid => 5,
            Error::IsADirectory => 7,
            Error::IsASpecialFile => 8,
            Error::InPieces => 10,
            Error::OverBudget => 16,
            Error::Other(number) => number,
        }
    }
}

impl Display for Error {
    fn fmt(&self, f: &mut Formatter<'_>) -> fmt::Result {
        f.write_str(match self {
            Error::NotFound => "no such file or directory",
            Error::NotADirectory => "not a directory",
            Error::TooManyLinks => "more than 40 symbolic links",
            Error::NameTooLong => "path or name too long",
            Error::Invalid => "invalid argument",
            Error::IsADirectory => "is a directory",
            Error::IsASpecialFile => "neither a directory nor a regular file",
            Error::InPieces => "bytes in several pieces",
            Error::OverBudget => "too many names compared",
            Error::Other(number) => return write!(f, "error {number}"),
        })
    }
}

impl core::error::Error for Error {}

/// On Linux, what the system has an error for becomes this error, with its kind: a directory, no directory, a name that is
/// too long, and too many links. Other errors are inside the result.
#[cfg(feature = "std")]
impl From<Error> for io::Error {
    fn from(error: Error) -> io::Error {
        let (number, kind) = match error {
            Error::NotADirectory => (Some(20), io::ErrorKind::Other), // ENOTDIR
            Error::IsADirectory => (Some(21), io::ErrorKind::Other),  // EISDIR
            Error::NameTooLong => (Some(36), io::ErrorKind::InvalidInput), // ENAMETOOLONG
            Error::TooManyLinks => (Some(40), io::ErrorKind::Other),  // ELOOP
            Error::NotFound => (None, io::ErrorKind::NotFound),
            Error::Invalid => (None, io::ErrorKind::InvalidInput),
            _ => (None, io::ErrorKind::Other),
        };
        match number.filter(|_| cfg!(target_os = "linux")) {
            Some(number) => io::Error::from_raw_os_error(number),
            None => io::Error::new(kind, error),
        }
    }
}

/// A fault of an image.
#[derive(Clone, Copy, Debug, PartialEq, Eq)]
#[non_exhaustive]
pub struct Fault {
    /// Its number, which docs/FAULTS.md explains.
    pub number: u32,
    /// Its offset, in bytes from the front of the image. It may be outside the image.
    pub at: u32,
}

/// The names of the faults by number; empty for a number that no fault has.
// made by tools/tables faults
pub(crate) const FAULTS: [&str; 27] = [
    "",
    "TooMany",
    "Short",
    "Magic",
    "Size",
    "Sum",
    "Flags",
    "Crc",
    "Signature",
    "Root",
    "",
    "Bounds",
    "HeaderSum",
    "BadName",
    "Kind",
    "LinkSize",
    "BlockKind",
    "ListEnd",
    "",
    "",
    "Twice",
    "TooDeep",
    "Overlap",
    "DupName",
    "Dot",
    "HardLink",
    "Unsorted",
];
// end

impl Fault {
    /// Returns its name, as `romtool check` prints it.
    pub fn name(&self) -> &'static str {
        match FAULTS.get(self.number as usize) {
            Some(name) if !name.is_empty() => name,
            _ => "Unknown",
        }
    }
}

/// Displays a fault as `12 HeaderSum at 96`: its number, its name and its offset.
impl Display for Fault {
    fn fmt(&self, f: &mut Formatter<'_>) -> fmt::Result {
        write!(f, "{} {} at {}", self.number, self.name(), self.at)
    }
}

/// The reason why a check refused bytes as an image.
#[derive(Clone, Copy, Debug, PartialEq, Eq)]
#[non_exhaustive]
pub enum CheckError {
    /// The bytes hold no image, and this is their least fault.
    Fault(Fault),
    /// Memory was refused.
    OutOfMemory,
}

impl Display for CheckError {
    fn fmt(&self, f: &mut Formatter<'_>) -> fmt::Result {
        match self {
            CheckError::Fault(fault) => write!(f, "fault {fault}"),
            CheckError::OutOfMemory => f.write_str("out of memory"),
        }
    }
}

impl core::error::Error for CheckError {}

/// The reason why bytes and a description make no image: it is no description of so many bytes.
#[derive(Clone, Copy, Debug, PartialEq, Eq)]
pub struct WrongNumbers;

impl Display for WrongNumbers {
    fn fmt(&self, f: &mut Formatter<'_>) -> fmt::Result {
        f.write_str("not the numbers of this image")
    }
}

impl core::error::Error for WrongNumbers {}
