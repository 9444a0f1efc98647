//! Checked images, and the nodes to which their paths lead.

use crate::error::{CheckError, Error, Fault, WrongNumbers};
use crate::file::{Dir, File};
use crate::node::Node;
use crate::path::PathBytes;
use crate::raw;
use crate::walk::Walk;
use core::fmt;

/// The format of an image.
#[derive(Clone, Copy, Debug, PartialEq, Eq)]
#[non_exhaustive]
pub enum Format {
    /// romfs.
    Romfs,
    /// cramfs, the lowest byte of a word first.
    Cramfs,
    /// cramfs, the highest byte of a word first.
    CramfsBigEndian,
}

/// The kind of a file.
#[derive(Clone, Copy, Debug, PartialEq, Eq)]
pub enum Kind {
    /// A directory.
    Directory,
    /// A regular file.
    Regular,
    /// A symbolic link.
    Symlink,
    /// A block device.
    Block,
    /// A character device.
    Character,
    /// A socket.
    Socket,
    /// A named pipe.
    Fifo,
}

impl Kind {
    pub(crate) fn of(number: u32) -> Kind {
        match number {
            1 => Kind::Directory,
            2 => Kind::Regular,
            3 => Kind::Symlink,
            4 => Kind::Block,
            5 => Kind::Character,
            6 => Kind::Socket,
            _ => Kind::Fifo,
        }
    }
}

/// The kind and numbers of a file.
#[derive(Clone, Copy, Debug, PartialEq, Eq)]
#[non_exhaustive]
pub struct Metadata {
    /// The number of the file's node.
    pub ino: u32,
    /// The kind.
    pub kind: Kind,
    /// The permissions, 0 to 0o7777.
    pub mode: u32,
    /// The owner.
    pub uid: u32,
    /// The group.
    pub gid: u32,
    /// The bytes of a regular file or of a link's text; otherwise 0.
    pub size: u32,
    /// The major number of a device; otherwise 0.
    pub major: u32,
    /// The minor number of a device; otherwise 0.
    pub minor: u32,
}

impl Metadata {
    pub(crate) fn of(stat: &raw::Stat) -> Result<Metadata, Error> {
        if stat.error != 0 {
            return Err(Error::of(stat.error));
        }
        let kind = Kind::of(stat.kind);
        let (ino, mode, uid, gid) = (stat.ino, stat.mode, stat.uid, stat.gid);
        Ok(Metadata { ino, kind, mode, uid, gid, size: stat.size, major: stat.major, minor: stat.minor })
    }

    /// Returns whether it is a directory.
    pub fn is_dir(&self) -> bool {
        self.kind == Kind::Directory
    }

    /// Returns whether it is a regular file.
    pub fn is_file(&self) -> bool {
        self.kind == Kind::Regular
    }

    /// Returns whether it is a symbolic link.
    pub fn is_symlink(&self) -> bool {
        self.kind == Kind::Symlink
    }
}

/// An image that a check accepted, over its bytes. A copy is the same image.
#[derive(Clone, Copy)]
pub struct Image<'a> {
    bytes: &'a [u8],
    numbers: raw::Numbers,
}

impl fmt::Debug for Image<'_> {
    fn fmt(&self, f: &mut fmt::Formatter<'_>) -> fmt::Result {
        f.debug_struct("Image").field("format", &self.format()).field("len", &self.bytes.len()).finish()
    }
}

impl<'a> Image<'a> {
    /// Checks bytes as an image of romfs or cramfs. Bytes after the image's stated size are allowed.
    ///
    /// # Errors
    ///
    /// The bytes hold no image, with the same fault each time; or memory was refused.
    pub fn check(bytes: &'a [u8]) -> Result<Image<'a>, CheckError> {
        let mut made = raw::Image { data: core::ptr::null(), len: 0, numbers: raw::Numbers::default() };
        let error = unsafe { raw::romtool_check(&mut made, bytes.as_ptr(), bytes.len() as u64) };
        match error {
            0 => Ok(Image { bytes, numbers: made.numbers }),
            14 => Err(CheckError::Fault(Fault { number: made.numbers.fault, at: made.numbers.at })),
            _ => Err(CheckError::OutOfMemory),
        }
    }

    /// Makes an image of bytes, and of the numbers that a check of the same bytes returned.
    pub(crate) fn with(bytes: &'a [u8], numbers: raw::Numbers) -> Image<'a> {
        Image { bytes, numbers }
    }

    /// Returns the numbers, for [`Image::with`].
    pub(crate) fn kept(&self) -> &raw::Numbers {
        &self.numbers
    }

    /// Returns the description of the image: 48 bytes, from which [`Image::from_numbers`] makes it again over the same
    /// bytes. `romtool.h` says what they are.
    pub fn numbers(&self) -> [u8; 48] {
        let mut numbers = [0; 48];
        unsafe { raw::romtool_numbers(&self.raw(), &mut numbers) };
        numbers
    }

    /// Makes an image of bytes and its description, without a check. No byte is read.
    ///
    /// # Errors
    ///
    /// The description is no description, of another version, or one of another number of bytes.
    ///
    /// # Safety
    ///
    /// If it is not refused, [`Image::numbers`] returned the description for exactly the same bytes.
    pub unsafe fn from_numbers(bytes: &'a [u8], numbers: &[u8; 48]) -> Result<Image<'a>, WrongNumbers> {
        let mut made = raw::Image { data: core::ptr::null(), len: 0, numbers: raw::Numbers::default() };
        match unsafe { raw::romtool_from_numbers(&mut made, bytes.as_ptr(), bytes.len() as u64, numbers) } {
            0 => Ok(Image { bytes, numbers: made.numbers }),
            _ => Err(WrongNumbers),
        }
    }

    /// The struct for the library. The library has computed its numbers, for exactly the same bytes.
    pub(crate) fn raw(&self) -> raw::Image {
        raw::Image { data: self.bytes.as_ptr(), len: self.bytes.len() as u64, numbers: self.numbers }
    }

    /// The bytes of a place.
    pub(crate) fn place(&self, place: &raw::Place) -> Result<&'a [u8], Error> {
        if place.error != 0 {
            return Err(Error::of(place.error));
        }
        let from = place.at as usize;
        Ok(&self.bytes[from..from + place.len as usize])
    }

    /// Returns the bytes that were checked.
    pub fn as_bytes(&self) -> &'a [u8] {
        self.bytes
    }

    /// Returns the format.
    pub fn format(&self) -> Format {
        match self.numbers.format {
            1 => Format::Romfs,
            2 => Format::Cramfs,
            _ => Format::CramfsBigEndian,
        }
    }

    /// Returns the number of bytes that belong to the image.
    pub fn size(&self) -> u32 {
        self.numbers.accessible
    }

    /// Returns the number of references to records, including that of the superblock.
    pub fn references(&self) -> u32 {
        self.numbers.references
    }

    /// Returns the greatest number of names on a path.
    pub fn depth(&self) -> u32 {
        self.numbers.depth
    }

    /// Writes the numbers ([`Node::offset`]) of the nodes of all names, in rising order, to the front of a slice: a number
    /// occurs as often as names lead to its node. Returns the number of names. If the slice has less room, it is unchanged.
    /// For n names, the time is n log n.
    pub fn node_numbers(&self, numbers: &mut [u32]) -> u64 {
        unsafe { raw::romtool_nodes(&self.raw(), numbers.as_mut_ptr(), numbers.len() as u64) }
    }

    /// Returns the name of the volume, which may be empty.
    pub fn volume(&self) -> &'a [u8] {
        self.place(&unsafe { raw::romtool_volume(&self.raw()) }).unwrap_or(&[])
    }

    /// Returns the root directory.
    pub fn root(&self) -> Node<'a> {
        Node { image: *self, number: self.numbers.root }
    }

    /// Returns the node to which a path leads. A symbolic link as the last component is followed.
    ///
    /// # Errors
    ///
    /// The path leads nowhere.
    pub fn lookup(&self, path: impl PathBytes) -> Result<Node<'a>, Error> {
        let path = path.path_bytes();
        Node::found(*self, unsafe { raw::romtool_lookup(&self.raw(), path.as_ptr(), path.len() as u64, true) })
    }

    /// Returns the same as [`lookup`](Image::lookup) if the look-up compares no more names than the budget, from which those
    /// that it compares are taken. The path is compared with the names of each directory on it, one after the other.
    ///
    /// # Errors
    ///
    /// More names are compared than the budget has ([`Error::OverBudget`]), of which nothing is left then; or the path leads
    /// nowhere.
    pub fn lookup_within(&self, path: impl PathBytes, budget: &mut u64) -> Result<Node<'a>, Error> {
        let (path, image) = (path.path_bytes(), self.raw());
        Node::found(*self, unsafe {
            raw::romtool_lookup_within(&image, path.as_ptr(), path.len() as u64, true, budget)
        })
    }

    /// Returns the same as [`lookup`](Image::lookup), but a symbolic link as the last component is not followed.
    ///
    /// # Errors
    ///
    /// The path leads nowhere.
    pub fn symlink_lookup(&self, path: impl PathBytes) -> Result<Node<'a>, Error> {
        let path = path.path_bytes();
        Node::found(*self, unsafe { raw::romtool_lookup(&self.raw(), path.as_ptr(), path.len() as u64, false) })
    }

    /// Returns the same as [`symlink_lookup`](Image::symlink_lookup), with a budget as [`lookup_within`](Image::lookup_within)
    /// has it.
    ///
    /// # Errors
    ///
    /// Those of [`lookup_within`](Image::lookup_within).
    pub fn symlink_lookup_within(&self, path: impl PathBytes, budget: &mut u64) -> Result<Node<'a>, Error> {
        let (path, image) = (path.path_bytes(), self.raw());
        Node::found(*self, unsafe {
            raw::romtool_lookup_within(&image, path.as_ptr(), path.len() as u64, false, budget)
        })
    }

    /// Returns the kind and numbers of the node to which a path leads. A symbolic link as the last component is
    /// followed.
    ///
    /// # Errors
    ///
    /// The path leads nowhere.
    pub fn metadata(&self, path: impl PathBytes) -> Result<Metadata, Error> {
        self.stat(path.path_bytes(), true)
    }

    /// Returns the same as [`metadata`](Image::metadata), but a symbolic link as the last component is not followed.
    ///
    /// # Errors
    ///
    /// The path leads nowhere.
    pub fn symlink_metadata(&self, path: impl PathBytes) -> Result<Metadata, Error> {
        self.stat(path.path_bytes(), false)
    }

    fn stat(&self, path: &[u8], follow: bool) -> Result<Metadata, Error> {
        Metadata::of(&unsafe { raw::romtool_stat(&self.raw(), path.as_ptr(), path.len() as u64, follow) })
    }

    /// Returns the text of the symbolic link to which a path leads, as a part of the image.
    ///
    /// # Errors
    ///
    /// The path leads nowhere, or to no symbolic link ([`Error::Invalid`]).
    pub fn read_link(&self, path: impl PathBytes) -> Result<&'a [u8], Error> {
        let path = path.path_bytes();
        self.place(&unsafe { raw::romtool_readlink(&self.raw(), path.as_ptr(), path.len() as u64) })
    }

    /// Opens the regular file to which a path leads, at its start.
    ///
    /// # Errors
    ///
    /// The path leads nowhere, to a directory ([`Error::IsADirectory`]) or to a special file.
    pub fn open(&self, path: impl PathBytes) -> Result<File<'a>, Error> {
        File::open(*self, path.path_bytes())
    }

    /// Opens the regular file to which a path leads, if its look-up compares no more names than the budget, as
    /// [`lookup_within`](Image::lookup_within) says.
    ///
    /// # Errors
    ///
    /// Those of [`open`](Image::open), or more names are compared ([`Error::OverBudget`]).
    pub fn open_within(&self, path: impl PathBytes, budget: &mut u64) -> Result<File<'a>, Error> {
        self.lookup_within(path, budget)?.open()
    }

    /// Opens the directory to which a path leads, with a budget in the same way.
    ///
    /// # Errors
    ///
    /// Those of [`read_dir`](Image::read_dir), or more names are compared ([`Error::OverBudget`]).
    pub fn read_dir_within(&self, path: impl PathBytes, budget: &mut u64) -> Result<Dir<'a>, Error> {
        self.lookup_within(path, budget)?.read_dir()
    }

    /// Walks over all entries of the image except the root.
    ///
    /// # Panics
    ///
    /// Never: the root is a directory.
    pub fn walk(&self) -> Walk<'a> {
        self.root().walk().expect("the root is a directory")
    }

    /// Opens the directory to which a path leads. The entries `.` and `..` are left out.
    ///
    /// # Errors
    ///
    /// The path leads nowhere, or to no directory ([`Error::NotADirectory`]).
    pub fn read_dir(&self, path: impl PathBytes) -> Result<Dir<'a>, Error> {
        Dir::open(*self, path.path_bytes())
    }
}
