//! Open files and directories.

use crate::error::Error;
use crate::image::{Image, Kind, Metadata};
use crate::node::Node;
use crate::raw;
#[cfg(feature = "std")]
use std::io::{self, BufRead, Read, Seek, SeekFrom};

/// An open node of an image, with a position.
#[derive(Clone, Debug)]
pub(crate) struct Open<'a> {
    image: Image<'a>,
    node: u32,
    position: u64,
}

impl<'a> Open<'a> {
    fn at(image: Image<'a>, path: &[u8]) -> Result<Open<'a>, Error> {
        let mut file = raw::File { image: image.raw(), error: 0, node: 0, position: 0 };
        let error = unsafe { raw::romtool_open(&mut file, &image.raw(), path.as_ptr(), path.len() as u64) };
        Open::of(image, error, &file)
    }

    pub(crate) fn at_node(node: Node<'a>) -> Result<Open<'a>, Error> {
        let image = node.image;
        let mut file = raw::File { image: image.raw(), error: 0, node: 0, position: 0 };
        let error = unsafe { raw::romtool_open_node(&mut file, &image.raw(), node.number) };
        Open::of(image, error, &file)
    }

    fn of(image: Image<'a>, error: u32, file: &raw::File) -> Result<Open<'a>, Error> {
        match error {
            0 => Ok(Open { image, node: file.node, position: file.position }),
            _ => Err(Error::of(error)),
        }
    }

    /// The struct for the library, which has written each of its numbers.
    fn raw(&self) -> raw::File {
        raw::File { image: self.image.raw(), error: 0, node: self.node, position: self.position }
    }

    fn metadata(&self) -> Result<Metadata, Error> {
        Metadata::of(&unsafe { raw::romtool_fstat(&self.raw()) })
    }
}

/// An open regular file with a position. A clone has a position of its own.
///
/// [`as_bytes`](File::as_bytes) returns the bytes in the image, without a copy, and [`next_bytes`](File::next_bytes) the
/// next ones. With the feature `std` it is also read by `Read`, `BufRead` and `Seek`. Reading never fails.
#[derive(Clone, Debug)]
pub struct File<'a> {
    open: Open<'a>,
    metadata: Metadata,
}

impl<'a> File<'a> {
    pub(crate) fn open(image: Image<'a>, path: &[u8]) -> Result<File<'a>, Error> {
        File::of(Open::at(image, path)?)
    }

    pub(crate) fn of(open: Open<'a>) -> Result<File<'a>, Error> {
        let metadata = open.metadata()?;
        if metadata.is_dir() {
            return Err(Error::IsADirectory);
        }
        Ok(File { open, metadata })
    }

    /// Returns the kind and numbers of the file.
    pub fn metadata(&self) -> Metadata {
        self.metadata
    }

    /// Returns the number of the file's bytes.
    pub fn size(&self) -> u64 {
        u64::from(self.metadata.size)
    }

    /// Returns all bytes of the file, as a part of the image, whatever the position is.
    ///
    /// # Errors
    ///
    /// They are in several pieces ([`Error::InPieces`]).
    pub fn as_bytes(&self) -> Result<&'a [u8], Error> {
        self.range(0, self.size())
    }

    /// Returns the `len` bytes from byte `from` on, as a part of the image, whatever the position is.
    ///
    /// # Errors
    ///
    /// They are not within the file ([`Error::Invalid`]), or are in several pieces ([`Error::InPieces`]).
    pub fn range(&self, from: u64, len: u64) -> Result<&'a [u8], Error> {
        if len == 0 && from <= self.size() {
            return Ok(&[]);
        }
        self.open.image.place(&unsafe { raw::romtool_map(&self.open.raw(), from, len) })
    }

    /// Returns the next bytes, as a part of the image: at most `most`, as many as follow one another. The position
    /// moves by their number. They are empty at the end, or if `most` is 0.
    pub fn next_bytes(&mut self, most: u64) -> &'a [u8] {
        let mut file = self.open.raw();
        let place = unsafe { raw::romtool_lend(&mut file, most) };
        self.open.position = file.position;
        self.open.image.place(&place).unwrap_or(&[])
    }

    /// Copies the next bytes to a buffer, also from several pieces, and returns their number, which is 0 at the end.
    ///
    /// # Errors
    ///
    /// None: the file is open.
    pub fn copy_next(&mut self, buffer: &mut [u8]) -> Result<usize, Error> {
        let (mut file, mut count) = (self.open.raw(), 0);
        let len = buffer.len() as u64;
        let error = unsafe { raw::romtool_read(&mut file, buffer.as_mut_ptr(), len, &mut count) };
        self.open.position = file.position;
        match error {
            0 => Ok(count as usize),
            _ => Err(Error::of(error)),
        }
    }

    /// Copies the bytes from byte `from` on to a buffer, whatever the position is, and returns their number.
    ///
    /// # Errors
    ///
    /// None: the file is open.
    pub fn read_at(&self, from: u64, buffer: &mut [u8]) -> Result<usize, Error> {
        let (len, mut count) = (buffer.len() as u64, 0);
        match unsafe { raw::romtool_read_at(&self.open.raw(), from, buffer.as_mut_ptr(), len, &mut count) } {
            0 => Ok(count as usize),
            error => Err(Error::of(error)),
        }
    }

    /// Returns the position: the number of the next byte.
    pub fn position(&self) -> u64 {
        self.open.position
    }

    /// Sets the position, also past the end.
    ///
    /// # Errors
    ///
    /// None: the file is open.
    pub fn set_position(&mut self, position: u64) -> Result<(), Error> {
        let mut file = self.open.raw();
        let error = unsafe { raw::romtool_seek(&mut file, position) };
        self.open.position = file.position;
        match error {
            0 => Ok(()),
            _ => Err(Error::of(error)),
        }
    }
}

#[cfg(feature = "std")]
impl Read for File<'_> {
    fn read(&mut self, buffer: &mut [u8]) -> io::Result<usize> {
        Ok(self.copy_next(buffer)?)
    }
}

#[cfg(feature = "std")]
impl BufRead for File<'_> {
    fn fill_buf(&mut self) -> io::Result<&[u8]> {
        Ok(self.clone().next_bytes(u64::MAX))
    }

    fn consume(&mut self, amount: usize) {
        self.next_bytes(amount as u64);
    }
}

#[cfg(feature = "std")]
impl Seek for File<'_> {
    fn seek(&mut self, to: SeekFrom) -> io::Result<u64> {
        let position = match to {
            SeekFrom::Start(position) => Some(position),
            SeekFrom::End(by) => self.size().checked_add_signed(by),
            SeekFrom::Current(by) => self.open.position.checked_add_signed(by),
        };
        let position = position.ok_or(io::Error::from(io::ErrorKind::InvalidInput))?;
        self.set_position(position)?;
        Ok(self.position())
    }
}

/// An entry of a directory.
#[derive(Clone, Copy, Debug)]
pub struct Entry<'a> {
    name: &'a [u8],
    node: Node<'a>,
    kind: Kind,
}

impl<'a> Entry<'a> {
    /// Returns the name, as a part of the image. It need not be UTF-8.
    pub fn name(&self) -> &'a [u8] {
        self.name
    }

    /// Returns the node. A symbolic link is not followed.
    pub fn node(&self) -> Node<'a> {
        self.node
    }

    /// Returns the kind of the node. A symbolic link is not followed.
    pub fn kind(&self) -> Kind {
        self.kind
    }
}

/// An open directory: an iterator over its entries, without `.` and `..`. A clone has its own position.
#[derive(Clone, Debug)]
pub struct Dir<'a> {
    open: Open<'a>,
}

impl<'a> Dir<'a> {
    pub(crate) fn open(image: Image<'a>, path: &[u8]) -> Result<Dir<'a>, Error> {
        Dir::of(Open::at(image, path)?)
    }

    pub(crate) fn of(open: Open<'a>) -> Result<Dir<'a>, Error> {
        if open.metadata()?.is_dir() {
            Ok(Dir { open })
        } else {
            Err(Error::NotADirectory)
        }
    }

    /// Returns the number of the directory and the position, for [`Dir::again`].
    pub(crate) fn kept(&self) -> (u32, u64) {
        (self.open.node, self.open.position)
    }

    /// Returns the directory of the same image with this number and position, which [`Dir::kept`] returned.
    pub(crate) fn again(of: Node<'a>, (node, position): (u32, u64)) -> Dir<'a> {
        Dir { open: Open { image: of.image, node, position } }
    }

    /// Returns the kind and numbers of the directory.
    ///
    /// # Panics
    ///
    /// Never: the directory is open.
    pub fn metadata(&self) -> Metadata {
        self.open.metadata().expect("the directory is open")
    }
}

impl<'a> Iterator for Dir<'a> {
    type Item = Entry<'a>;

    fn next(&mut self) -> Option<Entry<'a>> {
        let mut file = self.open.raw();
        let mut entry = raw::Entry { name: core::ptr::null(), name_len: 0, node: 0, some: 0, kind: 0 };
        let error = unsafe { raw::romtool_readdir(&mut file, &mut entry) };
        self.open.position = file.position;
        if error != 0 || entry.some == 0 {
            return None;
        }
        // The name is in the image, and is returned from there.
        let bytes = self.open.image.as_bytes();
        let from = (entry.name as usize).wrapping_sub(bytes.as_ptr() as usize);
        let name = bytes.get(from..)?.get(..entry.name_len as usize)?;
        let node = Node { image: self.open.image, number: entry.node };
        Some(Entry { name, node, kind: Kind::of(entry.kind) })
    }
}

impl core::iter::FusedIterator for Dir<'_> {}
