//! Nodes: what paths and entries lead to, for calls without a look-up.

use crate::error::Error;
use crate::file::{Dir, File, Open};
use crate::image::{Image, Metadata};
use crate::path::PathBytes;
use crate::raw;
use crate::walk::Walk;
use core::fmt;

/// A node of an image: what a path or an entry of a directory leads to. Its calls make no look-up, so their time does not
/// depend on names or links.
#[derive(Clone, Copy)]
pub struct Node<'a> {
    pub(crate) image: Image<'a>,
    pub(crate) number: u32,
}

impl<'a> Node<'a> {
    /// The node of an answer of the library on an image, or its error.
    pub(crate) fn found(image: Image<'a>, answer: raw::Node) -> Result<Node<'a>, Error> {
        match answer.error {
            0 => Ok(Node { image, number: answer.node }),
            error => Err(Error::of(error)),
        }
    }

    /// Returns the offset of its record in the image. No other node has it, so it is the node's number, too.
    pub fn offset(&self) -> u32 {
        self.number
    }

    /// Returns its kind and numbers.
    ///
    /// # Panics
    ///
    /// Never: the image is open.
    pub fn metadata(&self) -> Metadata {
        Metadata::of(&unsafe { raw::romtool_stat_node(&self.image.raw(), self.number) }).expect("the image is open")
    }

    /// Returns the number of its names, as `st_nlink`. A directory has one. The time is linear in the references of the
    /// image.
    pub fn links(&self) -> u64 {
        unsafe { raw::romtool_links(&self.image.raw(), self.number) }
    }

    /// Returns the parent of this directory. The root is its own. The time is linear in the references of the image.
    ///
    /// # Errors
    ///
    /// It is not a directory ([`Error::NotADirectory`]).
    pub fn parent(&self) -> Result<Node<'a>, Error> {
        Node::found(self.image, unsafe { raw::romtool_parent(&self.image.raw(), self.number) })
    }

    /// Returns the text of the symbolic link, as a part of the image.
    ///
    /// # Errors
    ///
    /// It is no symbolic link ([`Error::Invalid`]).
    pub fn read_link(&self) -> Result<&'a [u8], Error> {
        self.image.place(&unsafe { raw::romtool_readlink_node(&self.image.raw(), self.number) })
    }

    /// Opens it as a regular file, at its start.
    ///
    /// # Errors
    ///
    /// It is a directory ([`Error::IsADirectory`]), or neither that nor a regular file.
    pub fn open(&self) -> Result<File<'a>, Error> {
        File::of(Open::at_node(*self)?)
    }

    /// Opens it as a directory.
    ///
    /// # Errors
    ///
    /// It is not a directory ([`Error::NotADirectory`]), or neither that nor a regular file.
    pub fn read_dir(&self) -> Result<Dir<'a>, Error> {
        Dir::of(Open::at_node(*self)?)
    }

    /// Walks over all entries below this directory.
    ///
    /// # Errors
    ///
    /// It is not a directory ([`Error::NotADirectory`]), or neither that nor a regular file.
    pub fn walk(&self) -> Result<Walk<'a>, Error> {
        Walk::of(*self)
    }

    /// Returns the node of the entry of this name in this directory. No entry is named `.` or `..`, and no link is followed.
    /// The time is linear in the names of the directory.
    ///
    /// # Errors
    ///
    /// It is not a directory ([`Error::NotADirectory`]), or has no such entry ([`Error::NotFound`]).
    pub fn lookup(&self, name: impl PathBytes) -> Result<Node<'a>, Error> {
        let name = name.path_bytes();
        Node::found(self.image, unsafe {
            raw::romtool_lookup_at(&self.image.raw(), self.number, name.as_ptr(), name.len() as u64)
        })
    }
}

/// Two nodes are equal if they are the same node of one image, over the same bytes.
impl PartialEq for Node<'_> {
    fn eq(&self, other: &Node<'_>) -> bool {
        self.number == other.number && core::ptr::eq(self.image.as_bytes(), other.image.as_bytes())
    }
}

impl Eq for Node<'_> {}

impl fmt::Debug for Node<'_> {
    fn fmt(&self, f: &mut fmt::Formatter<'_>) -> fmt::Result {
        f.debug_tuple("Node").field(&self.number).finish()
    }
}
