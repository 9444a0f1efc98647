//! Walks over all entries below a directory.

use crate::error::Error;
use crate::file::{Dir, Entry};
use crate::image::Kind;
use crate::node::Node;
#[cfg(feature = "alloc")]
use alloc::vec::Vec;
#[cfg(feature = "std")]
use std::path::Path;

/// The most names on a path of an image.
const MOST: usize = 64;

/// An entry that a walk found, with its path.
#[derive(Clone, Debug)]
pub struct Found<'a> {
    entry: Entry<'a>,
    depth: usize,
    #[cfg(feature = "alloc")]
    path: Vec<u8>,
}

impl<'a> Found<'a> {
    /// Returns the entry.
    pub fn entry(&self) -> Entry<'a> {
        self.entry
    }

    /// Returns the number of names of its path from the directory on: 1 for an entry of the directory itself.
    pub fn depth(&self) -> usize {
        self.depth
    }

    /// Returns its path from the directory on, which begins with a slash.
    #[cfg(feature = "alloc")]
    pub fn path(&self) -> &[u8] {
        &self.path
    }

    /// Returns the same as a path of the system.
    #[cfg(all(feature = "std", unix))]
    pub fn as_path(&self) -> &Path {
        use std::os::unix::ffi::OsStrExt;
        Path::new(std::ffi::OsStr::from_bytes(&self.path))
    }
}

/// An iterator over all entries below a directory: a directory before its entries, in the order of the image. No link is followed,
/// and no name is looked up, so a walk takes linear time.
#[derive(Clone, Debug)]
pub struct Walk<'a> {
    top: Node<'a>,
    // the numbers and positions of the open directories
    open: [(u32, u64); MOST],
    depth: usize,
    #[cfg(feature = "alloc")]
    path: Vec<u8>,
    #[cfg(feature = "alloc")]
    ends: [usize; MOST],
}

impl<'a> Walk<'a> {
    pub(crate) fn of(top: Node<'a>) -> Result<Walk<'a>, Error> {
        let mut open = [(0, 0); MOST];
        open[0] = top.read_dir()?.kept();
        Ok(Walk {
            top,
            open,
            depth: 1,
            #[cfg(feature = "alloc")]
            path: Vec::new(),
            #[cfg(feature = "alloc")]
            ends: [0; MOST],
        })
    }

    /// Notes the next entry of the innermost directory, and enters it if it is one. A checked image has at most 64 names on a path.
    fn found(&mut self, entry: Entry<'a>) -> Found<'a> {
        let depth = self.depth;
        #[cfg(feature = "alloc")]
        {
            self.path.truncate(self.ends[depth - 1]);
            self.path.push(b'/');
            self.path.extend_from_slice(entry.name());
        }
        let below = (entry.kind() == Kind::Directory && depth < MOST).then(|| entry.node().read_dir());
        if let Some(Ok(below)) = below {
            self.open[depth] = below.kept();
            #[cfg(feature = "alloc")]
            {
                self.ends[depth] = self.path.len();
            }
            self.depth += 1;
        }
        Found {
            entry,
            depth,
            #[cfg(feature = "alloc")]
            path: self.path.clone(),
        }
    }
}

impl<'a> Iterator for Walk<'a> {
    type Item = Found<'a>;

    fn next(&mut self) -> Option<Found<'a>> {
        while self.depth > 0 {
            let at = &mut self.open[self.depth - 1];
            let mut directory = Dir::again(self.top, *at);
            let entry = directory.next();
            *at = directory.kept();
            match entry {
                Some(entry) => return Some(self.found(entry)),
                None => self.depth -= 1,
            }
        }
        None
    }
}

impl core::iter::FusedIterator for Walk<'_> {}
