//! What may be passed as a path.

#[cfg(feature = "alloc")]
use alloc::{borrow::Cow, string::String, vec::Vec};

/// A path of an image, or a name: bytes, a string, or, with the feature `std`, a path of the system. It need not be UTF-8.
///
/// A path of an image begins with a slash.
pub trait PathBytes {
    /// Returns the bytes of the path.
    fn path_bytes(&self) -> &[u8];
}

impl PathBytes for [u8] {
    fn path_bytes(&self) -> &[u8] {
        self
    }
}

impl PathBytes for str {
    fn path_bytes(&self) -> &[u8] {
        self.as_bytes()
    }
}

impl<const N: usize> PathBytes for [u8; N] {
    fn path_bytes(&self) -> &[u8] {
        self
    }
}

impl<T: PathBytes + ?Sized> PathBytes for &T {
    fn path_bytes(&self) -> &[u8] {
        (**self).path_bytes()
    }
}

#[cfg(feature = "alloc")]
impl PathBytes for Vec<u8> {
    fn path_bytes(&self) -> &[u8] {
        self
    }
}

#[cfg(feature = "alloc")]
impl PathBytes for String {
    fn path_bytes(&self) -> &[u8] {
        self.as_bytes()
    }
}

#[cfg(feature = "alloc")]
impl<T: PathBytes + alloc::borrow::ToOwned + ?Sized> PathBytes for Cow<'_, T> {
    fn path_bytes(&self) -> &[u8] {
        (**self).path_bytes()
    }
}

/// Paths of the system, whose bytes on Unix are those of the path.
#[cfg(feature = "std")]
mod of_system {
    use super::PathBytes;
    use std::ffi::{OsStr, OsString};
    use std::path::{Path, PathBuf};

    impl PathBytes for OsStr {
        fn path_bytes(&self) -> &[u8] {
            self.as_encoded_bytes()
        }
    }

    impl PathBytes for OsString {
        fn path_bytes(&self) -> &[u8] {
            self.as_encoded_bytes()
        }
    }

    impl PathBytes for Path {
        fn path_bytes(&self) -> &[u8] {
            self.as_os_str().as_encoded_bytes()
        }
    }

    impl PathBytes for PathBuf {
        fn path_bytes(&self) -> &[u8] {
            self.as_os_str().as_encoded_bytes()
        }
    }
}
