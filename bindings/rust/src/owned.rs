//! Images that own their bytes.

use crate::error::{CheckError, WrongNumbers};
use crate::image::Image;
use crate::raw;
use core::fmt;

/// Bytes that stay the same as long as their owner is only moved, and borrowed without a change.
///
/// # Safety
///
/// `as_ref` returns the same bytes at each call, at any address, until the owner is dropped, and so does that of a clone.
pub unsafe trait StableBytes: AsRef<[u8]> {}

unsafe impl StableBytes for &[u8] {}
unsafe impl<const N: usize> StableBytes for [u8; N] {}
unsafe impl<const N: usize> StableBytes for &[u8; N] {}

#[cfg(feature = "alloc")]
mod of_heap {
    use super::StableBytes;
    use alloc::{boxed::Box, rc::Rc, sync::Arc, vec::Vec};

    unsafe impl StableBytes for Vec<u8> {}
    unsafe impl StableBytes for Box<[u8]> {}
    unsafe impl StableBytes for Rc<[u8]> {}
    unsafe impl StableBytes for Arc<[u8]> {}
}

/// An image that a check accepted, with the owner of its bytes: a `Vec<u8>`, an `Arc<[u8]>`, or a file that the caller mapped.
///
/// It may be moved, kept in a struct, and sent where its owner may be sent. [`image`](OwnedImage::image) lends the image.
pub struct OwnedImage<B> {
    bytes: B,
    numbers: raw::Numbers,
}

impl<B: StableBytes + Clone> Clone for OwnedImage<B> {
    fn clone(&self) -> OwnedImage<B> {
        OwnedImage { bytes: self.bytes.clone(), numbers: self.numbers }
    }
}

impl<B: AsRef<[u8]>> fmt::Debug for OwnedImage<B> {
    fn fmt(&self, f: &mut fmt::Formatter<'_>) -> fmt::Result {
        f.debug_tuple("OwnedImage").field(&self.image()).finish()
    }
}

impl<B: StableBytes> OwnedImage<B> {
    /// Checks bytes as an image of romfs or cramfs, as [`Image::check`] does.
    ///
    /// # Errors
    ///
    /// The bytes hold no image, with the same fault each time; or memory was refused.
    pub fn check(bytes: B) -> Result<OwnedImage<B>, CheckError> {
        // SAFETY: the bytes stay the same, as their type promises.
        unsafe { OwnedImage::check_mapped(bytes) }
    }
}

impl<B: AsRef<[u8]>> OwnedImage<B> {
    /// Checks bytes of any owner, for example of a file that is mapped into memory.
    ///
    /// # Safety
    ///
    /// `as_ref` returns the same bytes at each call until the owner is dropped. So nobody changes or cuts a mapped file.
    ///
    /// # Errors
    ///
    /// Those of [`OwnedImage::check`].
    pub unsafe fn check_mapped(bytes: B) -> Result<OwnedImage<B>, CheckError> {
        let numbers = *Image::check(bytes.as_ref())?.kept();
        Ok(OwnedImage { bytes, numbers })
    }

    /// Makes an image of bytes and their description, without a check, as [`Image::from_numbers`] does.
    ///
    /// # Safety
    ///
    /// [`numbers`](Image::numbers) of a checked image of exactly these bytes returned the description, and `as_ref` returns the
    /// same bytes at each call until the owner is dropped.
    ///
    /// # Errors
    ///
    /// It is no description of so many bytes.
    pub unsafe fn from_numbers(bytes: B, numbers: &[u8; 48]) -> Result<OwnedImage<B>, WrongNumbers> {
        // SAFETY: the caller promises it.
        let numbers = *unsafe { Image::from_numbers(bytes.as_ref(), numbers) }?.kept();
        Ok(OwnedImage { bytes, numbers })
    }

    /// Returns the image.
    pub fn image(&self) -> Image<'_> {
        Image::with(self.bytes.as_ref(), self.numbers)
    }

    /// Returns the owner of the bytes.
    pub fn into_inner(self) -> B {
        self.bytes
    }
}
