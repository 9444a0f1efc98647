#![doc = include_str!("../README.md")]
#![no_std]
#![warn(missing_docs)]
#![deny(unsafe_op_in_unsafe_fn)]

#[cfg(feature = "alloc")]
extern crate alloc;
#[cfg(feature = "std")]
extern crate std;

mod error;
mod file;
#[cfg(all(feature = "alloc", not(heap_of_archive)))]
mod heap;
mod image;
mod node;
mod owned;
mod path;
mod raw;
mod walk;

pub use error::{CheckError, Error, Fault, WrongNumbers};
pub use file::{Dir, Entry, File};
pub use image::{Format, Image, Kind, Metadata};
pub use node::Node;
pub use owned::{OwnedImage, StableBytes};
pub use path::PathBytes;
pub use walk::{Found, Walk};
