//! The three functions of `romtool_heap.h` over the program's global allocator. Each block is behind a header with its
//! size, since the library does not pass the size of a block that it frees.

use alloc::alloc::{alloc, dealloc, realloc};
use core::alloc::Layout;
use core::ffi::c_void;
use core::ptr::{null_mut, NonNull};

/// The bytes of a header, and the alignment of each block.
const UNIT: usize = 16;

/// `struct romtool_memory`.
#[repr(C)]
pub struct Memory {
    given: u64,
    at: *mut c_void,
}

/// The layout of a block of so many bytes with its header.
fn layout(size: usize) -> Option<Layout> {
    Layout::from_size_align(size.checked_add(UNIT)?, UNIT).ok()
}

/// Writes the header of memory for a block of so many bytes. Memory that was refused is null.
///
/// # Safety
///
/// The memory is that of `layout(size)`, or null.
unsafe fn answer(header: *mut u8, size: usize) -> Memory {
    if header.is_null() {
        return Memory { given: 0, at: NonNull::dangling().as_ptr() };
    }
    unsafe {
        header.cast::<usize>().write(size);
        Memory { given: 1, at: header.add(UNIT).cast() }
    }
}

/// Returns a block, for the library only.
#[no_mangle]
extern "C" fn rattle_alloc(size: u64, align: u64) -> Memory {
    let size = usize::try_from(size).unwrap_or(usize::MAX);
    let found = layout(size).filter(|_| align <= UNIT as u64);
    unsafe { answer(found.map_or(null_mut(), |it| alloc(it)), size) }
}

/// Changes the size of a block, for the library only.
///
/// # Safety
///
/// `at` is a block that was returned and not freed.
#[no_mangle]
unsafe extern "C" fn rattle_realloc(at: *mut c_void, _kept: u64, size: u64, _align: u64) -> Memory {
    let size = usize::try_from(size).unwrap_or(usize::MAX);
    unsafe {
        let header = at.cast::<u8>().sub(UNIT);
        let moved = match (layout(header.cast::<usize>().read()), layout(size)) {
            (Some(old), Some(new)) => realloc(header, old, new.size()),
            _ => null_mut(),
        };
        answer(moved, size)
    }
}

/// Frees a block, for the library only.
///
/// # Safety
///
/// `at` is a block that was returned and not freed.
#[no_mangle]
unsafe extern "C" fn rattle_dealloc(at: *mut c_void) {
    unsafe {
        let header = at.cast::<u8>().sub(UNIT);
        if let Some(layout) = layout(header.cast::<usize>().read()) {
            dealloc(header, layout);
        }
    }
}
