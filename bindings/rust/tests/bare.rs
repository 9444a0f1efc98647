//! The crate with any of its features: a check, and a file by its nodes. Without `alloc`, this program has the heap.

use romtool::{Error, Image};

const SMALL: &[u8] = include_bytes!("small.romfs");

/// A heap over the one of this program, which has the size of each block in front of it.
#[cfg(not(feature = "alloc"))]
mod heap {
    use std::alloc::{alloc, dealloc, Layout};

    #[repr(C)]
    struct Memory {
        given: u64,
        at: *mut u8,
    }

    fn layout(size: u64) -> Layout {
        Layout::from_size_align(size as usize + 16, 16).unwrap()
    }

    #[no_mangle]
    extern "C" fn rattle_alloc(size: u64, _align: u64) -> Memory {
        unsafe {
            let header = alloc(layout(size));
            header.cast::<u64>().write(size);
            Memory { given: 1, at: header.add(16) }
        }
    }

    #[no_mangle]
    unsafe extern "C" fn rattle_realloc(at: *mut u8, kept: u64, size: u64, align: u64) -> Memory {
        let moved = rattle_alloc(size, align);
        unsafe {
            moved.at.copy_from_nonoverlapping(at, kept as usize);
            rattle_dealloc(at);
        }
        moved
    }

    #[no_mangle]
    unsafe extern "C" fn rattle_dealloc(at: *mut u8) {
        unsafe { dealloc(at.sub(16), layout(at.sub(16).cast::<u64>().read())) }
    }
}

#[test]
fn a_file_by_its_nodes() {
    let image = Image::check(SMALL).expect("a good image");
    let etc = image.root().lookup("etc").unwrap();
    let mut motd = etc.lookup("motd").unwrap().open().unwrap();
    assert_eq!((motd.next_bytes(2), motd.next_bytes(99), motd.next_bytes(1)), (&b"he"[..], &b"llo\n"[..], &b""[..]));
    let mut four = [0; 4];
    assert_eq!((motd.set_position(4), motd.copy_next(&mut four)), (Ok(()), Ok(2)));
    assert_eq!((&four, motd.position()), (b"o\n\0\0", 6));
    assert_eq!(etc.lookup("none"), Err(Error::NotFound));
    assert_eq!(image.root().read_dir().unwrap().count(), 3);
    assert_eq!(image.walk().map(|it| (it.entry().name().len(), it.depth())).max(), Some((7, 1)));
    assert!(Image::check(&SMALL[1..]).is_err());
}
