//! The calls of `romtool.h`, and the rules that their caller has to keep.
//!
//! The structs that the library reads are made for each call, from numbers that it returned for the same bytes. So no
//! code outside this module can pass any others to it.
//!
//! If pointers have 32 bits, the library returns structs through a pointer, as `romtool_32.h` has it.

/// `struct romtool_image`. On a machine with pointers of 32 bits, four bytes that nobody uses are behind the pointer.
#[repr(C)]
#[derive(Clone, Copy)]
pub(crate) struct Image {
    pub data: *const u8,
    pub len: u64,
    pub numbers: Numbers,
}

/// The fields of `struct romtool_image` except the bytes.
#[repr(C)]
#[derive(Clone, Copy, Debug, Default, PartialEq, Eq)]
pub(crate) struct Numbers {
    pub status: u32,
    pub format: u32,
    pub fault: u32,
    pub at: u32,
    pub accessible: u32,
    pub root: u32,
    pub references: u32,
    pub depth: u32,
}

/// `struct romtool_node`.
#[repr(C)]
pub(crate) struct Node {
    pub error: u32,
    pub node: u32,
}

/// `struct romtool_stat`.
#[repr(C)]
pub(crate) struct Stat {
    pub error: u32,
    pub ino: u32,
    pub kind: u32,
    pub mode: u32,
    pub uid: u32,
    pub gid: u32,
    pub size: u32,
    pub major: u32,
    pub minor: u32,
}

/// `struct romtool_place`.
#[repr(C)]
pub(crate) struct Place {
    pub error: u32,
    pub at: u32,
    pub len: u64,
}

/// `struct romtool_file`.
#[repr(C)]
#[derive(Clone, Copy)]
pub(crate) struct File {
    pub image: Image,
    pub error: u32,
    pub node: u32,
    pub position: u64,
}

/// `struct romtool_entry`.
#[repr(C)]
pub(crate) struct Entry {
    pub name: *const u8,
    pub name_len: u64,
    pub node: u32,
    pub some: u32,
    pub kind: u32,
}

// The layout of the library, whose structs the header states. On a machine that aligns `u64` to 4 bytes the crate does not compile.
const _: () = {
    assert!(core::mem::size_of::<Image>() == 48 && core::mem::size_of::<File>() == 64);
    assert!(core::mem::size_of::<Stat>() == 36 && core::mem::size_of::<Place>() == 16);
    assert!(core::mem::size_of::<Entry>() == 32 && core::mem::size_of::<Node>() == 8);
    assert!(core::mem::size_of::<usize>() == 8 || cfg!(by_pointer));
};

extern "C" {
    #[link_name = "romtool_check_v3"]
    pub(crate) fn romtool_check(image: *mut Image, data: *const u8, len: u64) -> u32;
    #[link_name = "romtool_open_v3"]
    pub(crate) fn romtool_open(file: *mut File, image: *const Image, path: *const u8, len: u64) -> u32;
    #[link_name = "romtool_open_node_v3"]
    pub(crate) fn romtool_open_node(file: *mut File, image: *const Image, node: u32) -> u32;
    #[link_name = "romtool_read_v3"]
    pub(crate) fn romtool_read(file: *mut File, buffer: *mut u8, len: u64, count: *mut u64) -> u32;
    #[link_name = "romtool_seek_v3"]
    pub(crate) fn romtool_seek(file: *mut File, position: u64) -> u32;
    #[link_name = "romtool_readdir_v3"]
    pub(crate) fn romtool_readdir(file: *mut File, entry: *mut Entry) -> u32;
    #[link_name = "romtool_read_at_v3"]
    pub(crate) fn romtool_read_at(file: *const File, off: u64, buffer: *mut u8, len: u64, count: *mut u64) -> u32;
    #[link_name = "romtool_links_v3"]
    pub(crate) fn romtool_links(image: *const Image, node: u32) -> u64;
    #[link_name = "romtool_nodes_v3"]
    pub(crate) fn romtool_nodes(image: *const Image, numbers: *mut u32, room: u64) -> u64;
    #[link_name = "romtool_numbers_v3"]
    pub(crate) fn romtool_numbers(image: *const Image, numbers: *mut [u8; 48]);
    #[link_name = "romtool_from_numbers_v3"]
    pub(crate) fn romtool_from_numbers(image: *mut Image, data: *const u8, len: u64, numbers: *const [u8; 48]) -> u32;
}

/// Declares functions that return a struct, with their symbols for pointers of 64 and of 32 bits.
macro_rules! returning {
    ($($symbol:literal $by_pointer:literal fn $name:ident($($given:ident: $kind:ty),*) -> $answer:ty;)*) => {
        #[cfg(not(by_pointer))]
        extern "C" {
            $(#[link_name = $symbol] pub(crate) fn $name($($given: $kind),*) -> $answer;)*
        }

        #[cfg(by_pointer)]
        mod by_pointer {
            use super::*;
            extern "C" {
                $(#[link_name = $by_pointer] pub(crate) fn $name(answer: *mut $answer, $($given: $kind),*);)*
            }
        }

        $(
            #[cfg(by_pointer)]
            pub(crate) unsafe fn $name($($given: $kind),*) -> $answer {
                let mut answer = core::mem::MaybeUninit::uninit();
                unsafe {
                    by_pointer::$name(answer.as_mut_ptr(), $($given),*);
                    answer.assume_init()
                }
            }
        )*
    };
}

returning! {
    "romtool_lookup_v3" "rom32_lookup_v3" fn romtool_lookup(image: *const Image, path: *const u8, len: u64, follow: bool) -> Node;
    "romtool_lookup_within_v3" "rom32_lookup_within_v3" fn romtool_lookup_within(image: *const Image, path: *const u8, len: u64, follow: bool, budget: *mut u64) -> Node;
    "romtool_stat_v3" "rom32_stat_v3" fn romtool_stat(image: *const Image, path: *const u8, len: u64, follow: bool) -> Stat;
    "romtool_stat_node_v3" "rom32_stat_node_v3" fn romtool_stat_node(image: *const Image, node: u32) -> Stat;
    "romtool_lookup_at_v3" "rom32_lookup_at_v3" fn romtool_lookup_at(image: *const Image, directory: u32, name: *const u8, len: u64) -> Node;
    "romtool_readlink_v3" "rom32_readlink_v3" fn romtool_readlink(image: *const Image, path: *const u8, len: u64) -> Place;
    "romtool_readlink_node_v3" "rom32_readlink_node_v3" fn romtool_readlink_node(image: *const Image, node: u32) -> Place;
    "romtool_fstat_v3" "rom32_fstat_v3" fn romtool_fstat(file: *const File) -> Stat;
    "romtool_map_v3" "rom32_map_v3" fn romtool_map(file: *const File, off: u64, len: u64) -> Place;
    "romtool_lend_v3" "rom32_lend_v3" fn romtool_lend(file: *mut File, max: u64) -> Place;
    "romtool_parent_v3" "rom32_parent_v3" fn romtool_parent(image: *const Image, directory: u32) -> Node;
    "romtool_volume_v3" "rom32_volume_v3" fn romtool_volume(image: *const Image) -> Place;
}
