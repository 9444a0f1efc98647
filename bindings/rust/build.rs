//! Says where the archive of the library is: in the directory `ROMTOOL_LIB_DIR`, as `libromtool.a` (of a release) or
//! `librom_c.a`; otherwise where tools/library leaves it in a clone, or where a release is installed on this machine.
//! Also says whether the library returns structs through a pointer, as it does for pointers of 32 bits.

use std::env;
use std::fs;
use std::path::PathBuf;

/// The member of an installed archive that has the functions of romtool_heap.h.
const HEAP: &[u8] = b"romtool_heap.o";

/// The directories in which a release is installed.
const INSTALLED: [&str; 2] = ["/usr/local/lib", "/usr/lib"];

/// Returns the directories in which an archive may be.
fn folders() -> Vec<PathBuf> {
    if let Some(folder) = env::var_os("ROMTOOL_LIB_DIR") {
        return vec![PathBuf::from(folder)];
    }
    let here = env::var_os("CARGO_MANIFEST_DIR").expect("cargo says where the crate is");
    let mut found = vec![PathBuf::from(here).join("../../crates/rom_c/out")];
    if env::var_os("HOST") == env::var_os("TARGET") {
        found.extend(INSTALLED.map(PathBuf::from));
    }
    found
}

/// Returns the first archive, and its name for the linker.
fn archive() -> Option<(PathBuf, &'static str)> {
    let names = ["romtool", "rom_c"];
    let files = folders().into_iter().flat_map(|it| names.map(|name| (it.join(format!("lib{name}.a")), name)));
    files.into_iter().find(|(path, _)| path.is_file())
}

fn main() {
    println!("cargo:rerun-if-env-changed=ROMTOOL_LIB_DIR");
    println!("cargo:rerun-if-env-changed=ROMTOOL_BY_POINTER");
    println!("cargo:rustc-check-cfg=cfg(heap_of_archive, by_pointer)");
    // ROMTOOL_BY_POINTER is for the tests of this repository
    let wide = env::var("CARGO_CFG_TARGET_POINTER_WIDTH").map_or(true, |it| it == "64");
    if !wide || env::var_os("ROMTOOL_BY_POINTER").is_some() {
        println!("cargo:rustc-cfg=by_pointer");
    }
    let Some((archive, name)) = archive() else {
        panic!(
            "there is no libromtool.a and no librom_c.a in {:?}: set ROMTOOL_LIB_DIR, or run tools/library",
            folders()
        );
    };
    let held = fs::read(&archive).expect("the archive can be read");
    if held.windows(HEAP.len()).any(|it| it == HEAP) {
        println!("cargo:rustc-cfg=heap_of_archive");
    }
    println!("cargo:rerun-if-changed={}", archive.display());
    println!("cargo:rustc-link-search=native={}", archive.parent().expect("it is in a directory").display());
    println!("cargo:rustc-link-lib=static={name}");
}
