"""Tests the crate for Rust of bindings/rust over the library for C.

The crate's own tests and the example of its README are run by cargo, without warnings, with each set of its features and also
over an archive as a release has it, and its sources have to be as rustfmt leaves them. They are run again with the calls of
machines with 32-bit pointers, which are made of those of this machine. The archive of the crate that a release has is unpacked, and
its tests are run over what a release installs. A program without std reads an image over
the heap of c/area.c. Then the crate's example `answers` answers `check` and `list` on the cases (see run.py), and `cat` of each
regular file of them and of one directory in each format, as romtool does.
"""

import os
import re
import subprocess
import sys
import tarfile
import tempfile

import c
import pytest
import sentences
from files import bytes_in, put, text_of, write_below
from romtool import entries_of

sys.path.insert(0, os.path.join(c.TOP, "tools"))

import bindings  # noqa: E402
import installation  # noqa: E402
import tarball  # noqa: E402

pytestmark = pytest.mark.needs("cargo", "rt")
CRATE = os.path.join(c.TOP, "bindings", "rust")


# a program without std and without a heap of its own, whose status is 42 if it reads the file
BARE = {
    "Cargo.toml": """[package]
name = "bare"
version = "0.0.0"
edition = "2021"
[dependencies]
romtool = { path = "%(crate)s", default-features = false }
[profile.dev]
panic = "abort"
""",
    "build.rs": """fn main() {
    println!("cargo:rustc-link-search=native=%(release)s");
    println!("cargo:rustc-link-lib=static=romtool_area");
    println!("cargo:rustc-link-lib=c");
}
""",
    "src/main.rs": """#![no_std]
#![no_main]
use romtool::Image;

static HELD: &[u8] = include_bytes!("%(crate)s/tests/small.romfs");
static mut ROOM: [u64; 1024] = [0; 1024];

extern "C" {
    fn romtool_area(bytes: *mut u64, len: u64);
}

#[panic_handler]
fn panics(_: &core::panic::PanicInfo) -> ! {
    loop {}
}

// core of this machine is compiled for unwinding
#[no_mangle]
pub extern "C" fn rust_eh_personality() {}

fn read() -> Result<bool, romtool::Error> {
    let Ok(image) = Image::check(HELD) else { return Ok(false) };
    let mut held = [0; 6];
    Ok(image.lookup("/message")?.open()?.copy_next(&mut held)? == 6 && &held == b"hello\\n")
}

#[no_mangle]
pub extern "C" fn main() -> i32 {
    let refused = Image::check(HELD).is_err();
    unsafe { romtool_area(core::ptr::addr_of_mut!(ROOM).cast(), 8192) };
    if refused && read() == Ok(true) { 42 } else { 1 }
}
""",
}
# sets of features, and how many tests pass with them at least; the README's example has no heap of its own
FEATURES = {"": 19, "--no-default-features --features alloc": 2, "--no-default-features --tests": 1}


def cargo(words, top, archive, crate=CRATE, **more):
    """Returns what cargo says with these words, and its status."""
    more = {"ROMTOOL_LIB_DIR": os.path.dirname(archive), "CARGO_TARGET_DIR": top + "/target", "RUSTFLAGS": "-D warnings",
            "RUSTDOCFLAGS": "-D warnings", **more}  # fmt: skip
    return c.said(["cargo", *words], cwd=crate, env={**os.environ, **more})


def passes(done, least):
    """Fails unless cargo says that this many tests passed at least, and none failed."""
    text = done.stdout.decode(errors="replace")
    passed = sum(int(it) for it in re.findall(r"test result: ok\. (\d+) passed; 0 failed", text))
    assert done.returncode == 0 and passed >= least, "\n".join(text.splitlines()[-30:])


@pytest.fixture(scope="session")
def top():
    """A directory for what is built."""
    with tempfile.TemporaryDirectory(prefix="romtool-") as folder:
        yield folder


@pytest.fixture(scope="session")
def release(top, archive):
    """The archive as tools/install installs it, with the functions over malloc."""
    os.mkdir(top + "/release")
    put(top + "/release/libromtool.a", installation.whole_archive(archive))
    return top + "/release/libromtool.a"


@pytest.mark.parametrize("over", ["archive", "release"])
@pytest.mark.parametrize("features", FEATURES)
def test_own(request, top, over, features):
    """Runs the crate's own tests and the example of its README, with a set of features."""
    passes(cargo(["test", "--offline", *features.split()], top, request.getfixturevalue(over)), FEATURES[features])


def test_pages(top, archive):
    """Makes the pages of its documentation."""
    done = cargo(["doc", "--offline"], top, archive)
    assert done.returncode == 0, done.stdout


def test_no_archive(top):
    """Says what to do if there is no archive."""
    done = cargo(["test", "--offline"], top, top + "/none/librom_c.a")
    assert done.returncode and b"set ROMTOOL_LIB_DIR, or run tools/library" in done.stdout, done.stdout


@pytest.mark.needs("rustfmt")
def test_form(top, archive):
    """Compares the sources with what rustfmt makes of them."""
    done = cargo(["fmt", "--check"], top, archive)
    assert done.returncode == 0, done.stdout


@pytest.fixture(scope="session")
def by_pointer(top, archive, counts):
    """The archive with the calls for 32-bit pointers, which are made of those of this machine as romtool_32.h has them."""
    found = re.findall(
        r"^void rom32_(\w+)\((struct \w+) \*answer, ([^)]*)\) *\n? *ROMTOOL_SYMBOL\(", text_of(c.INCLUDE + "/romtool_32.h"), re.M
    )
    assert len(found) == 12
    text, made = '#include "romtool.h"\n', top + "/by-pointer"
    for name, struct, given in found:
        words = ", ".join(re.findall(r"(\w+)(?:,|$)", given))
        head = "void rom32_%s(%s *answer, %s)" % (name, struct, given)
        text += '%s ROMTOOL_SYMBOL("rom32_%s");\n%s {\n    *answer = romtool_%s(%s);\n}\n' % (head, name, head, name, words)
    write_below(made, {"calls.c": text})
    put(made + "/librom_c.a", bytes_in(archive))
    c.compiled(["cc", "-std=c99", *c.STRICT, "-O2", "-fPIC", "-c", made + "/calls.c", "-o", made + "/calls.o"], counts)
    c.compiled(["ar", "rs", made + "/librom_c.a", made + "/calls.o"], counts)
    return made + "/librom_c.a"


def test_without_calls_by_pointer(top, archive):
    """Does not link an archive without the calls for 32-bit pointers."""
    done = cargo(["test", "--offline", "--no-run"], top, archive, ROMTOOL_BY_POINTER="1")
    assert done.returncode and b"rom32_lookup" in done.stdout, done.stdout


def test_by_pointer(top, by_pointer):
    """Runs the crate's tests with the calls for 32-bit pointers."""
    passes(cargo(["test", "--offline"], top, by_pointer, ROMTOOL_BY_POINTER="1"), 19)


def test_archive_of_the_crate(top, archive):
    """Unpacks the archive of the crate, which has its licence, and runs its tests over the library as a release installs it."""
    name = "romtool-" + installation.version()
    put(top + "/crate.tar.gz", tarball.tar(name, bindings.crate(), 1700000000))
    with tarfile.open(top + "/crate.tar.gz") as file:
        file.extractall(top)
    for path, (held, _) in installation.library_files(archive).items():
        os.makedirs(os.path.dirname("%s/prefix/%s" % (top, path)), exist_ok=True)
        put("%s/prefix/%s" % (top, path), held)
    assert os.path.exists("%s/%s/LICENSE" % (top, name))
    assert re.findall(r'^version = "(.*)"$', text_of("%s/%s/Cargo.toml" % (top, name)), re.M) == [installation.version()]
    passes(cargo(["test", "--offline"], top, top + "/prefix/lib/libromtool.a", "%s/%s" % (top, name)), 19)


def test_bare(top, archive, release):
    """Reads an image in a program without std, over the heap of c/area.c."""
    values = {"crate": os.path.realpath(CRATE), "release": os.path.dirname(release)}
    put(values["release"] + "/libromtool_area.a", installation.area_archive())
    write_below(top + "/bare", {name: text % values for name, text in BARE.items()})
    done = cargo(["build", "--offline", "--manifest-path", top + "/bare/Cargo.toml"], top, archive)
    assert done.returncode == 0, done.stdout[-2000:]
    assert subprocess.run([top + "/target/debug/bare"]).returncode == 42


def test_faults():
    """Compares the names of the faults with those of the code."""
    text = text_of(os.path.join(CRATE, "src", "error.rs"))
    names = re.findall(r'"(\w*)"', re.search(r"FAULTS: .*?= \[(.*?)\];", text, re.S)[1])
    assert names == [sentences.FAULTS.get(it, ("", ""))[0] for it in range(max(sentences.FAULTS) + 1)]


@pytest.fixture(scope="session")
def example(top, archive):
    """The example `answers` of the crate."""
    done = cargo(["build", "--offline", "--example", "answers"], top, archive)
    assert done.returncode == 0, done.stdout
    return top + "/target/debug/examples/answers"


def compare(romtool, example, folder, name):
    """Checks and lists an image, and reads 20 of its regular files at most."""
    listed = romtool("list", name, cwd=folder)
    names = [] if listed[2] else entries_of(listed[0])
    paths = [it.path for it in names if it.kind == "f" and "%" not in it.path][:20]
    for words in ["check", name], ["list", name], *(["cat", name, it] for it in paths):
        got = subprocess.run([example, *words], cwd=folder, stdin=subprocess.DEVNULL, capture_output=True)
        wanted = romtool(*words, cwd=folder)
        assert (got.returncode, got.stdout, got.stderr) == (wanted[2], wanted[0], b""), words


@pytest.mark.parametrize("data", [pytest.param(data, id=place) for place, data in c.named_images().items()])
def test_images(romtool, example, room, data):
    """Reads images of the cases."""
    put(room / "image", data)
    compare(romtool, example, room, "image")


@pytest.mark.parametrize("form", c.FORMATS)
def test_formats(romtool, example, forms, form):
    """Reads an image of a directory in each format."""
    compare(romtool, example, forms, form)
