"""What an installation of romtool consists of: its version, and each file with its path under a prefix."""

import os
import re
import shutil
import subprocess
import sys
import tempfile

import completions
import kit

TOP = kit.TOP
PROGRAM = f"{TOP}/crates/romtool/out/romtool"
LIBRARY = f"{TOP}/crates/rom_c/out/librom_c.a"
# the pages of docs/ that users read
GUIDES = ("C", "FAULTS", "LINES", "LINUX", "MANIFEST", "PROTOCOL")
DOCUMENTS = "share/doc/romtool"
# the programs of tests/c that docs/C.md shows, with the header of the last one
EXAMPLES = ("first.c", "numbers.c", "reader.c", "recording.c", "recording.h")
# the recipes for build systems and tar, by their paths in recipes/ and under share/romtool
RECIPES = {
    **{f"cmake/{it}.cmake": f"cmake/{it}.cmake" for it in ("romtool-config", "romtool-config-version")},
    "make/romtool.mk": "romtool.mk",
    **{f"romtool-{it}.sh": f"romtool-{it}.sh" for it in ("image", "tar")},
}
COMPLETIONS = {
    "bash": "share/bash-completion/completions/romtool",
    "zsh": "share/zsh/site-functions/_romtool",
    "fish": "share/fish/vendor_completions.d/romtool.fish",
}
# how the mount is compiled: for whatever directory it is in, with the hardening of Debian, and without names for a debugger
MOUNT = ["-std=c11", "-O2", "-fPIE", "-fstack-protector-strong", "-D_FORTIFY_SOURCE=2", "-Iinclude", f"-ffile-prefix-map={TOP}=."]
MOUNT_LINKED = ["-pie", "-Wl,--gc-sections", "-Wl,--as-needed", "-Wl,-z,relro,-z,now", "-Wl,--build-id=sha1", "-s"]
# what ends a document that names files which are not installed with it
NOT_HERE = "\nFiles and pages that are named here without a link are in the repository of romtool.\n"
PKG_CONFIG = """prefix=${{pcfiledir}}/../..
includedir=${{prefix}}/include
libdir=${{prefix}}/lib

Name: romtool
Description: Proved reader of romfs and cramfs images that are used in place
Version: {version}
Cflags: -I${{includedir}}
Libs: -L${{libdir}} -lromtool
"""
CMAKE = """# romtool: a proved reader of romfs and cramfs images. The targets are romtool::romtool, and romtool::area with a heap over an
# array. If the program is installed beside it, there are also romtool::program and romtool_image.
get_filename_component(_romtool_prefix "${CMAKE_CURRENT_LIST_DIR}/../../.." ABSOLUTE)
if(NOT TARGET romtool::romtool)
    add_library(romtool::romtool STATIC IMPORTED)
    set_target_properties(romtool::romtool PROPERTIES
        IMPORTED_LOCATION "${_romtool_prefix}/lib/libromtool.a"
        IMPORTED_LINK_INTERFACE_LANGUAGES C
        INTERFACE_INCLUDE_DIRECTORIES "${_romtool_prefix}/include")
    add_library(romtool::area STATIC IMPORTED)
    set_target_properties(romtool::area PROPERTIES
        IMPORTED_LOCATION "${_romtool_prefix}/lib/libromtool_area.a"
        IMPORTED_LINK_INTERFACE_LANGUAGES C
        INTERFACE_LINK_LIBRARIES romtool::romtool)
endif()
include("${_romtool_prefix}/share/romtool/cmake/romtool-config.cmake" OPTIONAL)
set(romtool_FOUND TRUE)
unset(_romtool_prefix)
"""
CMAKE_VERSION = """# Versions are semantic: one that is asked for is met by the same major version from there on.
set(PACKAGE_VERSION "{version}")
if(PACKAGE_FIND_VERSION_MAJOR STREQUAL "{major}" AND NOT PACKAGE_VERSION VERSION_LESS PACKAGE_FIND_VERSION)
    set(PACKAGE_VERSION_COMPATIBLE TRUE)
    if(PACKAGE_VERSION VERSION_EQUAL PACKAGE_FIND_VERSION)
        set(PACKAGE_VERSION_EXACT TRUE)
    endif()
endif()
if(CMAKE_SIZEOF_VOID_P AND NOT CMAKE_SIZEOF_VOID_P EQUAL 8)
    set(PACKAGE_VERSION_UNSUITABLE TRUE)
endif()
"""


def stop(why):
    """Ends the tool with a message on standard error."""
    sys.exit(f"tools/{os.path.basename(sys.argv[0])}: {why}")


def content(path):
    """Returns the bytes of a file; a path that is not absolute is one of the repository."""
    with open(os.path.join(TOP, path), "rb") as it:
        return it.read()


def run(*words, **more):
    """Runs a command, and returns what it printed. If it fails, the tool ends with that."""
    ran = subprocess.run(words, stdin=subprocess.DEVNULL, stdout=subprocess.PIPE, stderr=subprocess.STDOUT, **more)
    if ran.returncode:
        sys.stderr.buffer.write(ran.stdout)
        stop(f"{words[0]} failed with status {ran.returncode}")
    return ran.stdout


def version():
    """Returns the version, which crates/command_line/src/commands.rt has."""
    source = content("crates/command_line/src/commands.rt").decode()
    return re.search(r'^pub const VERSION: &str = "(\d+\.\d+\.\d+)";$', source, re.M)[1]


def kit_directory():
    """Returns the directory of the toolchain's kit."""
    return os.path.dirname(os.path.dirname(kit.program()))


def kit_libraries():
    """Returns the names of the kit's libraries that the program and the library for C have in them, in order."""
    rows = re.findall(r"^(\w+)(?: staticlib)?:(.*)$", content("crates.txt").decode(), re.M)
    below = {name: words.split() for name, words in rows}
    found, left = set(), ["romtool", "rom_c"]
    while left:
        name = left.pop()
        if name not in found:
            found.add(name)
            left += below[name] if name in below else libraries_below(name)
    return sorted(found - set(below))


def libraries_below(name):
    """Returns the names of the libraries that a library of the kit has in it."""
    written = content(f"{kit_directory()}/rlibs/{name}.rlib/format").decode(errors="replace")
    return re.findall(r"^dep (\w+)$", written, re.M)


def licences():
    """Returns the text of the licences of all that is linked: this repository's, and those of the kit's libraries."""
    parts = ["romtool\n\n" + content("LICENSE").decode()]
    without = []
    for name in kit_libraries():
        directory = f"{kit_directory()}/rattle/{name}"
        given = sorted(it for it in os.listdir(directory) if it.startswith("LICENSE"))
        given = [it for it in given if it != "LICENSE-APACHE" or "LICENSE-MIT" not in given]
        parts += [f"{name} ({it} of the kit's library)\n\n{content(f'{directory}/{it}').decode()}" for it in given]
        without += [name] * (not given)
    parts.append(f"The kit has no text of a licence beside these libraries of its own: {', '.join(without)}.\n")
    return ("\n" + "=" * 78 + "\n\n").join(parts).encode()


def compiled(source, item):
    """Compiles a file of c/ for the archives, with the compiler of this machine."""
    words = ["-std=c99", "-O2", "-fPIC", "-Iinclude", "-ffunction-sections", "-fdata-sections", "-c", source]
    run("cc", *words, "-o", item, cwd=TOP)


def whole_archive(archive):
    """Returns the library for C as one archive: what `rt lib` built, and the three functions over malloc that a check calls.
    A program that brings these functions along is linked with its own, since a member is only taken if it is needed."""
    with tempfile.TemporaryDirectory(prefix="romtool-archive-") as room:
        compiled("c/heap.c", f"{room}/romtool_heap.o")
        with open(f"{room}/libromtool.a", "wb") as it:
            it.write(content(archive))
        run("ar", "rsD", "libromtool.a", "romtool_heap.o", cwd=room)
        return content(f"{room}/libromtool.a")


def area_archive():
    """Returns the heap over an array as an archive. A program that is linked with it before the library uses it."""
    with tempfile.TemporaryDirectory(prefix="romtool-archive-") as room:
        compiled("c/area.c", f"{room}/romtool_area.o")
        run("ar", "rcsD", "libromtool_area.a", "romtool_area.o", cwd=room)
        return content(f"{room}/libromtool_area.a")


def interface():
    """Returns the number of the library's interface, which include/romtool.h has."""
    return re.search(rb"^#define ROMTOOL_INTERFACE (\d+)$", content("include/romtool.h"), re.M)[1].decode()


def shared_library(archive):
    """Returns the bytes of an archive with all of its members as a shared library, whose soname has the number of the interface."""
    with tempfile.TemporaryDirectory(prefix="romtool-shared-") as room:
        with open(f"{room}/libromtool.a", "wb") as it:
            it.write(archive)
        words = ["-Wl,--whole-archive", "libromtool.a", "-Wl,--no-whole-archive", f"-Wl,-soname,libromtool.so.{interface()}"]
        words += ["-Wl,--gc-sections", "-Wl,-z,defs", "-Wl,-z,relro,-z,now", "-Wl,-z,noexecstack", "-Wl,--build-id=sha1", "-s"]
        run("cc", "-shared", *words, "-o", "libromtool.so", cwd=room)
        return content(f"{room}/libromtool.so")


def installed_text(name, places):
    """Returns a document as it is installed with other files of the repository, which keep their paths or have those of a dictionary.
    Of a link to a file that is not among them only the words stay, nothing of a picture, and the document then says where that file is."""
    of = places if isinstance(places, dict) else dict.fromkeys(places)
    here, left = os.path.dirname(of.get(name) or name), []

    def kept(it):
        path, hash_sign, heading = it[3].partition("#")
        target = os.path.normpath(os.path.join(os.path.dirname(name), path)) if path else name
        if target not in of and "://" not in it[3]:
            left.append(target)
            return "" if it[1] else it[2]
        moved = os.path.relpath(of.get(target) or target, here) if path and target in of else path
        return f"{it[1]}[{it[2]}]({moved}{hash_sign}{heading})"

    parts = re.split(r"(^```.*?^```$)", content(name).decode(), flags=re.M | re.S)
    text = "".join(it if it.startswith("```") else re.sub(r"(!?)\[([^\]]*)\]\(([^)\s]+)\)", kept, it) for it in parts)
    return (text + NOT_HERE * bool(left)).encode()


def program_files(program):
    """Returns the files of the program: for each path under the prefix its bytes and its mode."""
    manual = run(f"{TOP}/tools/manual", "--program", program)
    found = {"bin/romtool": (content(program), 0o755), "share/man/man1/romtool.1": (manual, 0o644)}
    for shell, path in COMPLETIONS.items():
        found[path] = (completions.text(shell, program).encode(), 0o644)
    texts = ["README.md", "CHANGELOG.md", "SECURITY.md", *(f"docs/{name}.md" for name in GUIDES)]
    for name in texts:
        found[f"{DOCUMENTS}/{name}"] = (installed_text(name, [*texts, "LICENSE"]), 0o644)
    found[f"{DOCUMENTS}/LICENSE"] = (content("LICENSE"), 0o644)
    for name, path in RECIPES.items():
        found[f"share/romtool/{path}"] = (content(f"recipes/{name}"), 0o755 if name.endswith(".sh") else 0o644)
    found[f"{DOCUMENTS}/LICENSES.txt"] = (licences(), 0o644)
    return found


def has_fuse():
    """Returns whether the mount can be compiled here: cc, pkg-config and libfuse 3 are there."""
    if not shutil.which("cc") or not shutil.which("pkg-config"):
        return False
    return not subprocess.run(["pkg-config", "--exists", "fuse3"], stdin=subprocess.DEVNULL).returncode


def mount_files(library):
    """Returns the files of romtool-mount, in the same form, compiled over the bytes of the library for C."""
    flags = {it: run("pkg-config", f"--{it}", "fuse3").decode().split() for it in ("cflags", "libs")}
    with tempfile.TemporaryDirectory(prefix="romtool-mount-") as room:
        with open(f"{room}/libromtool.a", "wb") as it:
            it.write(library)
        words = [*MOUNT, *flags["cflags"], "mount/romtool-mount.c", f"{room}/libromtool.a", *MOUNT_LINKED, *flags["libs"]]
        run("cc", *words, "-o", f"{room}/romtool-mount", cwd=TOP)
        return {
            "bin/romtool-mount": (content(f"{room}/romtool-mount"), 0o755),
            "share/man/man1/romtool-mount.1": (content("mount/romtool-mount.1"), 0o644),
        }


def library_version():
    """Returns the file by which CMake learns the version of the library."""
    return CMAKE_VERSION.format(version=version(), major=version().partition(".")[0])


def library_files(archive):
    """Returns the files of the library for C, in the same form. None of them names the prefix, so it can be moved."""
    texts = {
        "lib/pkgconfig/romtool.pc": PKG_CONFIG.format(version=version()),
        "lib/cmake/romtool/romtoolConfig.cmake": CMAKE,
        "lib/cmake/romtool/romtoolConfigVersion.cmake": library_version(),
    }
    found = {path: (text.encode(), 0o644) for path, text in texts.items()}
    for header in ("romtool.h", "romtool_32.h", "romtool_heap.h"):
        found["include/" + header] = (content("include/" + header), 0o644)
    found["lib/libromtool.a"] = (whole_archive(archive), 0o644)
    found[f"lib/libromtool.so.{interface()}"] = (shared_library(found["lib/libromtool.a"][0]), 0o644)
    found["lib/libromtool_area.a"] = (area_archive(), 0o644)
    for name in EXAMPLES:
        found[f"{DOCUMENTS}/examples/{name}"] = (content(f"tests/c/{name}"), 0o644)
    return found
