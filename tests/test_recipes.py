"""Builds images by the recipes for build systems, and checks that each image follows its directory.

With CMake (Ninja and Makefiles), make and meson, in a directory whose name has a space: each build runs romtool once. The image
is replaced, and what depends on it is made, exactly if a file was added, changed or removed, or its mode was changed; then
the image has what the directory has. What is refused leaves the image as it was. Two images are built at the same time, and an
image is installed under DESTDIR. The recipes for Buildroot run with stubs of its macros, the class for Yocto as a function of the
shell, and the commands of the workflow as they are.
"""

import hashlib
import os
import re
import shutil
import stat
import subprocess
import sys

import pytest
from files import bytes_in, put, repository_text, text_of, wait_for_clock, write_below
from harness import SECONDS, TOP
from romtool import FORMATS, entries, raw, run
from users import IS_ROOT

RECIPES = os.path.join(TOP, "recipes")
sys.path.insert(0, os.path.join(TOP, "tools"))

import installation  # noqa: E402

pytestmark = pytest.mark.usefixtures("here")
needs = pytest.mark.needs
each_generator = pytest.mark.parametrize("generator", [
    pytest.param("Ninja", marks=needs("cmake", "ninja")), pytest.param("Unix Makefiles", id="make", marks=needs("cmake", "make")),
])  # fmt: skip
ODD_NAMES = ("a:b", "a$b", "a;b", "a(b", "a*b", "a#b", "%41", "a\\b", "];[", "a\nb", "~", "-")
# a program that notes its words, so that its runs can be counted
NOTING = '#!/bin/sh\necho "$*" >>"%s"\nexec "%s" "$@"\n'
CMAKE = """cmake_minimum_required(VERSION 3.15)
project(images NONE)
find_package(romtool %s REQUIRED)
%s
"""
IMAGE = "romtool_image(TARGET image FORMAT cramfs OUTPUT out/image DIRECTORY root over ALIGN 4096 'text=%s' ALL_ROOT\n"
IMAGE = (IMAGE + "EXCLUDE *.o *.tmp DEVICES devices STRICT XIP MAX_SIZE %s)").replace("'", "")
# what depends on the image, is installed, and notes that it was made
USER = """
add_custom_command(OUTPUT copy COMMAND sh -c "cp out/image copy && echo >>../copies" DEPENDS image "${CMAKE_CURRENT_BINARY_DIR}/out/image"
    VERBATIM)
add_custom_target(copied ALL DEPENDS copy)
install(FILES "${CMAKE_CURRENT_BINARY_DIR}/out/image" DESTINATION firmware)
"""
FROM_MANIFEST = "romtool_image(TARGET image FORMAT romfs OUTPUT image.romfs MANIFEST manifest SOURCES root)"
MAKEFILE = """include recipes/make/romtool.mk
$(call romtool_image,out/image,cramfs,root over,--all-root --align 4096 --align text=%s --exclude '*.o' --exclude '*.tmp' \
--devices devices --strict --xip --max-size %s)
copy: out/image; cp $< $@ && echo >>copies
clean: ; rm -f $(romtool_made)
"""
STUBS = """qstrip = $(strip $(subst ",,$(1)))
INSTALL = install
HOST_DIR = host
TARGET_DIR = root
define rootfs
rootfs.romtool: host-romtool
\t$$(ROOTFS_ROMTOOL_CMD)
endef
define host-generic-package
host-romtool:
\t$$(HOST_ROMTOOL_INSTALL_CMDS)
endef
include $(BR2_EXTERNAL_ROMTOOL_PATH)/external.mk
"""
WRONG = (
    "TARGET i FORMAT cramfs OUTPUT a", "TARGET i FORMAT cramfs DIRECTORY root", "FORMAT cramfs OUTPUT a DIRECTORY root",
    "TARGET i FORMAT ext2 OUTPUT a DIRECTORY root", "TARGET i FORMAT cramfs OUTPUT a DIRECTORY root MANIFEST m",
    "TARGET i FORMAT cramfs OUTPUT a DIRECTORY root OWNER 1:1 ALL_ROOT", "TARGET i FORMAT cramfs OUTPUT a DIRECTORY root XIP ALING 4",
    "TARGET i FORMAT cramfs OUTPUT a MANIFEST m ALL_ROOT", "TARGET i FORMAT cramfs OUTPUT a DIRECTORY root MAX_SIZE",
    "TARGET i FORMAT cramfs OUTPUT i DIRECTORY root", "TARGET i FORMAT cramfs OUTPUT a DIRECTORY root \"r;x\"",
    "TARGET i FORMAT cramfs OUTPUT a DIRECTORY root VOLUME \"a;b\"", "TARGET i FORMAT cramfs OUTPUT a DIRECTORY root EXCLUDE $<0:x>",
)  # fmt: skip


class System:
    """A build system that builds `image` in a directory of a project, by a program that notes its words."""

    def __init__(self, romtool, top, image, commands):
        self.binary, self.top, self.image, self.commands = romtool.path, os.path.abspath(top), image, commands
        self.copy = None  # what depends on the image, and adds a line to `copies` each time that it is made
        os.makedirs(self.top + "/bin", exist_ok=True)
        put(self.top + "/bin/romtool", (NOTING % (self.top + "/runs", self.binary)).encode(), 0o755)
        self.environment = {**os.environ, "PATH": "%s/bin:%s" % (self.top, os.environ["PATH"]), "ROMTOOL": "romtool"}
        self.environment.pop("MAKEFLAGS", None)

    def build(self):
        """Builds, and returns the status, whether the image was replaced (0 or 1), and what was said."""
        put(self.top + "/runs")
        how = {"cwd": self.top, "env": self.environment, "stdin": subprocess.DEVNULL, "timeout": SECONDS}
        said, before = "", self.state()
        for words in self.commands:
            done = subprocess.run(words, stdout=subprocess.PIPE, stderr=subprocess.STDOUT, text=True, errors="replace", **how)
            said += done.stdout
            if done.returncode:
                break
        return done.returncode, int(self.state() != before), said

    def calls(self):
        """Returns the commands of romtool that the last build ran and that make an image or a manifest."""
        return re.findall(r"^(?:--explain )?(pack|build|scan) ", text_of(self.top + "/runs"), re.M)

    def state(self):
        """Returns the image's file and bytes, or nothing if there is none."""
        path = os.path.join(self.top, self.image)
        if not os.path.exists(path):
            return None
        found = os.stat(path)
        return found.st_ino, found.st_mtime_ns, bytes_in(path)

    def names(self, said, where):
        """Returns whether what was said has a line about this file, whose name is a pattern with IMAGE, and names no temporary file."""
        pattern = r"^romtool: (.*/)?%s: " % where.replace("IMAGE", re.escape(os.path.basename(self.image)))
        return re.search(pattern, said, re.M) and ".romtool-new" not in said

    def copies(self):
        """Returns how often what depends on the image was made."""
        return len(text_of(self.top + "/copies").splitlines()) if os.path.exists(self.top + "/copies") else 0

    def run(self, words, **environment):
        """Runs a command in the directory of the project, which has to succeed, and returns what it said."""
        place = {**self.environment, **environment}
        done = subprocess.run(words, cwd=self.top, env=place, capture_output=True, text=True, timeout=SECONDS)
        assert done.returncode == 0, done.stdout + done.stderr
        return done.stdout + done.stderr

    def replaced(self, what, wanted, calls=("pack",)):
        """Builds, which has to replace the image so often by these calls, and returns what was said."""
        status, count, said = self.build()
        assert (status, count, self.calls()) == (0, wanted, list(calls)), f"{what}: {said}"
        return said

    def built(self, what, times=1, more=()):
        """Builds twice, which has to replace the image so often; then it has to have what the directories have."""
        for wanted in (times, 0) if times else (0,):
            before = self.copies()
            said = self.replaced(what, wanted)
            assert not wanted or self.names(said, "IMAGE"), f"{what}: {said}"
            if self.copy:
                assert (self.copies() - before, bytes_in(os.path.join(self.top, self.copy))) == (wanted, self.state()[2]), what
        self.compare(what, more)

    def compare(self, what, more=()):
        """Compares the image with the directories."""
        image = os.path.join(self.top, self.image)
        got = {(it.kind, it.mode, it.user, it.group, raw(it.path)) for it in entries(self.binary, image)}
        wanted, contents = {("d", 0o755, 0, 0, b"/")} | set(more), {}
        for folder in (it for it in ("root", "over") if os.path.isdir(os.path.join(self.top, it))):
            top = os.fsencode(os.path.join(self.top, folder))
            for at, folders, names in os.walk(top):
                for path in (os.path.join(at, it) for it in [*folders, *names] if not it.endswith(b".o")):
                    kind = "f" if os.path.isfile(path) else "d"
                    wanted.add((kind, stat.S_IMODE(os.stat(path).st_mode), 0, 0, path[len(top) :]))
                    if kind == "f":
                        contents[path[len(top) :]] = bytes_in(path)
        assert got == wanted, what
        assert {path: run(self.binary, "cat", image, os.fsdecode(path)).stdout for path in contents} == contents, what

    def refused(self, what, where="[^:]*"):
        """Builds, which has to fail, to leave the image, and to say in which file it failed."""
        before = self.state()
        status, _, said = self.build()
        assert status and self.state() == before and self.names(said, where), f"{what}: status {status}: {said}"

    def follows(self, more=()):
        """Changes the directory step by step."""
        top, odd = self.top, self.top + "/root/etc/["
        put(odd, b"bracket", 0o755)
        self.built("a new image", more=more)
        for what, change in (
            ("added", lambda: put(top + "/root/etc/new file", b"new", 0o600)),
            ("changed", lambda: put(top + "/root/etc/new file", b"newer")),
            ("another mode", lambda: os.chmod(top + "/root/etc/motd", 0o640)),
            ("renamed", lambda: os.rename(top + "/root/etc/new file", top + "/root/etc/old")),
            ("changed in brackets", lambda: put(odd, b"braces")),
            ("a mode of a directory", lambda: os.chmod(top + "/root/etc", 0o750)),
            ("removed", lambda: os.remove(top + "/root/etc/old")),
        ):
            wait_for_clock(top)
            change()
            self.built(what, more=more)
        os.utime(odd)
        self.built("another time", times=0, more=more)
        bad = os.fsencode(top) + b"/root/\xff"
        wait_for_clock(top)
        put(bad)
        self.refused("a name that is not UTF-8")
        os.remove(bad)
        self.built("without this name", times=0, more=more)
        put(top + "/root/" + "n" * 253)
        for times in "", ", once more":
            self.refused("a name that is too long for cramfs" + times, r"IMAGE\.manifest:\d+")
        assert b"nnn" in bytes_in(os.path.join(self.top, self.image + ".manifest"))
        os.remove(top + "/root/" + "n" * 253)
        self.built("without the long name", times=0, more=more)


def tree(top):
    """Writes a small tree, another one that is laid over it, and a file of devices."""
    write_below(top, {"root/bin/init": "#!/bin/sh\n", "root/etc/motd": "hello\n", "root/dev/null": "", "over/text": "text"})
    for name, mode in (("root", 0o755), ("over", 0o755), ("root/bin/init", 0o755), ("root/etc", 0o755), ("root/etc/motd", 0o644)):
        os.chmod(os.path.join(top, name), mode)
    os.remove(top + "/root/dev/null")
    put(top + "/devices", b"nod /dev/console 0600 0 0 c 5 1\n")


def link_recipes(top):
    """Makes the link `recipes` in a project: make reads no file whose name has a space, and the path of the repository may have one."""
    os.symlink(RECIPES, top + "/recipes")


CONSOLE = {("c", 0o600, 0, 0, b"/dev/console")}


def cmake(romtool, top, generator, text, image):
    """Configures a project of CMake."""
    put(top + "/CMakeLists.txt", (CMAKE % (installation.version(), text)).encode())
    system = System(romtool, top, image, [["cmake", "--build", "build it", "--parallel", "4"]])
    system.run(["cmake", "-G", generator, "-S", ".", "-B", "build it", "-Dromtool_DIR=%s/cmake" % RECIPES])
    return system


def exclude(system):
    """Adds and changes a file that is excluded: nothing is built."""
    for text in (b"x", b"xy"):
        wait_for_clock(system.top)
        put(system.top + "/root/etc/x.o", text)
        system.built("an excluded file", times=0, more=CONSOLE)


def add_odd_names(system):
    """Adds files with odd names."""
    for name in ODD_NAMES:
        put("%s/root/%s" % (system.top, name), b"odd", 0o644)
    system.built("odd names", more=CONSOLE)


def install(system, words, path):
    """Installs the image under DESTDIR."""
    place = system.top + "/dest dir"
    system.run(words, DESTDIR=place)
    assert bytes_in(place + path) == system.state()[2]


def follow_manifest(system):
    """Builds by a manifest, and changes it and its source."""
    path = os.path.join(system.top, "manifest")
    put(path, b"# nothing\nfile /a%20b 0644 0 0 4 a%20b\n")
    put(system.top + "/root/a b", b"a")
    for what, change, path_in_image, text in (
        ("a new image", lambda: None, "/a b", b"a"),
        ("another source", lambda: put(system.top + "/root/a b", b"b"), "/a b", b"b"),
        ("another manifest", lambda: put(path, b"file /c 0644 0 0 4 a%20b\n"), "/c", b"b"),
    ):
        wait_for_clock(system.top)
        change()
        for times in (1, 0):
            system.replaced(what, times, ["build"])
        assert run(system.binary, "cat", os.path.join(system.top, system.image), path_in_image).stdout == text, what
    os.remove(system.top + "/root/a b")
    system.refused("a source that is missing")


def at_once(romtool, top, words):
    """Builds by these words an image in each format of one directory, and nothing the second time."""
    systems = [System(romtool, top, "%s/%s" % (words[-1], it), []) for it in FORMATS]
    for count in (1, 0):
        before = [it.state() for it in systems]
        said = systems[0].run(words[:-1])
        assert sum(it.state() != old for it, old in zip(systems, before)) == count * len(FORMATS), said
    for it, form in zip(systems, FORMATS):
        assert romtool("check", os.path.join(top, it.image))[0].startswith(b"ok %s " % form.encode())
        it.compare(form)


def one_tree(top):
    """Writes a small tree that is reached by a name with a space, too."""
    tree(top)
    shutil.rmtree(top + "/over")
    os.symlink("root", top + "/the root")


@each_generator
def test_cmake_at_once(romtool, generator):
    """Builds several images of one directory by CMake."""
    top = "with space"
    one_tree(top)
    text = "".join('romtool_image(TARGET i-%s FORMAT %s OUTPUT %s DIRECTORY "the root" ALL_ROOT)\n' % (it, it, it) for it in FORMATS)
    cmake(romtool, top, generator, text, "build it/romfs")
    at_once(romtool, top, ["cmake", "--build", "build it", "--parallel", "4", "build it"])


@needs("make")
def test_make_at_once(romtool):
    """Builds several images at once by GNU make."""
    top = "with space"
    one_tree(top)
    link_recipes(top)
    lines = ["include recipes/make/romtool.mk", "all: %s" % " ".join("out/" + it for it in FORMATS)]
    lines += ["$(call romtool_image,out/%s,%s,'the root',--all-root)" % (it, it) for it in FORMATS]
    put(top + "/Makefile", "\n".join([*lines, ""]).encode())
    at_once(romtool, top, ["make", "-j4", "all", "out"])
    assert sorted(os.listdir(top + "/out")) == sorted(it + more for it in FORMATS for more in ("", ".manifest"))
    assert ".manifest" not in os.listdir(top)


@each_generator
def test_cmake(romtool, generator):
    """Follows a directory by CMake."""
    top = "with space"
    tree(top)
    system = cmake(romtool, top, generator, (IMAGE + USER) % ("8", "1M"), "build it/out/image")
    system.copy = "build it/copy"
    system.follows(CONSOLE)
    exclude(system)
    install(system, ["cmake", "--install", "build it", "--prefix", "/usr"], "/usr/firmware/image")
    put(top + "/CMakeLists.txt", (CMAKE % (installation.version(), (IMAGE + USER) % ("8K", "1M"))).encode())
    system.built("another option", more=CONSOLE)
    add_odd_names(system)
    put(top + "/CMakeLists.txt", (CMAKE % (installation.version(), (IMAGE + USER) % ("8K", "1K"))).encode())
    system.refused("a limit", "IMAGE")


@each_generator
def test_cmake_manifest(romtool, generator):
    """Follows a manifest by CMake."""
    os.makedirs("with space/root")
    put("with space/manifest")
    follow_manifest(cmake(romtool, "with space", generator, FROM_MANIFEST, "build it/image.romfs"))


@pytest.fixture
def prefix(romtool):
    """Installs the recipes under `prefix`, with a program that runs the one that is tested, and returns a function that configures a
    project of CMake, and returns whether it succeeds and what it says."""
    os.makedirs("prefix/bin")
    os.makedirs("prefix/share/romtool/cmake")
    put("prefix/bin/romtool", ('#!/bin/sh\nexec "%s" "$@"\n' % romtool.path).encode(), 0o755)
    for name, path in installation.RECIPES.items():
        shutil.copy(os.path.join(RECIPES, name), "prefix/share/romtool/" + path)
    os.makedirs("project/root")
    words = ["cmake", "-G", "Unix Makefiles", "-S", "project", "-B", "made", "-DCMAKE_PREFIX_PATH=" + os.path.abspath("prefix")]

    def configured(text, *more, version=installation.version()):
        shutil.rmtree("made", ignore_errors=True)
        put("project/CMakeLists.txt", (CMAKE % (version, text)).encode())
        done = subprocess.run([*words, *more], capture_output=True, text=True, timeout=SECONDS)
        return done.returncode == 0, done.stdout + done.stderr

    return configured


@needs("cmake", "make")
def test_cmake_package(romtool, prefix):
    """Finds the program beside the package of CMake, by which an image is built."""
    place = "get_target_property(at romtool::program IMPORTED_LOCATION)\nfile(REAL_PATH ${at} at)\nmessage(STATUS at=${at})"
    is_found, said = prefix(place)
    assert is_found and "at=%s/romtool\n" % os.path.realpath("prefix/bin") in said, said
    is_found, said = prefix("romtool_image(TARGET i FORMAT romfs OUTPUT a DIRECTORY root)")
    done = subprocess.run(["cmake", "--build", "made"], capture_output=True, text=True, timeout=SECONDS)
    assert is_found and done.returncode == 0 and romtool("check", "made/a")[2] == 0, said + done.stdout + done.stderr


@needs("cmake", "make")
def test_cmake_version(prefix):
    """Does not find a later version."""
    assert not prefix("", version="%d.0" % (int(installation.version().partition(".")[0]) + 1))[0]


@needs("cmake", "make")
@pytest.mark.parametrize("words", WRONG, ids=map(str, range(len(WRONG))))
def test_cmake_words(prefix, words):
    """Refuses wrong words."""
    is_done, said = prefix("romtool_image(%s)" % words)
    assert not is_done and "romtool_image: " in said


@needs("cmake", "make")
def test_cmake_library(prefix):
    """Comes with the package of the library for C."""
    for name, text in (("", installation.CMAKE), ("Version", installation.library_version())):
        write_below("prefix/lib/cmake/romtool", {"romtoolConfig%s.cmake" % name: text})
    both = "if(NOT TARGET romtool::romtool OR NOT TARGET romtool::program OR NOT COMMAND romtool_image)\nmessage(FATAL_ERROR no)\nendif()"
    is_found, said = prefix(both)
    assert is_found, said


@needs("cmake", "make")
def test_cmake_without_program(prefix):
    """Says that there is no program."""
    os.remove("prefix/bin/romtool")
    is_found, said = prefix("", "-DROMTOOL_PROGRAM=ROMTOOL_PROGRAM-NOTFOUND", "-DCMAKE_PROGRAM_PATH=/none")
    assert shutil.which("romtool") or not is_found and "there is no program romtool" in said, said


@needs("make")
def test_make(romtool):
    """Follows a directory by GNU make: the image's own path has no space, but the current directory has one."""
    top = "with space"
    tree(top)
    link_recipes(top)
    system = System(romtool, top, "out/image", [["make", "copy"]])
    put(top + "/Makefile", (MAKEFILE % ("8", "1M")).encode())
    system.copy = "copy"
    system.follows(CONSOLE)
    exclude(system)
    put(top + "/Makefile", (MAKEFILE % ("8K", "1M")).encode())
    system.built("another option", more=CONSOLE)
    add_odd_names(system)
    put(top + "/Makefile", (MAKEFILE % ("8K", "1K")).encode())
    system.refused("a limit", "IMAGE")
    system.run(["make", "clean"])
    assert os.listdir(top + "/out") == []


@needs("make")
def test_make_manifest(romtool):
    """Follows a manifest by GNU make."""
    os.makedirs("with space/root")
    link_recipes("with space")
    put("with space/Makefile", b"include recipes/make/romtool.mk\n$(call romtool_manifest,image,romfs,manifest,-C root)\n")
    follow_manifest(System(romtool, "with space", "image", [["make"]]))


@needs("make")
def test_make_example(romtool):
    """Builds by the Makefile of the recipe, as it is."""
    shutil.copytree(RECIPES + "/make", "example")
    write_below("example", {"root/dev/null": "", "root/etc/motd": "hello\n"})
    os.remove("example/root/dev/null")
    os.chmod("example/root", 0o755)
    os.symlink("root", "example/rootfs")
    System(romtool, "example", "rootfs.cramfs", [["make"]]).built("the example", more=CONSOLE)


@needs("meson", "ninja")
def test_meson(romtool):
    """Follows a directory by the example for meson, as it is."""
    top = "with space"
    tree(top)
    shutil.rmtree(top + "/over")
    os.symlink("root", top + "/rootfs")
    for name in ("meson/meson.build", "romtool-image.sh"):
        shutil.copy(os.path.join(RECIPES, name), top)
    system = System(romtool, top, "build it/rootfs.cramfs", [["ninja", "-C", "build it"]])
    system.run(["meson", "setup", "--prefix", "/usr", "build it"])
    system.follows()
    install(system, ["meson", "install", "-C", "build it"], "/usr/share/firmware/rootfs.cramfs")


@needs("make")
@pytest.mark.parametrize(("option", "format"), [
    ('BR2_ENDIAN="LITTLE"', "cramfs"), ('BR2_ENDIAN="BIG"', "cramfs-be"), ("BR2_TARGET_ROOTFS_ROMTOOL_ROMFS=y", "romfs"),
], ids=["little", "big", "romfs"])  # fmt: skip
def test_buildroot(romtool, option, format):
    """Builds by the recipes for Buildroot, with stubs of its macros."""
    tree(".")
    shutil.rmtree("over")
    put("Makefile", STUBS.encode())
    link_recipes(".")
    options = ["BR2_EXTERNAL_ROMTOOL_PATH=recipes/buildroot", 'BR2_TARGET_ROOTFS_ROMTOOL_DEVICES="devices"']
    options += ['BR2_TARGET_ROOTFS_ROMTOOL_OPTIONS="--all-root --align 4096 --strict --xip"', option]
    system = System(romtool, ".", "rootfs.romtool", [["make", "rootfs.romtool", *options]])
    system.replaced(option, 1)
    system.compare(option, CONSOLE)
    assert romtool("check", "rootfs.romtool")[0].startswith(b"ok %s " % format.encode())


def function_of(text, name):
    """Returns a function of a file for Yocto, for a shell."""
    return re.search(r"^%s\(\) \{\n.*?^\}\n" % name, text, re.M | re.S)[0]


def test_yocto_class(romtool):
    """Runs the function of the class for Yocto in a shell, without devices and then with some."""
    tree(".")
    shutil.rmtree("over")
    text = repository_text("recipes/yocto/classes/image_types_romtool.bbclass")
    commands = [["sh", "-euc", function_of(text, "romtool_pack") + "romtool_pack"]]
    system = System(romtool, ".", "deploy/image.romtool", commands)
    given = dict(re.findall(r'^(ROMTOOL_\w+) \?= "([^$"]*)"$', text, re.M))
    given |= {"ROMTOOL_FORMAT": "cramfs", "WORKDIR": "work", "IMAGE_NAME": "image", "IMAGE_ROOTFS": "root", "IMGDEPLOYDIR": "deploy"}
    given["ROMTOOL_OPTIONS"] += "" if IS_ROOT else " --all-root"  # pseudo would show root as the owner
    for folder in ("work", "deploy"):
        os.mkdir(folder)
    for devices, more in (("", set()), ("devices", CONSOLE)):
        system.environment |= {**given, "ROMTOOL_DEVICES": devices}
        system.replaced("the class", 1)
        system.compare("the class", more)
    for expression in re.findall(r"\$\{@(.*?)\}", text):
        compile(expression, "class", "eval")


def test_yocto_recipe():
    """Runs the function of the recipe for Yocto in a shell, and compares its checksum of LICENSE."""
    recipe = repository_text("recipes/yocto/recipes-devtools/romtool/romtool-native_%s.bb" % installation.version())
    write_below("s/bin", {"romtool": "program"})
    place = {**os.environ, "S": "s", "D": "d", "bindir": "/usr/bin"}
    subprocess.run(["sh", "-euc", function_of(recipe, "do_install") + "do_install"], env=place, timeout=SECONDS)
    assert bytes_in("d/usr/bin/romtool") == b"program"
    assert "md5=" + hashlib.md5(repository_text("LICENSE").encode()).hexdigest() in recipe


def test_workflow(romtool):
    """Runs the commands of the workflow that build and check, as they are."""
    tree(".")
    os.rename("root", "rootfs")
    steps = dict(re.findall(r"- name: (.*)\n        run: \|\n((?: {10}.*\n)+)", repository_text("recipes/ci/firmware.yml")))
    commands = [["sh", "-euc", steps[it]] for it in ("Build the image", "Check the image")]
    System(romtool, ".", "rootfs.cramfs", commands).replaced("the workflow", 1)
    assert romtool("cat", "rootfs.cramfs", "/etc/motd")[0] == b"hello\n"
    assert b"0x0800" in bytes_in("rom_map.h")


FILES = [os.path.relpath(os.path.join(at, it), RECIPES) for at, _, names in os.walk(RECIPES) for it in names]
each_file = pytest.mark.parametrize("path", sorted(FILES))


@each_file
def test_version(path):
    """Has the version of the program, and says in the first line of a recipe what was not tried."""
    text = repository_text("recipes/" + path)
    found = re.findall(r"\b\d+\.\d+\.\d+\b", re.sub(r"(?i)^.*license.*$", "", text + os.path.basename(path), flags=re.M))
    assert set(found) <= {installation.version()}
    if re.match(r"(ci|buildroot|yocto)/", path) and not path.endswith(".desc"):
        assert re.match(r"# (Not tried|This (file|workflow) was not tried)", text)


@each_file
def test_strict_and_xip(path):
    """Refuses programs that Linux would copy, if a recipe refuses what Linux would misread."""
    text = repository_text("recipes/" + path)
    assert "--strict" not in text or "--xip" in text
    assert not re.search(r"\bSTRICT\b", text) or re.search(r"\bXIP\b", text)
