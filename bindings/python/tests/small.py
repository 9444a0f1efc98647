"""Tests the package on one small image: what each call answers, each error, and what stays usable.

ROMTOOL has to name the program, and ROMTOOL_LIBRARY the library.
"""

import copy
import errno
import gc
import gzip
import io
import mmap
import os
import pathlib
import pickle
import resource
import tempfile
import threading
import types
import unittest
from unittest import mock

import romtool

try:
    from importlib.resources.abc import Traversable
except ImportError:  # before 3.11
    from importlib.abc import Traversable

HERE = os.path.dirname(os.path.abspath(__file__))
SMALL = os.path.join(HERE, "..", "..", "rust", "tests", "small.romfs")
with open(SMALL, "rb") as small:
    BYTES = small.read()
MANIFEST = b"dir / 0755 0 0\ndir /d 0755 0 0\nslink /d/up 0777 0 0 ..\nslink /none 0777 0 0 nowhere\nslink /loop 0777 0 0 loop\n"
LONG = b"x" * 256  # more than a name may have


class Images(unittest.TestCase):
    def setUp(self):
        self.image = romtool.Image(SMALL)

    def test_what_an_image_is(self):
        image = self.image
        self.assertEqual((image.format, image.big_endian, image.references, image.depth), ("romfs", True, 9, 2))
        self.assertEqual((image.size, image.view), (len(BYTES), BYTES))
        self.assertEqual(repr(image), "<romtool.Image romfs, %d bytes>" % len(BYTES))

    def test_sources(self):
        with open(SMALL, "rb") as file, mmap.mmap(file.fileno(), 0, access=mmap.ACCESS_READ) as mapped:
            for source in (BYTES, bytearray(BYTES), memoryview(BYTES), memoryview(b"12" + BYTES)[2:], SMALL, os.fsencode(SMALL)):
                if not isinstance(source, bytes) or source == BYTES:
                    self.assertEqual(romtool.Image(source).read("/message"), b"hello\n")
            with romtool.Image(mapped) as image:
                self.assertEqual(image.read("/message"), b"hello\n")
        self.assertEqual(romtool.Image(memoryview(BYTES + bytes(100))).size, len(BYTES))
        with self.assertRaises(ValueError):
            romtool.Image(memoryview(BYTES)[::2])
        with self.assertRaises(FileNotFoundError):
            romtool.Image("/nowhere/at/all")
        with self.assertRaises(TypeError):
            romtool.Image(7)

    def test_open_files(self):
        with open(SMALL, "rb") as file, open(SMALL, "rb", buffering=0) as plain, tempfile.TemporaryFile() as other:
            other.write(b"12" + BYTES)
            for source, position in ((file, 0), (plain, 0), (other, 2), (io.BytesIO(BYTES), 0), (io.BytesIO(b"12" + BYTES), 2)):
                source.seek(position)
                image = romtool.Image(source)
                self.assertEqual((image.read("/message"), image.size), (b"hello\n", len(BYTES)))
                if not isinstance(source, io.BytesIO):  # one that is mapped stays where it is
                    self.assertEqual((source.tell(), romtool.Image.from_numbers(source, image.numbers).size), (position, len(BYTES)))
        self.assertEqual(image.read("/message"), b"hello\n")
        numbers = io.BytesIO(BYTES)
        self.assertEqual(romtool.Image.from_numbers(numbers, image.numbers).listdir(), image.listdir())
        with open(SMALL, encoding="latin-1") as text, self.assertRaisesRegex(TypeError, "binary file"):
            romtool.Image(text)
        with gzip.open(io.BytesIO(gzip.compress(BYTES))) as packed:
            self.assertEqual(romtool.Image(packed).read("/message"), b"hello\n")

    def test_faults(self):
        with tempfile.NamedTemporaryFile() as empty:
            for source in (b"", memoryview(b""), empty.name):
                with self.assertRaises(romtool.Fault) as caught:
                    romtool.Image(source)
                fault = caught.exception
                self.assertEqual((fault.number, fault.name, fault.offset), (2, "Short", 0))
                self.assertEqual(str(fault), "fault 2 Short at 0")
        with self.assertRaises(ValueError):
            romtool.Image(BYTES[:100])
        self.assertEqual(romtool.Fault(10, 0).name, "Unknown")

    def test_descriptions(self):
        image, numbers = self.image, self.image.numbers
        self.assertEqual((len(numbers), numbers[:8], numbers[12]), (48, b"romtool\0", 1))
        for source in (BYTES, SMALL):
            again = romtool.Image.from_numbers(source, numbers)
            self.assertEqual((again.format, again.size, again.references), (image.format, image.size, image.references))
            self.assertEqual((again.depth, again.numbers, again.read("/message")), (image.depth, numbers, b"hello\n"))
        for wrong in (bytes(48), b"", numbers + b"x", b"R" + numbers[1:], numbers[:8] + b"\2" + numbers[9:]):
            with self.assertRaises(ValueError):
                romtool.Image.from_numbers(BYTES, wrong)
        with self.assertRaises(ValueError):
            romtool.Image.from_numbers(BYTES[1:], numbers)

    def test_volume(self):
        self.assertEqual(self.image.volume, BYTES[16:].partition(b"\0")[0])

    def test_memory_that_is_refused(self):
        with mock.patch("romtool._held.library", lambda: types.SimpleNamespace(romtool_check=lambda *_: 15)):
            with self.assertRaises(MemoryError):
                romtool.Image(BYTES)

    def test_what_paths_lead_to(self):
        image = self.image
        root = image.stat("/")
        self.assertTrue(root.is_dir() and root.number == image.lookup("/") and root.st_mode == 0o40755)
        null = image.stat("/null")
        self.assertEqual((null.kind, null.major, null.minor, null.mode), (romtool.Kind.CHARACTER, 1, 3, 0o600))
        self.assertTrue(image.stat("/message", follow_symlinks=False).is_symlink())
        led = image.stat("/message")
        self.assertTrue(led.is_file() and led.size == 6 and led.number == image.lookup("/etc/motd"))
        self.assertEqual((image.readlink("/message"), image.readlink(b"/message")), ("etc/motd", b"etc/motd"))
        self.assertEqual((image.exists("/etc"), image.exists("/none"), image.exists("/etc/motd/x")), (True, False, False))
        entries = {it.name: it for it in image.scandir("/")}
        self.assertEqual(entries["message"].readlink(), "etc/motd")
        with self.assertRaisesRegex(OSError, "invalid argument: '/etc'"):
            entries["etc"].readlink()

    def test_errors_of_paths(self):
        image = self.image
        wrong = {
            "/none": FileNotFoundError, "": FileNotFoundError, "none": FileNotFoundError, "/etc/motd/x": NotADirectoryError,
            "/etc": IsADirectoryError, "/null": OSError, "/" + "x" * 256: OSError, "/" * 4096: OSError, "/\0": FileNotFoundError,
            b"/\xff": FileNotFoundError, "/\udcff": FileNotFoundError,
        }  # fmt: skip
        for path, kind in wrong.items():
            for call in (image.open, image.read, image.map, image.offset, image.runs):
                with self.assertRaises(kind) as caught:
                    call(path)
                self.assertEqual(caught.exception.filename, path)
        with self.assertRaises(NotADirectoryError):
            image.listdir("/etc/motd")
        with self.assertRaisesRegex(OSError, "invalid argument: '/etc'"):
            image.readlink("/etc")

    def test_paths_begin_at_the_root(self):
        image = self.image
        for path in ("etc/motd", b"etc/motd", "/etc/motd", pathlib.PurePosixPath("etc/motd"), "//etc//motd", "./etc/motd"):
            self.assertEqual((image.lookup(path), image.read(path)), (image.lookup("/etc/motd"), b"hello\n"))
        for path in ("etc/motd", b"etc/motd", "/etc/motd", "//etc//./motd", pathlib.PurePosixPath("etc", "motd")):
            self.assertEqual((image.path(path), image.path(path).exists()), (image.root / "etc" / "motd", True))
        self.assertEqual((image.path(""), image.path("."), str(image.path("/"))), (image.root, image.root, "/"))
        self.assertEqual([it.path for it in image.scandir("etc")], ["etc/motd", "etc/empty"])
        self.assertEqual(list(image.walk("etc")), [("etc", [], ["motd", "empty"])])

    def test_whether_paths_lead_to_anything(self):
        image, long = self.image, "/" + "x" * 256
        calls = (lambda: image.exists(long), lambda: image.exists("/" * 4096), image.path(long).exists, image.path(long).is_dir)
        for call in (*calls, image.path(long).is_symlink):
            with self.assertRaises(OSError) as caught:
                call()
            self.assertEqual(caught.exception.errno, errno.ENAMETOOLONG)
        self.assertEqual((image.exists("/message", follow_symlinks=False), (image.root / "message").is_symlink()), (True, True))
        message = image.root / "message"
        self.assertEqual((message.is_file(), message.is_file(follow_symlinks=False), message.is_dir()), (True, False, False))

    def test_arguments_that_are_not_for_budgets(self):
        for call in (self.image.read, self.image.map, self.image.stat, self.image.readlink, self.image.lookup, self.image.listdir):
            with self.assertRaises(TypeError):
                call("/message", romtool.Budget(9))
        self.assertEqual(self.image.open("/message", "rb").read(), b"hello\n")
        for call in (self.image.open, next(self.image.scandir("/etc")).open):
            with self.assertRaisesRegex(ValueError, "only read"):
                call("/message", "w") if call == self.image.open else call("r")

    def test_entries(self):
        image = self.image
        self.assertEqual(image.lookup("/message"), image.lookup("/etc/motd"))
        motd, empty = image.scandir("/etc")
        etc, message, null = image.scandir()
        paths = [it for it in image.root.rglob("*") if it.is_file(follow_symlinks=False)]
        with mock.patch.object(romtool._names.Names, "lookup", side_effect=AssertionError("a look-up")):
            self.assertEqual((motd.read(), motd.open().read(), motd.map()), (b"hello\n",) * 3)
            self.assertEqual((motd.runs(), motd.offset(), empty.offset()), ([romtool.Run(motd.offset(), 6, 0)], motd.offset(), None))
            self.assertEqual((image.read(motd), image.stat(motd), image.listdir(etc)), (b"hello\n", motd.stat(), ["motd", "empty"]))
            self.assertEqual((message.readlink(), message.stat(follow_symlinks=False).size), ("etc/motd", 8))
            with self.assertRaisesRegex(AssertionError, "a look-up"):
                message.read()
            self.assertEqual([(str(it), it.read_bytes()) for it in paths], [("/etc/motd", b"hello\n"), ("/etc/empty", b"")])
        self.assertEqual((message.read(), message.map(), message.offset()), (b"hello\n", b"hello\n", motd.offset()))
        for call, error in ((etc.read, IsADirectoryError), (null.open, OSError)):
            with self.assertRaises(error) as caught:
                call()
            self.assertIn(caught.exception.filename, ("/etc", "/null"))
        other = romtool.Image(BYTES[:])
        self.assertEqual(other.read(motd), b"hello\n")  # an entry of another image is a path

    def test_numbers_as_in_os(self):
        image = self.image
        stat, null = image.stat("/etc/motd"), image.stat("null")
        self.assertEqual((stat.st_size, stat.st_ino, stat.st_nlink, stat.st_mode), (6, stat.number, 1, 0o100000 | stat.mode))
        self.assertEqual((null.st_rdev, null.st_size, image.stat("/").st_nlink), (os.makedev(1, 3), 0, 1))
        self.assertEqual((stat.st_uid, stat.st_gid), (stat.uid, stat.gid))
        manifest = b"dir / 0755 0 0\ndir /d 0755 0 0\nfile /a 0644 0 0 4 %s\nhard /d/b /a\nhard /d/c /a\n" % os.fsencode(__file__)
        with tempfile.TemporaryDirectory() as top:
            romtool.build(manifest, top + "/image", "romfs")
            image = romtool.Image(top + "/image")
        names = [image.stat(it) for it in ("/a", "/d/b", "/d/c")]
        self.assertEqual([(it.st_nlink, it.st_uid, it.st_gid) for it in names], [(3, 0, 0)] * 3)
        self.assertEqual(names[0].st_size, os.path.getsize(__file__))
        for other in (copy.deepcopy(stat), pickle.loads(pickle.dumps(stat)), stat._replace(size=6)):
            self.assertEqual((other, other.st_size), (stat, 6))
            with self.assertRaisesRegex(ValueError, "of a copy"):
                self.assertTrue(other.st_nlink)
        image.close()
        with self.assertRaisesRegex(ValueError, "closed"):
            self.assertTrue(names[0].st_nlink)

    def test_many_look_ups_in_a_directory(self):
        lines = ["file /d/n%d 0644 0 0 4 %s" % (it, __file__) for it in range(200)]
        lines += ["slink /d/l%d 0777 0 0 n%d" % (it, it) for it in range(200)] + ["slink /d/loop 0777 0 0 loop", "slink /up 0777 0 0 d"]
        with tempfile.TemporaryDirectory() as top:
            romtool.build("\n".join(["dir / 0755 0 0", "dir /d 0755 0 0", *lines, ""]).encode(), top + "/image", "cramfs")
            image, again = romtool.Image(top + "/image"), romtool.Image(top + "/image")
        for top in ("/d/", "/up/", "d/"):
            for name in (*("n%d" % it for it in range(200)), *("l%d" % it for it in range(200)), ".", "..", ""):
                for follow in (True, False):
                    again._names = romtool._names.Names(again._open())  # which has not seen any look-up
                    wanted = again.lookup(top + name, follow_symlinks=follow)
                    self.assertEqual(image.lookup(top + name, follow_symlinks=follow), wanted)
            for name, error in (("none", errno.ENOENT), ("loop", errno.ELOOP), ("n1/x", errno.ENOTDIR), ("x" * 256, errno.ENAMETOOLONG)):
                with self.assertRaises(OSError) as caught:
                    image.lookup(top + name)
                self.assertEqual((caught.exception.errno, caught.exception.filename), (error, top + name))
            with self.assertRaises(romtool.BudgetError):
                image.lookup(top + "n1", budget=romtool.Budget(1))
        for it in range(100):
            with self.assertRaises(NotADirectoryError):
                image.lookup("/d/n1/%d" % it)
        self.assertLessEqual(len(image._names._directories), romtool._names.DIRECTORIES)

    def test_budgets(self):
        image, budget = self.image, romtool.Budget(2)
        self.assertEqual((image.lookup("/etc/motd", budget=budget), budget.left), (image.lookup("/etc/motd"), 0))
        self.assertEqual(image.lookup("/", budget=budget), image.lookup("/"))
        for call in (image.lookup, image.stat, image.open, image.listdir, image.readlink, image.map):
            with self.assertRaises(romtool.BudgetError):
                call("/message", budget=budget)
        budget = romtool.Budget(7)
        with self.assertRaises(FileNotFoundError):
            image.lookup("/none", budget=budget)
        self.assertEqual(budget.left, 4)
        self.assertEqual(image.readlink("/message", budget=romtool.Budget(2)), "etc/motd")

    def test_directories(self):
        image = self.image
        self.assertEqual((image.listdir(), image.listdir(b"/etc")), (["etc", "message", "null"], [b"motd", b"empty"]))
        self.assertEqual((image.listdir(image.root / "etc"), image.readlink(image.root / "message")), (["motd", "empty"], "etc/motd"))
        self.assertEqual(list(image.walk(image.root / "etc")), [("/etc", [], ["motd", "empty"])])
        wanted = [("/", ["etc"], ["message", "null"]), ("/etc", [], ["motd", "empty"])]
        self.assertEqual(list(image.walk()), wanted)
        self.assertEqual(list(image.walk(topdown=False)), wanted[::-1])
        self.assertEqual(list(image.walk(b"/etc")), [(b"/etc", [], [b"motd", b"empty"])])
        for _, directories, _ in (walk := image.walk()):
            directories.clear()
        self.assertEqual(list(walk), [])
        wrong = []
        self.assertEqual(list(image.walk("/none", onerror=wrong.append)) + list(image.walk("/null")), [])
        self.assertIsInstance(wrong[0], FileNotFoundError)
        etc, message, null = image.scandir("/")
        self.assertEqual((etc.name, etc.path, etc.inode(), os.fspath(etc)), ("etc", "/etc", image.lookup("/etc"), "/etc"))
        self.assertTrue(etc.is_dir() and message.is_file() and message.is_symlink() and not null.is_file())
        self.assertFalse(message.is_file(follow_symlinks=False) or message.is_dir())
        self.assertEqual((message.stat(), message.stat(follow_symlinks=False).size), (image.stat("/etc/motd"), 8))

    def test_links_that_are_walked(self):
        with tempfile.TemporaryDirectory() as top:
            self.assertEqual(romtool.build(MANIFEST, top + "/image", "romfs"), os.path.getsize(top + "/image"))
            image = romtool.Image(top + "/image")
            romtool.build(b"dir / 0755 0 0\nslink /long 0777 0 0 %s\n" % LONG, top + "/image", "romfs")
            long = romtool.Image(top + "/image")
        self.assertEqual((list(long.walk()), list(long.root.glob("*/*"))), ([("/", [], ["long"])], []))
        with self.assertRaisesRegex(OSError, "too long"):
            long.exists("/long")
        wanted = [("/", ["d"], ["loop", "none"]), ("/d", ["up"], [])]
        self.assertEqual(list(image.walk()), wanted)
        followed = list(image.walk(follow_symlinks=True))
        self.assertEqual(followed[2], ("/d/up", ["d"], ["loop", "none"]))
        self.assertEqual(len(followed), 82)  # a path of more than 40 links leads nowhere
        entries = {it.name: it for it in image.scandir()}
        self.assertFalse(entries["none"].is_file() or entries["none"].is_dir() or entries["loop"].is_file())
        with self.assertRaisesRegex(OSError, "more than 40"):
            entries["loop"].stat()

    def test_a_file_in_place(self):
        image = self.image
        view = image.map("/message")
        self.assertEqual((view, view.readonly), (b"hello\n", True))
        at = image.offset("/message")
        self.assertEqual(image.view[at : at + 6], b"hello\n")
        self.assertEqual(image.runs("/message"), [romtool.Run(at, 6, 0)])
        self.assertEqual((image.runs("/etc/empty"), image.offset("/etc/empty"), image.map("/etc/empty")), ([], None, b""))
        file = image.open("/message")
        self.assertEqual((file.map(1, 4), file.map(6), file.map(2), file.size), (b"ello", b"", b"llo\n", 6))
        for start, length in ((6, 1), (7, 0), (-1, 1), (2**64, 1), (0, 2**64)):
            with self.assertRaisesRegex(OSError, "not within the file"):
                file.map(start, length)

    def test_reading_and_seeking(self):
        file = self.image.open("/etc/motd")
        self.assertEqual((file.read(2), file.tell(), file.lend(2), file.lend(0), file.read()), (b"he", 2, b"ll", b"", b"o\n"))
        self.assertEqual((file.read(2), file.read(), file.lend()), (b"", b"", b""))
        self.assertEqual((file.seek(-6, 2), file.seek(100, 1), file.read(1)), (0, 100, b""))
        for offset, whence in ((-1, 0), (-7, 2), (-101, 1), (2**64, 0)):
            with self.assertRaises(OSError):
                file.seek(offset, whence)
        with self.assertRaises(ValueError):
            file.seek(0, 9)
        room = bytearray(b"......")
        self.assertEqual((file.tell(), file.seek(4), file.readinto(room), room), (100, 4, 2, b"o\n...."))
        self.assertTrue(file.readable() and file.seekable() and not file.writable())
        self.assertEqual((file.name, file.mode), ("/etc/motd", "rb"))
        for call in (file.fileno, lambda: file.write(b"x"), file.truncate):
            with self.assertRaises(io.UnsupportedOperation):
                call()
        file.close()
        for call in (file.read, file.tell, file.lend, lambda: file.seek(0), file.map):
            with self.assertRaises(ValueError):
                call()
        with io.BufferedReader(self.image.open("/message")) as buffered:
            self.assertEqual((buffered.peek(1), buffered.readlines()), (b"hello\n", [b"hello\n"]))

    def test_traversables(self):
        root = self.image.root
        self.assertIsInstance(root, Traversable)
        self.assertEqual((root.name, [it.name for it in root.iterdir()]), ("", ["etc", "message", "null"]))
        motd = root / "etc" / "motd"
        self.assertEqual(
            (motd, hash(motd), str(motd), motd.name),
            (root.joinpath("etc", "motd"), hash(self.image.path("/etc/motd")), "/etc/motd", "motd"),
        )
        self.assertEqual((motd.read_bytes(), motd.read_text(), motd.parent.parent), (b"hello\n", "hello\n", root))
        self.assertEqual((motd.is_file(), motd.is_dir(), root.is_dir(), (root / "none").is_file()), (True, False, True, False))
        with motd.open() as text, motd.open("rb") as held:
            self.assertEqual((text.readline(), held.read()), ("hello\n", b"hello\n"))
        with self.assertRaises(ValueError):
            motd.open("w")
        with self.assertRaises(FileNotFoundError):
            (root / "none").read_bytes()
        self.assertEqual(self.image.read(motd), b"hello\n")

    def test_paths(self):
        root, other = self.image.root, romtool.Image(BYTES)
        motd = root / "etc" / "motd"
        self.assertEqual(motd.relative_to("etc"), pathlib.PurePosixPath("motd"))
        self.assertEqual((motd.is_relative_to(root), motd.is_relative_to("/none")), (True, False))
        with self.assertRaises(ValueError):
            motd.relative_to("/none")
        message = root / "message"
        self.assertEqual((message.parent / message.readlink(), message.lstat().size, message.stat().size), (motd, 8, 6))
        self.assertTrue(root < motd <= motd < message and not motd > message)
        self.assertNotEqual(motd, other.path("etc/motd"))
        with self.assertRaises(TypeError):
            self.assertTrue(motd < other.path("etc/motd"))
        for pattern, error in (("", ValueError), ("/etc", NotImplementedError), (".", ValueError)):
            with self.assertRaises(error):
                root.glob(pattern)
        with self.assertRaises(NotImplementedError):
            root.rglob("/x")
        self.assertEqual(sorted(map(str, root.glob("**"))), ["/", "/etc", "/etc/empty", "/etc/motd", "/message", "/null"])

    def test_what_outlives_the_image(self):
        with tempfile.TemporaryDirectory() as top:
            name = os.path.join(top, "image")
            with open(name, "wb") as file:
                file.write(BYTES)
            with romtool.Image(name) as image:
                view, file, whole = (image.map("/message"), image.open("/message"), image.view)
                entries = image.scandir("/")
            os.unlink(name)
        self.assertEqual((repr(image), len(list(entries))), ("<romtool.Image closed>", 3))
        for call in (image.listdir, lambda: image.format, lambda: image.read("/message"), image.__enter__):
            with self.assertRaises(ValueError):
                call()
        del image
        gc.collect()
        self.assertEqual((bytes(view), file.read(), bytes(whole)), (b"hello\n", b"hello\n", BYTES))
        with open(SMALL, "rb") as opened:
            mapped = mmap.mmap(opened.fileno(), 0, access=mmap.ACCESS_READ)
        image = romtool.Image(mapped)
        view = image.map("/message")[1:]
        image.close()
        with self.assertRaises(BufferError):
            mapped.close()
        self.assertEqual(bytes(view), b"ello\n")
        del view
        mapped.close()

    def test_look_ups_do_not_leak(self):
        def look_up(count):
            for _ in range(count):
                self.image.stat("/etc/motd")
                self.image.map("/message")
                self.image.exists("/none")

        look_up(1000)
        before = resource.getrusage(resource.RUSAGE_SELF).ru_maxrss
        look_up(50000)
        self.assertLess(resource.getrusage(resource.RUSAGE_SELF).ru_maxrss - before, 2048)  # KiB

    def test_images_that_are_dropped_close_their_files(self):
        before = len(os.listdir("/proc/self/fd"))
        for _ in range(200):
            romtool.Image(SMALL).map("/message")
            with self.assertRaises(romtool.Fault):
                romtool.Image(__file__)
        self.assertEqual(len(os.listdir("/proc/self/fd")), before)

    def test_threads_share_an_image(self):
        file, wrong = self.image.open("/etc/motd"), []

        def use():
            for _ in range(500):
                file.seek(0)
                if self.image.read("/message") != b"hello\n" or len(file.lend(6)) > 6:
                    wrong.append("another answer")

        threads = [threading.Thread(target=use) for _ in range(4)]
        for it in threads:
            it.start()
        for it in threads:
            it.join()
        self.assertEqual(wrong, [])


class Programs(unittest.TestCase):
    def test_check(self):
        self.assertEqual(romtool.check(SMALL), ("romfs", 9, 2))
        with self.assertRaises(romtool.ProgramError) as caught:
            romtool.check(__file__)
        self.assertEqual((caught.exception.line, caught.exception.status), ("fault 3 Magic at 0", 1))
        with self.assertRaises(romtool.ProgramError) as caught:
            romtool.check("/nowhere")
        self.assertEqual((caught.exception.line, caught.exception.status), ("file /nowhere", 3))

    def test_build(self):
        with tempfile.TemporaryDirectory() as top:
            for name, text in (("one", "x"), ("-m", "dir / 0755 0 0\nfile /one 0755 0 0 4096 one\n")):
                with open(os.path.join(top, name), "w", encoding="utf-8") as file:
                    file.write(text)
            for form in ("romfs", "cramfs", "cramfs-be"):
                out = os.path.join(top, "-o")
                size = romtool.build(os.path.join(top, "-m"), out, form, directory=top)
                image = romtool.Image(out)
                self.assertEqual((size, image.format), (os.path.getsize(out), form))
                self.assertLessEqual(image.size, size)  # the bytes at the end of a romfs file do not belong to the image
                self.assertEqual((image.read("/one"), image.offset("/one") % 4096, image.big_endian), (b"x", 0, form != "cramfs"))
            with self.assertRaises(romtool.ProgramError) as caught:
                romtool.build(b"dir /x\n", os.path.join(top, "out"))
            self.assertEqual(caught.exception.status, 1)
            self.assertTrue(caught.exception.line.startswith("manifest "), caught.exception.line)
            with self.assertRaises(romtool.ProgramError):
                romtool.build(MANIFEST, os.path.join(top, "out"), max_size=100)
            romtool.build(MANIFEST, os.path.join(top, "out"), strict=True, xip=True, max_size=100000)


class Libraries(unittest.TestCase):
    def test_libraries_that_do_not_serve(self):
        load = romtool._library.load
        with self.assertRaisesRegex(romtool.LibraryError, "lacks romtool_check"):
            load("libc.so.6")
        with self.assertRaises(romtool.LibraryError):
            load("/nowhere/libromtool.so")
        with mock.patch.dict(os.environ, {"ROMTOOL_LIBRARY": "/nowhere"}):
            self.assertEqual(romtool._library._find(), "/nowhere")
        with mock.patch.dict(os.environ), mock.patch("ctypes.util.find_library", lambda _: None), mock.patch(
            "os.path.exists", lambda _: False
        ):
            os.environ.pop("ROMTOOL_LIBRARY", None)
            with self.assertRaisesRegex(romtool.LibraryError, "there is no libromtool.so"):
                romtool._library._find()

    def test_a_library_of_other_answers(self):
        nothing = romtool._library.RawStat()
        nothing.error = 13
        other = types.SimpleNamespace(**{it: lambda *_: nothing for it in romtool._library.CALLS})
        other.romtool_readlink = other.romtool_readlink_node = lambda *_: romtool._library.RawPlace(13, 0, 0)
        other.romtool_lookup = other.romtool_lookup_at = lambda *_: romtool._library.RawNode(13, 0)
        other.romtool_is_node = lambda *_: False
        other.romtool_open, other.romtool_readdir, other.romtool_check = ((lambda *_: 13), (lambda *_: 6), (lambda *_: 0))
        with self.assertRaisesRegex(romtool.LibraryError, "does not answer"):
            romtool._library._probe(other, "other")


if __name__ == "__main__":
    unittest.main()
