"""What the tests in pytest (test_*.py) share: the program, the images that a test is run on, and the last line, which ./test reads.

    pytest tests                            all tests, of the proved program
    pytest tests -k digest -n 4             the tests and images with `digest` in their names, on four processors
    pytest tests --binary PATH              another program
    pytest tests --first 1000 --seeds 500   other random manifests, and more of them
    pytest tests --lf                       the tests that failed last time

From another directory name this one, or a file of it: `pytest . -k digest --binary PATH`.

A test with the parameter `image` is run on each image of the cases (see run.py) that `check` accepts, and on those of random
manifests (see manifests.py): `test_facts[seed 17]`. One with the parameter `faulty` is run on the files of the cases that it
refuses. The mark `images` says which images a test has, if not these. The tests are sorted by their images, so each is made once.
One with the parameter `case` is run on each case, or on those that its mark `cases` chooses: `test_plain[serve/hello]`. One with the
mark `seeds` is run with so many random seeds (`seed`), or with random numbers of each (`chance`): `test_options[seed 17]`. A test with the
fixture `here` uses relative names in a new directory. What takes long to make is made once in a session.
"""

import functools
import os
import random
import tempfile
from pathlib import Path

import c
import fuse
import manifests
import pytest
import traced
from harness import PROGRAM, Counts, missing
from romtool import answer, entries_of, pieces_of, run
from run import files_of_cases, named_cases
from users import IS_ROOT

NO_PROGRAM = ("test_style.py",)
MOST = 2**20  # bytes of an image of the cases
SEEDS = 120  # how many random manifests
BEHIND = (b"", b"", b"", b"behind", b"\0" * 5000, bytes(range(256)) * 16)  # what follows the image of a random manifest


def pytest_addoption(parser):
    parser.addoption("--binary", default=PROGRAM, help="the program, if not the one that `rt ci` leaves")
    parser.addoption("--library", help="the archive of the library for C, if not the one that tools/library builds")
    parser.addoption("--module", help="the module of which tools/rom32 makes libraries, if not that of the proved build")
    parser.addoption("--shared", help="a shared library for the package for Python, if not one that is made of the archive")
    parser.addoption("--page", help="the page, if not one that tools/page makes")
    parser.addoption("--object", help="an object file of the program, for a trial of a release")
    parser.addoption("--made", help="the directory of tools/unproved --aarch64, if the programs for aarch64 are not to be built")
    parser.addoption("--write", action="store_true", help="put the files of tests/cases into their form")
    parser.addoption("--first", type=int, default=1, help="the first random seed")
    parser.addoption("--seeds", type=int, help="how many random seeds each test has")


def pytest_configure(config):
    config.addinivalue_line("markers", "images(cases, seeds, step, also): which images the test has: see Images.of_test")
    config.addinivalue_line("markers", "cases(only): the test has only the cases of which this function is true")
    config.addinivalue_line("markers", "seeds(count): the test is run with so many random seeds")
    config.addinivalue_line("markers", "needs(*tools): the test is skipped if one of these is missing: see `is_there`")


def pytest_sessionstart(session):
    """Ends the session if no program is there, and not all tests are of files that need none."""
    program = session.config.option.binary
    if not os.access(program, os.X_OK) and not all(it.endswith(NO_PROGRAM) for it in session.config.args):
        pytest.exit(f"no program {program}: build it by `rt run` in crates/romtool", 1)


@functools.cache
def is_there(tool):
    """Returns whether something that a test needs is there: a program, calls that fail by `strace`, `fuse`, or the rights of `root`."""
    others = {"root": lambda: IS_ROOT, "strace": traced.is_there, "fuse": fuse.is_there}
    return others[tool]() if tool in others else not missing(tool)


def pytest_runtest_setup(item):
    for tool in [it for mark in item.iter_markers("needs") for it in mark.args]:
        if not is_there(tool):
            pytest.skip(f"it needs {tool}")


def pytest_report_teststatus(report, config):
    """Prints no dot for a test that passed, if ./test reads the output."""
    return ("passed", "", "PASSED") if report.passed and report.when == "call" and config.option.verbose < -1 else None


def pytest_unconfigure(config):
    """Prints the counts as the last line."""
    stats = getattr(config.pluginmanager.get_plugin("terminalreporter"), "stats", None)
    if stats is not None and not hasattr(config, "workerinput"):
        passed, failed, errors, skipped = (len(stats.get(it, ())) for it in ("passed", "failed", "error", "skipped"))
        print(f"{passed} passed, {failed + errors} failed" + f", {skipped} skipped" * (skipped > 0))


class Romtool:
    """The program."""

    def __init__(self, path):
        self.path = path

    def __call__(self, *words, **more):
        """Runs the program, and returns its output, what is on standard error, and its status."""
        return answer(run(self.path, *words, **more))

    def line(self, text, **more):
        """Runs the program with the words of a text, which spaces separate."""
        return self(*text.split(" "), **more)

    def build(self, room, lines, format="cramfs", sources=(), out="image"):
        """Builds an image in a directory of these lines; the sources are `source0`, `source1`, .."""
        done = manifests.build(self.path, manifests.Manifest(format, lines, sources), room, out)
        assert answer(done)[1:] == (b"", 0)
        return Image(self, room / out)


class Image:
    """An image on disk, with what the program says of it. Each command is asked once."""

    def __init__(self, romtool, path, made=None):
        self.romtool, self.path, self.made = romtool, path, made
        self.data = path.read_bytes()

    @functools.cached_property
    def checked(self):
        """The fields of the line of `check`: `ok`, the format, references and depth."""
        out, err, status = self.romtool("check", self.path)
        assert (err, status) == (b"", 0)
        return out.decode("ascii").split()

    @functools.cached_property
    def refusal(self):
        """What other commands answer if `check` refuses the image."""
        out, err, status = self.romtool("check", self.path)
        assert (err, status) == (b"", 1)
        return b"", out, 1

    @functools.cached_property
    def entries(self):
        """The lines of `list`."""
        return entries_of(self.romtool("list", self.path)[0])

    @functools.cached_property
    def sizes(self):
        """The size of each regular file, by its escaped path, in the order of the list."""
        return {it.path: it.size for it in self.entries if it.kind == "f"}

    @functools.cached_property
    def facts(self):
        """The lines of `info`."""
        return dict(line.split(" ", 1) for line in self.romtool("info", self.path)[0].decode("ascii").splitlines())

    @functools.cached_property
    def pieces(self):
        """The lines of `map`."""
        return list(pieces_of(self.romtool("map", self.path)[0]))

    @functools.cached_property
    def contents(self):
        """The bytes of each regular file at the addresses of `map`, by its escaped path."""
        found = {path: [] for path in self.sizes}
        for address, length, _, path in self.pieces:
            at = 0 if address == "-" else int(address, 16)
            found[path].append(self.data[at : at + length])
        return {path: b"".join(parts) for path, parts in found.items()}


def of_case(romtool, room, data):
    """Writes an image of the cases."""
    (room / "image").write_bytes(data)
    return Image(romtool, room / "image")


def of_seed(romtool, room, seed):
    """Builds the image of a random manifest, which has some bytes behind it sometimes."""
    made = manifests.Made(seed)
    built = manifests.build(romtool.path, made, room)
    assert answer(built)[1:] == (b"", 0)
    with open(room / "image", "ab") as file:
        file.write(random.Random(seed).choice(BEHIND))
    return Image(romtool, room / "image", made)


def seeds_of(option, count):
    """Returns the seeds of a test that has so many, if the command line does not say how many."""
    return range(option.first, option.first + (option.seeds if option.seeds and count else count))


class Checks(Counts):
    """What a test gives to functions that count by themselves: what fails ends it, and what is skipped skips it."""

    def fails(self, words, wrong=()):
        """Fails the test."""
        pytest.fail("\n".join([words, *wrong]), pytrace=False)

    def skips(self, words):
        """Skips the test."""
        pytest.skip(words)


class Images:
    """The images of a session by their names. Each is made in a directory of its own, and the last ones are kept in memory."""

    def __init__(self, config):
        self.romtool, self.option = Romtool(os.path.abspath(config.option.binary)), config.option
        self.makers, self.top = {}, None
        self.made = functools.lru_cache(4)(self.make)

    def make(self, name):
        """Makes an image."""
        return self.makers[name](self.romtool, Path(tempfile.mkdtemp(dir=self.top)))

    @functools.cached_property
    def of_cases(self):
        """The names of the files of the cases: of those that `check` refuses, and of those that it accepts."""
        found = [], []
        with tempfile.TemporaryDirectory(prefix="romtool-") as room:
            for name, data in files_of_cases(most=MOST):
                self.makers[name] = functools.partial(of_case, data=data)
                image = self.makers[name](self.romtool, Path(room))
                found[not self.romtool("check", image.path)[2]].append(name)
        return found

    def of_test(self, cases=True, seeds=SEEDS, step=1, also=None):
        """Returns the names of a test's images, as its mark says: of the cases, of random manifests, and those of other makers."""
        more = {f"seed {it}": functools.partial(of_seed, seed=it) for it in seeds_of(self.option, seeds)[::step]} | (also or {})
        self.makers.update(more)
        return [*(self.of_cases[True] if cases else ()), *more]


@functools.cache
def images_of(config):
    """Returns the images of this session."""
    return Images(config)


def pytest_generate_tests(metafunc):
    """Runs a test on each of its images or cases."""
    images = images_of(metafunc.config)
    for mark in metafunc.definition.iter_markers("seeds"):
        numbers = seeds_of(metafunc.config.option, *mark.args)
        if "seed" in metafunc.fixturenames:
            metafunc.parametrize("seed", numbers, ids="seed {}".format)
        else:
            metafunc.parametrize("chance", [f"seed {it}" for it in numbers], indirect=True)
    if "case" in metafunc.fixturenames:
        mark = metafunc.definition.get_closest_marker("cases")
        cases = {name: case for name, case in named_cases() if not mark or mark.kwargs["only"](case)}
        metafunc.parametrize("case", cases.values(), ids=cases.keys())
    if "image" in metafunc.fixturenames:
        mark = metafunc.definition.get_closest_marker("images")
        metafunc.parametrize("image", images.of_test(**mark.kwargs if mark else {}), indirect=True)
    if "faulty" in metafunc.fixturenames:
        metafunc.parametrize("faulty", images.of_cases[False], indirect=True)


def pytest_collection_modifyitems(items):
    """Sorts the tests by their images."""
    items.sort(key=lambda it: it.callspec.id if hasattr(it, "callspec") else "")


@pytest.fixture(scope="session")
def images(pytestconfig):
    """The images of this session."""
    with tempfile.TemporaryDirectory(prefix="romtool-") as images_of(pytestconfig).top:
        yield images_of(pytestconfig)


@pytest.fixture
def image(images, request):
    """An image that `check` accepts."""
    return images.made(request.param)


faulty = image


@pytest.fixture(scope="session")
def romtool(images):
    """The program: a call runs it."""
    return images.romtool


@pytest.fixture(scope="session")
def counts():
    """For functions that count by themselves: a test that calls them fails if one of their checks does."""
    return Checks()


@pytest.fixture(scope="session")
def archive(pytestconfig, counts):
    """The archive of the library for C."""
    given = pytestconfig.option.library
    if lacks := missing("cc", *[] if given else ["rt"]):
        pytest.skip("it needs " + lacks)
    return c.library(given, counts)


@pytest.fixture(scope="session")
def forms(romtool, counts):
    """A directory with an image in each format, named by it, and what they were built of: see c.build_all."""
    with tempfile.TemporaryDirectory(prefix="romtool-") as top:
        c.build_all(romtool.path, top, counts)
        yield top


@pytest.fixture
def room():
    """A new directory."""
    with tempfile.TemporaryDirectory(prefix="romtool-") as folder:
        yield Path(folder)


@pytest.fixture
def here(room, monkeypatch):
    """A new directory, which is the current one. The mask of modes is 022."""
    monkeypatch.chdir(room)
    mask = os.umask(0o022)
    yield room
    os.umask(mask)


@pytest.fixture
def chance(request):
    """Random numbers, which are the same each time that the test is run."""
    return random.Random(request.node.name)
