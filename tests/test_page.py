"""Tests the page of tools/page in a browser without a window.

A good image of each format is given to the page: its verdict, facts, tree, picture and contents are those of romtool, and
its addresses those of `map --base`; an address that cannot be is refused in words. Then images with a fault, whose cause and
cure are the words of docs/FAULTS.md, and files that are no image; a directory of many names, which may not stop the page,
large images, and one that is dropped. Which programs are executed in place is compared with `xip`, on the images of test_xip.py,
and what Linux misreads with `linux`, on those of the cases and of random manifests.
The page is used by keys only, and on a display of 390 points; what a screen reader reads has names; its colours have contrast
in light and in dark; nothing is asked from outside, and nothing fails unseen. --page names a page, if none is to be made.
"""

import functools
import json
import os
import re
import shutil
import struct
import subprocess
import sys
import tempfile
import time
import unicodedata

import c
import images
import manifests
import pytest
import sentences
import xip
from files import bytes_in, put, repository_text, wait_until
from harness import HERE
from romtool import entries_of, pieces_of, raw
from run import files_of_cases

PROGRAM = next(filter(None, map(shutil.which, ("chromium", "chromium-browser", "google-chrome"))), None)
pytestmark = pytest.mark.skipif(not PROGRAM, reason="it needs chromium")
each_form = pytest.mark.parametrize("form", c.FORMATS)
# for how many seconds the page may work on an image
PATIENCE = 60
NAMES = 30000
BIG = 96 << 20
WORDS = ["--headless=new", "--no-sandbox", "--disable-gpu", "--disable-dev-shm-usage", "--no-first-run"]
WORDS.append("--remote-debugging-pipe")
# colours of text
TEXTS = ("text", "soft", "accent", "bad", "good")
# and of cells of the picture
CELLS = ("data", "name", "link", "fault")


class Browser:
    """A browser that is controlled by a pipe, with one page open."""

    def __init__(self, program, room):
        to_read, self.to = os.pipe()
        self.fro, to_write = os.pipe()
        line = 'exec "$0" "$@" 3<&%d 4>&%d' % (to_read, to_write)
        words = ["bash", "-c", line, program, *WORDS, "--user-data-dir=" + room]
        quiet = {"stdin": subprocess.DEVNULL, "stdout": subprocess.DEVNULL, "stderr": subprocess.DEVNULL}
        self.ran = subprocess.Popen(words, pass_fds=(to_read, to_write), **quiet)
        os.close(to_read)
        os.close(to_write)
        self.rest, self.number, self.events, self.session = b"", 0, [], None
        target = self.call("Target.createTarget", url="about:blank")["targetId"]
        self.session = self.call("Target.attachToTarget", targetId=target, flatten=True)["sessionId"]
        for part in ("Page", "Runtime", "Log", "Network", "DOM", "Accessibility"):
            self.call(part + ".enable")

    def message(self):
        """Returns the next message."""
        while b"\0" not in self.rest:
            more = os.read(self.fro, 1 << 16)
            if not more:
                raise EOFError("the browser ended")
            self.rest += more
        one, _, self.rest = self.rest.partition(b"\0")
        return json.loads(one)

    def call(self, method, **words):
        """Returns what a call answers; events that come before it are kept."""
        self.number += 1
        asked = {"id": self.number, "method": method, "params": words}
        if self.session:
            asked["sessionId"] = self.session
        os.write(self.to, json.dumps(asked).encode() + b"\0")
        while True:
            told = self.message()
            if told.get("id") == self.number:
                if "error" in told:
                    raise RuntimeError("%s: %s" % (method, told["error"]))
                return told["result"]
            self.events.append(told)

    def value(self, text):
        """Returns the value of an expression of the page."""
        told = self.call("Runtime.evaluate", expression=text, returnByValue=True, awaitPromise=True)
        if "exceptionDetails" in told:
            raise RuntimeError("%s: %s" % (text, told["exceptionDetails"]))
        return told["result"].get("value")

    def until(self, text, seconds=PATIENCE):
        """Waits until an expression holds, and returns how long that took, or None."""
        began = time.monotonic()
        return time.monotonic() - began if wait_until(lambda: self.value(text), 0.02, seconds) else None

    def give(self, path):
        """Gives a file to the page as its user does, and waits until it is looked at."""
        self.value("delete document.documentElement.dataset.done; document.querySelector('#file').value = ''")
        root = self.call("DOM.getDocument")["root"]["nodeId"]
        node = self.call("DOM.querySelector", nodeId=root, selector="#file")["nodeId"]
        self.call("DOM.setFileInputFiles", files=[path], nodeId=node)
        return self.until("document.documentElement.dataset.done === %s" % json.dumps(os.path.basename(path)))

    def press(self, key, code=0, text=None):
        """Presses a key."""
        what = {"key": key, "code": key, "windowsVirtualKeyCode": code, **({"text": text} if text else {})}
        self.call("Input.dispatchKeyEvent", type="keyDown", **what)
        self.call("Input.dispatchKeyEvent", type="keyUp", **what)

    def close(self):
        """Ends the browser."""
        try:
            self.session = None
            self.call("Browser.close")
        except (EOFError, OSError):
            pass
        self.ran.wait(20)


def type_base(browser, text):
    """Types an address of the image's first byte, and returns what is said of it."""
    browser.value("at('base').value = %s; at('base').dispatchEvent(new Event('change'))" % json.dumps(text))
    return browser.value("at('base-said').textContent")


def opened(page, folder):
    """Returns a browser with the page."""
    browser = Browser(PROGRAM, folder)
    browser.call("Page.navigate", url="file://" + page)
    assert browser.until("document.title === 'romtool: look into an image'", 20) is not None
    return browser


@pytest.fixture(scope="session")
def top(romtool, counts):
    """A directory with c.py's directory in each format."""
    with tempfile.TemporaryDirectory(prefix="romtool-", ignore_cleanup_errors=True) as folder:
        c.build_all(romtool.path, folder, counts)
        yield folder


@pytest.fixture(scope="session")
def page(pytestconfig, top):
    """The page."""
    if pytestconfig.option.page:
        return os.path.abspath(pytestconfig.option.page)
    done = c.said([os.path.join(c.TOP, "tools", "page"), top + "/romtool.html"])
    assert done.returncode == 0, done.stdout
    return top + "/romtool.html"


@pytest.fixture(scope="session")
def chromium(page, top):
    """The browser with the page. At its end nothing was asked from anywhere, and nothing failed unseen."""
    browser = opened(page, top + "/browser")
    yield browser
    browser.close()
    asked = [it["params"]["request"]["url"] for it in browser.events if it.get("method") == "Network.requestWillBeSent"]
    assert [it for it in asked if not it.startswith(("file:", "blob:", "data:"))] == []
    assert sum(it.startswith("file:") for it in asked) == 1
    wrong = [it for it in browser.events if it.get("method") == "Runtime.exceptionThrown"]
    said = [it for it in browser.events if it.get("method") == "Log.entryAdded"]
    assert wrong + [it for it in said if it["params"]["entry"]["level"] == "error"] == []


@pytest.fixture
def browser(chromium):
    """The browser as it is at first, on a wide display."""
    chromium.call("Emulation.clearDeviceMetricsOverride")
    chromium.call("Emulation.setTouchEmulationEnabled", enabled=False)
    chromium.call("Emulation.setEmulatedMedia", features=[])
    type_base(chromium, "")
    chromium.value("at('no-mmu').checked = false")
    return chromium


OPEN_ALL = """(async () => {
  for (let shut; (shut = document.querySelector("#tree details:not([open])"));) {
    shut.open = true;
    for (let i = 0; i < 500 && !shut.querySelector("ul > li"); i++) await new Promise((done) => setTimeout(done, 10));
  }
})()"""
# the tree of the page: each name with the words beside it, in the order of the page
TREE = """[...document.querySelectorAll("#tree li")].map((item) => {
  const head = item.querySelector(":scope > details > summary");
  const text = (head ?? item).querySelector(":scope > .note")?.textContent ?? "";
  const whole = (head ?? item).textContent;
  return [whole.slice(0, whole.length - text.length), text];
}).filter(([name, text]) => name || text !== "empty")"""


def rows_wanted(romtool, path):
    """Returns what the tree has to show of an image, by `list`."""
    words = ("directory", "file", "link", "block device", "character device", "socket", "named pipe")
    kinds = dict(zip("dflbcsp", words))
    found = [["/", ""]]
    for it in entries_of(romtool("list", path)[0])[1:]:
        text = kinds[it.kind] + (", %s bytes" % format(it.size, ",") if it.kind == "f" else "")
        text += ", %d:%d" % (it.major, it.minor) if it.kind in "bc" else ""
        text += ", mode %04o, owner %d:%d" % (it.mode, it.user, it.group) + (", leads to %s" % it.text if it.text else "")
        found.append([it.path.rsplit("/", 1)[1], text])
    return found


@each_form
def test_good_images(romtool, browser, top, form):
    """Shows the verdict, the tree, the facts, the contents and the picture of a good image."""
    path = os.path.join(top, form)
    assert browser.give(path) is not None
    told = romtool("check", path)[0].decode().strip()
    assert browser.value("at('line').textContent") == told
    browser.value(OPEN_ALL)
    assert browser.value(TREE) == rows_wanted(romtool, path)
    facts = dict(browser.value("[...at('facts').rows].map((row) => [...row.cells].map((it) => it.textContent))"))
    seen = (facts["length of the file"], facts["references to records"], facts["most names on a path"])
    assert seen == ("%s bytes" % format(os.path.getsize(path), ","), *told.split()[2:])
    held = browser.value("ask('contents', new TextEncoder().encode('/init')).then((it) => it.flatMap((x) => [...x]))")
    assert bytes(held) == c.CONTENT
    place = int(romtool("serve", path, input=b"open /init\nmap 0 0 4\n")[0].split()[3])
    browser.value("choose(Math.floor(%d / picture.cell) + 1)" % place)
    assert "contents of /init" in browser.value("at('picture').getAttribute('aria-valuetext')")
    walked = "In the tree: 2 directories, 2 files, 1 link, 1 character device; 6,000 bytes in files."
    assert browser.value("at('walked').textContent") == walked


# addresses

# what the page shows of where things are: for each row of a table its offset, address and number of bytes
PLACES = """[...document.querySelectorAll("#%s tr")].filter((it) => /^contents|^$/.test(it.cells[2]?.textContent ?? ""))
  .map((it) => [...it.cells].slice(0, 2).map((cell) => cell.textContent.replaceAll(",", "")).join(" "))"""
REFUSED = (
    ("12g", "is not a hexadecimal number"), ("0x", "is not a hexadecimal number"), ("-1", "is not a hexadecimal number"),
    ("1 2", "is not a hexadecimal number"), ("8000000h", "is not a hexadecimal number"), ("100000000", "has more than 32 bits"),
    ("0xfffffffff", "has more than 32 bits"), ("ffffffff", "would end behind 0xffffffff"),
)  # fmt: skip


@pytest.fixture
def addressed(browser, top, form):
    """The path of an image in a format, which the page shows with a file of it, and its last address."""
    path = os.path.join(top, form)
    browser.give(path)
    browser.value("showFile({ path: new TextEncoder().encode('/init'), name: 'init', stat: { kind: 2, size: 1, mode: 0 } })")
    return path, (1 << 32) - os.path.getsize(path)


@each_form
@pytest.mark.parametrize("text", ["", "8000000", "0x08000000", "0xDEADB000", " 123 ", "last"])
def test_addresses(romtool, browser, addressed, form, text):
    """Shows the addresses of `map --base`."""
    path, last = addressed
    text = "%x" % last if text == "last" else text
    told = [it for it in pieces_of(romtool("map", *(["--base", text.strip()] if text else []), path)[0]) if it.length]
    wanted = ["%d %s %d" % (int(it.address, 16) - int(text or "0", 16), it.address, it.length) for it in told]
    assert (type_base(browser, text), browser.value(PLACES % "pieces")) == ("", wanted)
    assert browser.value(PLACES % "runs") == wanted
    assert browser.value("at('first').textContent.split(' ')[0]") == told[0].address
    browser.value("choose(Math.floor(%d / picture.cell))" % int(wanted[0].split()[0]))
    assert told[0].address in browser.value("at('where').textContent")


@each_form
def test_refused_addresses(browser, addressed, form):
    """Refuses an address that cannot be in words, and shows the addresses from before; the next image does not keep them."""
    path, last = addressed
    type_base(browser, "%x" % last)
    shown = browser.value(PLACES % "runs")
    for text, why in (*REFUSED, ("%x" % (last + 1), "would end behind 0xffffffff")):
        said = type_base(browser, text)
        assert text in said and why in said and said.endswith("The addresses on this page count from 0x%08x." % last)
        assert (browser.value("at('base').getAttribute('aria-invalid')"), browser.value(PLACES % "runs")) == ("true", shown), text
    again = "look(new File([new Uint8Array(9 << 20)], 'later')); at('base').dispatchEvent(new Event('change'))"
    browser.value("delete document.documentElement.dataset.done; " + again)
    browser.until("document.documentElement.dataset.done === 'later'", 9)
    assert browser.value("at('status').textContent") == "later: fault 3 Magic at 0"
    browser.give(path)
    assert browser.value("hex(0)") == "0x00000000"


# faults


def told_by_page(text):
    """Returns the words of a paragraph of a document, without the marks of code, links and bold words."""
    plain = re.sub(r"\[([^]]*)\]\([^)]*\)", r"\1", text.replace("**", ""))
    return " ".join(plain.replace("`", "").split())


FAULTS_TEXT = repository_text("docs/FAULTS.md")
SECTIONS = {int(it.split()[0]): it for it in FAULTS_TEXT.partition("\n## By number\n")[2].split("\n### ")[1:]}
# what is said of most faults
USUAL = told_by_page(re.search(r"^(In most cases .*?)\sThen copy or build the image again\.", FAULTS_TEXT, re.M | re.S)[1])


def test_sections():
    """Has a section of docs/FAULTS.md for each fault."""
    assert list(SECTIONS) == sorted(sentences.FAULTS)


@pytest.mark.parametrize("number", SECTIONS)
def test_explained(browser, number):
    """Shows place, cause and cure of a fault as its section has them; what that says of most faults is added."""
    seen = browser.value("explain(%d), ['fault-place', 'cause', 'cure'].map((id) => at(id).textContent)" % number)
    given = re.split(r"\s*\*(Cause|What to do)\.\*\s*", SECTIONS[number].split("\n\n", 2)[2])
    parts = {"": given[0], **dict(zip(given[1::2], given[2::2]))}
    own = told_by_page(parts.get("Cause", ""))
    cause = USUAL + " " + own if own.startswith("Also") else own or USUAL
    assert seen == [told_by_page(parts[""]), cause, told_by_page(parts.get("What to do", "Copy or build the image again."))]
    assert browser.value("at('explained').hidden") is False


def test_no_explanation(browser):
    """Shows code in an explanation, and nothing if there is no fault."""
    assert browser.value("explain(3), at('cure').querySelector('code').textContent") == "xxd -l 16 IMAGE"
    assert browser.value("explain(0), at('explained').hidden") is True


PARTS = "['tree-part', 'programs-part', 'misreads-part', 'picture-part'].filter((id) => !at(id).hidden)"
NO_IMAGES = {"no-image": b"\x7fELF" + bytes(100), "text": b"hello\n", "zeros": bytes(70000), "almost": b"-rom1fs" + bytes(90)}


def put_damaged(top, name):
    """Writes an image with a fault, or a file that is none, and returns its path and its bytes."""
    held = bytearray(bytes_in(os.path.join(top, "cramfs")))
    held[200] ^= 1
    image = {"changed": bytes(held), "short": bytes(held[:50]), "empty": b"", "cut": bytes(held[:4000]), **NO_IMAGES}[name]
    put(os.path.join(top, name), image)
    return os.path.join(top, name), image


@pytest.mark.parametrize("name", ["changed", "short", "empty", "cut", *NO_IMAGES])
def test_bad_images(romtool, browser, top, name):
    """Shows the fault of an image, or that a file is none, and nothing of the fault of the image before."""
    path, image = put_damaged(top, name)
    browser.give(path)
    told = romtool("check", path)[0].decode().strip()
    line, words = browser.value("[at('line').textContent, at('sentence').textContent]")
    assert line == told and words.lower().startswith(sentences.FAULTS[int(told.split()[1])][1].lower())
    place = int(told.split()[-1])
    marked = browser.value("at('around').hidden ? null : at('hex').querySelector('mark').textContent")
    assert marked == ("%02x" % image[place] if place < len(image) else None)
    is_none = name == "empty" or name in NO_IMAGES
    assert browser.value(PARTS) == ([] if is_none else ["picture-part"])
    assert words.endswith("This file is no image: it is neither romfs nor cramfs.") == is_none
    seen = browser.value("[at('explained').hidden, at('place').textContent]")
    assert seen == [False, "Offset: %d 0x%08x" % (place, place)]
    browser.give(os.path.join(top, "cramfs"))
    assert browser.value("[at('explained').hidden, at('place').textContent, %s.length]" % PARTS) == [True, "", 4]


# many names and large images


def test_many_names(romtool, browser, top):
    """Shows some of many names of a directory, and goes on."""
    put(top + "/many", b"dir / 0755 0 0\n" + b"".join(b"pipe /n%05d 0644 0 0\n" % it for it in range(NAMES)))
    assert romtool("build", "cramfs", "many", "many.img", cwd=top)[2] == 0
    done = browser.give(top + "/many.img")
    assert done is not None and done < 20
    rows = "document.querySelectorAll('#tree ul > li').length === %d"
    assert browser.until(rows % 501, 5) is not None
    browser.value("document.querySelector('#tree ul > li:last-child button').click()")
    assert browser.until(rows % 1001, 5) is not None
    assert browser.value("document.querySelectorAll('#tree ul > li')[999].firstChild.textContent") == "n00999"
    assert browser.value("document.querySelectorAll('*').length") < 10000
    print("page: %d names in %.1f s, %s" % (NAMES, done, browser.value("at('walked').textContent")))
    assert browser.value("at('more-walk').hidden") is False


@pytest.fixture(scope="session")
def big(romtool, top):
    """Returns a large image: of romfs of one file, of cramfs of several, which are smaller, but whose bytes are all summed."""

    @functools.cache
    def built(form):
        put(top + "/big", b"x" * BIG)
        put(top + "/part", bytes(range(256)) * (BIG // 8 // 256))
        parts = "".join("file /big%d 0644 0 0 4 part\n" % it for it in range(8))
        put(top + "/one", b"dir / 0755 0 0\n" + (b"file /big 0644 0 0 4 big\n" if form == "romfs" else parts.encode()))
        assert romtool("build", form, "one", "big." + form, cwd=top)[2] == 0
        return f"{top}/big.{form}"

    return built


@pytest.mark.parametrize(("form", "name", "size"), [("romfs", "/big", BIG), ("cramfs", "/big0", BIG // 8)], ids=["romfs", "cramfs"])
def test_big_images(romtool, browser, big, form, name, size):
    """Shows a large image, and the contents of its files."""
    done = browser.give(big(form))
    assert done is not None and browser.value("at('line').textContent") == romtool("check", big(form))[0].decode().strip()
    print("page: %s of %d bytes in %.1f s" % (form, os.path.getsize(big(form)), done))
    length = "ask('contents', new TextEncoder().encode('%s')).then((it) => it.reduce((n, x) => n + x.length, 0))" % name
    assert browser.value(length) == size


DROP = """(() => {
  const given = new DataTransfer();
  given.items.add(new File([Uint8Array.from(%s)], "dropped"));
  delete document.documentElement.dataset.done;
  document.body.dispatchEvent(new DragEvent("drop", { dataTransfer: given, bubbles: true, cancelable: true }));
})()"""


def test_dropped(romtool, browser, top):
    """Looks at an image that is dropped on the page."""
    browser.value(DROP % list(bytes_in(top + "/romfs")))
    assert browser.until("document.documentElement.dataset.done === 'dropped'") is not None
    assert browser.value("at('line').textContent") == romtool("check", top + "/romfs")[0].decode().strip()


# programs in place

# a program that keeps each image of which `xip` is asked, with the words and the answer
KEEPING = """#!/bin/sh
[ "$1" = xip ] || exec "%(binary)s" "$@"
kept=$(mktemp -d "%(kept)s/XXXXXX")
for image in "$@"; do :; done
cp "$image" "$kept/image"
printf '%%s\\n' "$@" >"$kept/words"
"%(binary)s" "$@" >"$kept/told"
status=$?
cat "$kept/told"
exit $status
"""
# the tests that make images
MADE = "shared or padded or written or changed or flat or scattered or programs or relocat"
# the page's programs as lines of `xip`, with the total that it shows
LINES = """programs.flatMap((it) => {
  const front = `${it.path} ${hex(it.at)}`;
  const line = it.reason ? `not ${front} ${it.reason} ${it.pages}` : `xip ${front} ${it.inPlace} ${it.copied} ${it.zero}`;
  return it.shared ? [line, `shared ${front} ${it.shared}`] : [line];
})"""


def total_shown(words, lines):
    """Returns the line of the totals by the words of the page."""
    if words.startswith("No program or library was found"):
        return "total 0 0 0 0"
    count, of, mapped, copied = re.match(r"[^:]*: ([\d,]+) of ([\d,]+); pages in place: ([\d,]+), copied: ([\d,]+)\.", words).groups()
    count, of, mapped, copied = (int(it.replace(",", "")) for it in (count, of, mapped, copied))
    return "total %d %d %d %d" % (of, mapped, copied, of - count)


def ends_with(held):
    """Returns a cramfs image that ends with the bytes of the file /prog, which begin with a page."""
    entry = images.inode(0o100755, len(held), 76 + 16, b"prog")
    blocks = -(-len(held) // xip.PAGE)
    first = -(-(76 + len(entry) + 4 * blocks) // xip.PAGE) * xip.PAGE
    body = entry + struct.pack("<%dI" % blocks, *(images.PLAIN | (first + xip.PAGE * it) // 4 for it in range(blocks)))
    body += bytes(first - 76 - len(body)) + held
    flags = images.WITH_SUM | images.SORTED | images.DIRECT_POINTERS
    return images.cramfs(flags, images.inode(images.CRAMFS_DIRECTORY, len(entry), 76), body)


@pytest.fixture(scope="session")
def keeping(romtool, top):
    """Returns a program that keeps each image of which `xip` is asked, and the directory where they are."""
    os.mkdir(top + "/kept")
    put(top + "/keeping", (KEEPING % {"binary": romtool.path, "kept": top + "/kept"}).encode(), 0o755)
    return top + "/keeping", top + "/kept"


def kept_images(folder):
    """Yields each image of which `xip` was asked and that the page can show: its path, the words, the address, and the lines."""
    seen = set()
    for one in sorted(os.listdir(folder)):
        image, words, told = (bytes_in(os.path.join(folder, one, it)) for it in ("image", "words", "told"))
        base = re.search(rb"--base\n(\w+)\n", words)
        base = base[1].decode() if base else ""
        wanted = [it.replace("%20", " ") for it in told.decode().splitlines() if not it.startswith(("unused", "object"))]
        key = (image, base, b"--no-mmu" in words)
        if key not in seen and wanted and int(base or "0", 16) + len(image) <= 1 << 32:
            seen.add(key)
            yield os.path.join(folder, one, "image"), words, base, wanted


def test_in_place(browser, keeping):
    """Shows which programs are executed in place: the lines of `xip` on the images that test_xip.py makes and computes them for."""
    program, folder = keeping
    words = ["-m", "pytest", os.path.join(HERE, "test_xip.py"), "-p", "no:cacheprovider", "-k", MADE, "--binary", program]
    done = c.said([sys.executable, *words])
    assert done.returncode == 0, done.stdout[-2000:]
    # the image ends within the last page of a program, so this page is copied; zeros after the image are not in it
    for size, behind in ((5000, 0), (5000, 10000), (8192, 0)):
        put(folder + "/../ends", ends_with(xip.elf(2, [(1, 5, 0, 0x10000, size, size)], size)) + bytes(behind))
        mapped = size // xip.PAGE
        wanted = "xip /prog 0x00001000 %d %d 0" % (mapped, -(-size // xip.PAGE) - mapped)
        assert c.said([program, "xip", folder + "/../ends"]).stdout.decode().splitlines()[0] == wanted
    count, wrong = 0, []
    for path, words, base, wanted in kept_images(folder):
        browser.value("at('base').value = %s; at('no-mmu').checked = %s" % (json.dumps(base), json.dumps(b"--no-mmu" in words)))
        browser.give(path)
        got = browser.value(LINES)
        got.append(total_shown(browser.value("at('programs-line').textContent"), got))
        wrong += [(words, got, wanted)] * (got != wanted)
        count += 1
    assert wrong == []
    print("page: programs in place of %d images" % count)
    assert count > 200


@pytest.fixture(scope="session")
def with_program(romtool, top):
    """Returns an image with a program."""

    def built(form):
        put(top + "/prog", xip.elf(2, [(1, 5, 0, 0x10000, 5000, 5000), (1, 6, 8192, 0x22000, 1000, 9000)], 9192))
        put(top + "/m", b"file /prog 0755 0 0 4096 prog\nfile /other 0644 0 0 4 m\n")
        assert romtool("build", form, "m", "programs." + form, cwd=top)[2] == 0
        return f"{top}/programs.{form}"

    return built


@pytest.mark.parametrize(("base", "no_mmu"), [("", False), ("8000200", False), ("8000200", True)], ids=["none", "base", "no MMU"])
@pytest.mark.parametrize("form", ["cramfs", "romfs"])
def test_program_words(romtool, browser, with_program, form, base, no_mmu):
    """Says whether a program is in place, or why not, also after another address and without an MMU."""
    path = with_program(form)
    browser.give(path)
    type_base(browser, base)
    browser.value("at('no-mmu').checked = %s; at('no-mmu').onchange()" % json.dumps(no_mmu))
    words = ["--base", base or "0", *(["--no-mmu"] if no_mmu else []), path]
    line = romtool("xip", *words)[0].decode().split("\n")[0].split()
    browser.until("at('programs').textContent.includes('%s') && %s[0] === '%s'" % (line[2], LINES, " ".join(line)), 5)
    shown = browser.value("[...at('programs').children].map((it) => it.textContent)")
    if line[0] == "xip":
        wanted = "/prog %s in place %s pages in place, %s copied, %s of zeros" % tuple(line[2:])
    else:
        means = re.search(r"^\| `%s` \| (.*) \|$" % line[3], repository_text("docs/PROTOCOL.md"), re.M)[1]
        wanted = "/prog %s not in place %s pages copied; %s: %s" % (line[2], line[4], line[3], told_by_page(means))
    assert shown == [wanted]


# what Linux misreads

# manifests of images in which Linux misreads something; a source is named by its number
LONG = {it: "n" * it for it in (127, 128, 129, 150, 200)}
MISREAD = {
    "romfs": ["volume " + LONG[150], *("file /%s 0644 0 0 16 source0" % it for it in LONG.values()), "hard /short /" + LONG[200],
              "hard /too /" + LONG[128], "nod /device 0600 0 0 c 5000 7", "nod /other 0600 0 0 b 4095 65535"],
    "cramfs": ["dir / 0700 0 0", *("file /s%d 0644 0 0 4 source%d" % (it, it) for it in range(3)), "same /t0 0600 0 0 /s0",
               "same /t1 0644 0 0 /s1", "nod /other 0600 0 0 b 255 255"],
}  # fmt: skip
MISREAD["cramfs-be"] = ["dir / 0711 0 0", *MISREAD["cramfs"][1:]]
KINDS_MISREAD = 10


def shown(path):
    """Returns an escaped path as the page shows it: decoded if all of it is visible UTF-8."""
    try:
        whole = raw(path).decode("utf-8")
    except UnicodeDecodeError:
        return path
    return path if any(unicodedata.category(it)[0] == "C" or unicodedata.category(it) in ("Zl", "Zp") for it in whole) else whole


def misread_images(romtool, room):
    """Yields the images: of the cases, of the manifests above, and of random ones."""
    yield from (held for _, held in files_of_cases(most=1 << 20))
    made = [manifests.Manifest(form, lines, [b"x", b"y" * 4096, b"z" * 4097]) for form, lines in MISREAD.items()]
    for one in [*made, *map(manifests.Made, range(40))]:
        manifests.build(romtool.path, one, room).check_returncode()
        yield bytes_in(room / "image")


def misread_words():
    """Returns what Linux misreads, and the cure, by the number and name."""
    told = re.findall(r"^\| `(\d+ \w+)` \| \w+ \| (.*) \| (.*) \|$", repository_text("docs/LINUX.md"), re.M)
    return {name: (told_by_page(linux), told_by_page(cure)) for name, linux, cure in told}


def show_misread(browser, path, lines, words):
    """Compares what the page shows of an image with the lines of `linux`, and their words."""
    browser.give(path)
    while browser.value("picture.more"):
        browser.value("walkOn()")
    got = browser.value("misreads.map((it) => `linux ${it.number} ${MISREADS[it.number].name} ${it.path}`)")
    assert got == ["linux %s %s %s" % (it[1], it[2], shown(it[3])) for it in lines]
    line, text = browser.value("[at('misreads-line').textContent, at('misreads').textContent]")
    count = "%d thing%s" % (len(lines), "s" * (len(lines) > 1)) if lines else "nothing"
    assert line == "Linux misreads %s in this image, by the rules of romtool linux." % count
    assert [name for it in lines for name in [" ".join(it[1:3])] if not all(it in text for it in (name, *words[name]))] == []


def test_misread(romtool, browser, room):
    """Shows what Linux misreads: the lines of `linux`, with the words of docs/LINUX.md."""
    seen, kinds, words = set(), set(), misread_words()
    for number, held in enumerate(misread_images(romtool, room)):
        path = str(room / ("image%d" % number))
        put(path, held)
        out, err, _ = romtool("linux", path)
        if held not in seen and not err:
            seen.add(held)
            lines = [it.split(" ") for it in out.decode().splitlines()]
            kinds |= {" ".join(it[1:3]) for it in lines}
            show_misread(browser, path, lines, words)
    print("page: what Linux misreads in %d images" % len(seen))
    assert (sorted(kinds), len(kinds), len(seen) > 100) == (sorted(words), KINDS_MISREAD, True)


# how the page is used


def test_keys(browser, top):
    """Is used by keys only."""
    browser.give(top + "/cramfs")
    browser.until("document.querySelectorAll('#tree ul > li').length > 1", 5)
    browser.value("document.activeElement.blur()")
    reached = []
    for _ in range(14):
        browser.press("Tab", 9)
        reached.append(browser.value("document.activeElement.id || document.activeElement.textContent.split(',')[0]"))
    wanted = ("file", "base", "/", "init", "no-mmu", "picture")
    assert [it for it in wanted if it not in reached] == []
    browser.value("at('picture').focus(); choose(0)")
    seen = []
    keys = (("ArrowRight", 39), ("ArrowDown", 40), ("End", 35), ("ArrowRight", 39), ("Home", 36), ("ArrowLeft", 37))
    for key, code in keys:
        browser.press(key, code)
        seen.append(int(browser.value("at('picture').getAttribute('aria-valuenow')")))
    last = browser.value("picture.count - 1")
    assert seen == [1, 65, last, last, 0, 0]
    browser.value("[...document.querySelectorAll('#tree summary')].at(-1).focus()")
    was = browser.value("document.activeElement.parentNode.open")
    browser.press("Enter", 13, "\r")
    assert browser.value("document.activeElement.parentNode.open") != was
    browser.value("[...document.querySelectorAll('#tree li > button')].find((it) => it.textContent === 'init').focus()")
    browser.press("Enter", 13, "\r")
    assert browser.until("document.activeElement.id === 'details-head' && at('runs').rows.length > 0", 5) is not None


def test_readers(browser, top):
    """Has names for things to use, headings and a status for a screen reader."""
    browser.give(top + "/cramfs")
    nodes = [it for it in browser.call("Accessibility.getFullAXTree")["nodes"] if not it.get("ignored")]
    roles = [(it["role"]["value"], it.get("name", {}).get("value", "")) for it in nodes]
    used = ("button", "slider", "textbox", "DisclosureTriangle", "link", "summary", "combobox")
    assert [it for it in roles if it[0] in used and not it[1]] == []
    heads = {name for role, name in roles if role == "heading"}
    assert {"romtool", "Image", "Verdict", "Facts", "Tree", "Programs in place", "What Linux misreads", "Picture by offset"} <= heads
    assert [role for role, _ in roles if role == "status"] == ["status"]
    assert len([it for it in nodes if it["role"]["value"] == "slider" and "value" in it]) == 1
    assert browser.value("document.documentElement.lang") == "en"


def luminance(colour):
    """Returns how light a colour is, from 0 to 1."""
    digits = colour.strip()[1:]
    digits = digits if len(digits) == 6 else "".join(it * 2 for it in digits)
    parts = [int(digits[i : i + 2], 16) / 255 for i in (0, 2, 4)]
    linear = [it / 12.92 if it <= 0.04045 else ((it + 0.055) / 1.055) ** 2.4 for it in parts]
    return 0.2126 * linear[0] + 0.7152 * linear[1] + 0.0722 * linear[2]


def contrast(one, other):
    """Returns the contrast of two colours, from 1 to 21."""
    light, dark = sorted((luminance(one), luminance(other)), reverse=True)
    return (light + 0.05) / (dark + 0.05)


def test_colours(browser):
    """Has text with contrast in light and dark, and other grounds."""
    grounds = []
    for scheme in ("light", "dark"):
        browser.call("Emulation.setEmulatedMedia", features=[{"name": "prefers-color-scheme", "value": scheme}])
        value = "getComputedStyle(document.documentElement).getPropertyValue('--%s')"
        colour = {it: browser.value(value % it) for it in (*TEXTS, *CELLS, "ground")}
        grounds.append(browser.value("getComputedStyle(document.body).backgroundColor"))
        assert [it for it in TEXTS if contrast(colour[it], colour["ground"]) < 4.5] == [], scheme
        assert [it for it in CELLS if contrast(colour[it], colour["ground"]) < 3] == [], scheme
    assert grounds[0] != grounds[1]


# a narrow display

NARROW = {"width": 390, "height": 844, "deviceScaleFactor": 3, "mobile": True}
# what is to be seen on a narrow display: elements with a text of their own that are cut off on the right, or whose text is small;
# what scrolls by itself is left out
CUT = """[...document.querySelectorAll("body *")].filter((it) => it.offsetParent && !it.closest("pre, .unseen")
  && [...it.childNodes].some((child) => child.nodeType === 3 && child.data.trim())
  && (it.getBoundingClientRect().right > 390 || parseFloat(getComputedStyle(it).fontSize) < 12))
  .map((it) => it.textContent.slice(0, 40))"""
# single words of a table that are broken into several lines
BROKEN = """[...document.querySelectorAll("td, th")].filter((it) => {
  const text = document.createRange();
  text.selectNodeContents(it);
  return /^[\\w,]+$/.test(it.textContent) && new Set([...text.getClientRects()].map((box) => box.top)).size > 1;
}).map((it) => it.textContent)"""


@pytest.fixture
def narrow(browser):
    """The browser on a display that is 390 points wide, for touches."""
    browser.call("Emulation.setDeviceMetricsOverride", **NARROW)
    browser.call("Emulation.setTouchEmulationEnabled", enabled=True)
    return browser


def test_narrowest(browser, top):
    """Has a page that is 320 points wide."""
    browser.give(top + "/cramfs")
    browser.call("Emulation.setDeviceMetricsOverride", width=320, height=600, deviceScaleFactor=1, mobile=True)
    assert browser.value("document.documentElement.scrollWidth") <= 320


@pytest.mark.parametrize("name", ["cramfs", "changed", "no-image", "big.cramfs", "programs.romfs", "misread"])
def test_narrow(romtool, narrow, top, room, big, with_program, name):
    """Cuts nothing off on a narrow display."""
    if name == "misread":
        manifests.build(romtool.path, manifests.Manifest("romfs", MISREAD["romfs"], [b"x", b"y" * 4096, b"z" * 4097]), room)
    paths = {
        "cramfs": lambda: top + "/cramfs", "big.cramfs": lambda: big("cramfs"), "programs.romfs": lambda: with_program("romfs"),
        "misread": lambda: str(room / "image"),
    }  # fmt: skip
    narrow.give(paths[name]() if name in paths else put_damaged(top, name)[0])
    type_base(narrow, "0x08000000")
    narrow.value(OPEN_ALL)
    narrow.value("document.querySelectorAll('details').forEach((it) => { it.open = true; })")
    narrow.value("document.querySelector('#tree li > button')?.click()")
    narrow.until("at('tree-part').hidden || !document.querySelector('#tree li > button') || at('runs').rows.length > 0", 5)
    wide = narrow.value("document.documentElement.scrollWidth")
    seen = (wide, narrow.value(CUT), narrow.value(BROKEN), narrow.value("at('first').scrollWidth <= at('first').clientWidth"))
    assert seen == (390, [], [], True)


def test_touches(narrow, big):
    """Has cells of the picture to touch on a narrow display, of which a touch chooses one, also after the display becomes wider."""
    narrow.give(big("cramfs"))
    columns, cells = narrow.value("[picture.columns, picture.count]")
    narrow.value("at('picture').scrollIntoView()")
    box = "(({ left, right, height, top }) => [left, right, height, top])(at('picture').getBoundingClientRect())"
    left, right, high, above = narrow.value(box)
    each = (right - left) / columns
    assert 0 <= left and right <= 390 and each >= 8 and high <= 844
    for cell in (0, 5 * columns + 7, cells - 1):
        row, column = divmod(cell, columns)
        point = {"x": left + (column + 0.5) * each, "y": above + (row + 0.5) * each}
        narrow.call("Input.dispatchTouchEvent", type="touchStart", touchPoints=[point])
        narrow.call("Input.dispatchTouchEvent", type="touchEnd", touchPoints=[])
        assert narrow.until("at('picture').getAttribute('aria-valuenow') === '%d'" % cell, 2) is not None, cell
    place = narrow.value("picture.chosen * picture.cell")
    narrow.call("Emulation.setTouchEmulationEnabled", enabled=False)
    narrow.call("Emulation.setDeviceMetricsOverride", **{**NARROW, "width": 1000, "deviceScaleFactor": 1, "mobile": False})
    narrow.until("picture.columns > %d" % columns, 5)
    assert narrow.value("[picture.columns, picture.chosen * picture.cell, picture.what.includes('data')]") == [64, place, True]


FETCH = """new Promise((done) => {
  addEventListener("securitypolicyviolation", (event) => done(event.effectiveDirective));
  fetch("http://127.0.0.1:9/").catch(() => 0);
  setTimeout(() => done("nothing"), 5000);
})"""


def test_forbids(page, room):
    """Forbids the code of the page to ask for anything. The browser is another one, since this is an error in it."""
    browser = opened(page, str(room / "browser"))
    try:
        assert browser.value(FETCH) == "connect-src"
    finally:
        browser.close()
