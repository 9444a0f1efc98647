"""Runs of the program under `strace`: which calls of the system it makes, and with some of them failed or delayed."""

import os
import re
import select
import shutil
import signal
import subprocess
import tempfile
import threading
import time

from harness import SECONDS

CALL = re.compile(r"(\w+)\((.*)")
STOPPED = re.compile(rb"(\d+) +--- stopped by SIGSTOP ---")
FIRST = 'openat(AT_FDCWD, "/", '  # the program's first call; those before it are the loader's


class Call:
    """A call of the system: its name, which of that name it is since the program was started, its text."""

    def __init__(self, name, number, text):
        self.name, self.number, self.text = name, number, text


def is_there():
    """Returns whether calls can be traced here, and made to fail."""
    if not shutil.which("strace"):
        return False
    words = ["strace", "-o", os.devnull, "-e", "inject=close:error=EIO:when=1", "true"]
    done = subprocess.run(words, stdout=subprocess.PIPE, stderr=subprocess.PIPE, timeout=SECONDS)
    return done.returncode in (0, 1) and not done.stderr


def words_of(told, binary, words):
    """Returns the words of a run under strace, with options of strace."""
    return ["strace", *told, os.fspath(binary), *words]


def run(binary, *words, told=(), **more):
    """Returns the finished program, with calls failed or delayed as options of strace say."""
    with tempfile.NamedTemporaryFile() as log:
        told = ["-o", log.name, *told]
        streams = {"stdout": subprocess.PIPE, "stderr": subprocess.PIPE, **more}
        return subprocess.run(words_of(told, binary, words), timeout=SECONDS, **streams)


def inject(name, what, when=None):
    """Returns the options by which strace does something at each call of a name, or at one of them."""
    place = "" if when is None else ":when=%s" % when
    return ["-e", "trace=%s" % name, "-e", "inject=%s:%s%s" % (name, what, place)]


def calls(binary, *words, told=(), **more):
    """Returns the calls that the program makes itself, and the finished program, with options of strace."""
    with tempfile.NamedTemporaryFile("r", errors="surrogateescape") as log:
        streams = {"stdout": subprocess.PIPE, "stderr": subprocess.PIPE, **more}
        told = ["-o", log.name, "-s", "65536", *told]
        done = subprocess.run(words_of(told, binary, words), timeout=SECONDS, **streams)
        return list(calls_in(log)), done


def calls_in(log):
    """Yields the calls of a log from the program's first one on."""
    counts, begun = {}, False
    for line in log:
        found = CALL.match(line)
        if not found:
            continue
        name = found.group(1)
        counts[name] = counts.get(name, 0) + 1
        begun = begun or line.startswith(FIRST)
        if begun:
            yield Call(name, counts[name], line.rstrip("\n"))


def on_file(made, name):
    """Yields the calls on a file that is opened by this name, from its opening to its closing, once for each opening."""
    number = None
    for call in made:
        if call.name == "openat" and f'"{name}", ' in call.text:
            number = call.text.rsplit(" = ", 1)[1]
            yield call
        elif number and re.match(rf"\w+\({number}[,)]", call.text):
            yield call
            number = None if call.name == "close" else number


class Held:
    """A run that is stopped after one of its calls of the system while the block is executed; then it goes on to its end.

    strace writes its log into a pipe: it says when the call is reached, however long that takes.
    """

    def __init__(self, binary, words, name, number):
        self.log, theirs = os.pipe()
        told = ["-f", "-o", "/proc/self/fd/%d" % theirs, *inject(name, "signal=STOP", number)]
        streams = {"stdout": subprocess.PIPE, "stderr": subprocess.PIPE}
        self.run = subprocess.Popen(words_of(told, binary, words), pass_fds=[theirs], **streams)
        os.close(theirs)
        self.is_held, self.process, self.answer = False, None, None

    def __enter__(self):
        end, seen = time.monotonic() + SECONDS, b""
        while not self.is_held and select.select([self.log], [], [], max(0, end - time.monotonic()))[0]:
            more = os.read(self.log, 65536)
            if not more:
                break
            seen += more
            if found := STOPPED.search(seen):
                self.is_held, self.process = True, int(found.group(1))
        return self

    def __exit__(self, *_):
        if self.process:
            os.kill(self.process, signal.SIGCONT)
        # what strace writes is read to its end, so that it never waits for its reader
        rest = threading.Thread(target=self.read_rest)
        rest.start()
        try:
            out, said = self.run.communicate(timeout=SECONDS)
            self.answer = out, said, self.run.returncode
        except subprocess.TimeoutExpired:
            self.run.kill()
            self.run.communicate()
        rest.join()
        os.close(self.log)

    def read_rest(self):
        """Reads the log to its end."""
        while os.read(self.log, 65536):
            pass
