"""A client of `romtool serve`, which sends one line and waits for its reply. What test_client.py compares is here, and used by others."""

import subprocess

from harness import SECONDS
from romtool import escaped

READ_AT_MOST = 4096
BYTES_AT_MOST = 2**20  # of all files of an image together


class Client:
    """A program that asks a server line by line."""

    def __init__(self, binary, image):
        with open(image, "rb") as file:
            self.bytes = file.read()
        self.server = subprocess.Popen([binary, "serve", image], stdin=subprocess.PIPE, stdout=subprocess.PIPE, bufsize=0)

    def __enter__(self):
        return self

    def __exit__(self, *_):
        self.server.kill()
        self.server.wait()
        self.server.stdin.close()
        self.server.stdout.close()

    def ask(self, line):
        """Returns the fields of the reply to a line, after `ok`."""
        self.server.stdin.write(line + b"\n")
        reply = b""
        while not reply.endswith(b"\n"):
            some = self.server.stdout.read(65536)
            assert some, f"{line}: the server ended"
            reply += some
        fields = reply[:-1].split(b" ")
        assert fields[0] == b"ok", f"{line}: {reply}"
        return fields[1:]

    def piece(self, line):
        """Returns the bytes that a line lends, which the image has at their place."""
        place, length, told = self.ask(line)
        got = b"" if told == b"-" else bytes.fromhex(told.decode())
        is_there = len(got) == int(length) and (not got or self.bytes[int(place) :][: len(got)] == got)
        assert is_there, f"{line}: these are not the bytes at {place}"
        return got

    def file(self, path, size):
        """A regular file: its bytes lent from its start on, mapped piece by piece, and read from its end."""
        fd = self.ask(b"open " + path)[0]
        whole = b""
        while True:
            got = self.piece(b"lend %s 4294967295" % fd)
            if not got:
                break
            assert self.piece(b"map %s %d %d" % (fd, len(whole), len(got))) == got, f"{path}: a mapped range has other bytes"
            whole += got
        assert len(whole) == size, f"{path}: {len(whole)} bytes were lent of {size}"
        for at in range((size // READ_AT_MOST) * READ_AT_MOST, -1, -READ_AT_MOST):
            self.ask(b"seek %s %d" % (fd, at))
            length, told = self.ask(b"read %s %d" % (fd, READ_AT_MOST))
            got = b"" if told == b"-" else bytes.fromhex(told.decode())
            assert got == whole[at : at + READ_AT_MOST] and len(got) == int(length), f"{path}: other bytes were read from {at} on"
        self.ask(b"close " + fd)

    def entries(self, path):
        """Returns the names of a directory, each with its number, read twice."""
        fd = self.ask(b"open " + (path or b"/"))[0]
        times = []
        for _ in range(2):
            times.append([])
            while (entry := self.ask(b"readdir " + fd)) != [b"end"]:
                times[-1].append(entry)
            self.ask(b"rewind " + fd)
        self.ask(b"close " + fd)
        assert times[0] == times[1], f"{path}: it was read in two ways"
        return times[0]

    def lines(self, path):
        """Yields the lines of the list from a path on."""
        status = self.ask(b"lstat " + (path or b"/"))
        line = b" ".join(status + [path or b"/"])
        kind = status[1]
        if kind == b"l":
            yield line + b" " + escaped(self.piece(b"readlink " + path)).encode()
            return
        yield line
        if kind == b"f":
            self.file(path, int(status[5]))
        if kind == b"d":
            for name, ino in self.entries(path):
                below = path + b"/" + name
                assert self.ask(b"lstat " + below)[0] == ino, f"{below}: the directory has another number"
                yield from self.lines(below)

    def quit(self):
        """Ends the serving; the status of the server."""
        self.ask(b"quit")
        self.server.stdin.close()
        return self.server.wait(SECONDS)


def compare(binary, image, listed):
    """Reads an image, whose tree has to be that of a list."""
    with Client(binary, image) as client:
        got = b"".join(line + b"\n" for line in client.lines(b""))
        assert got == listed, f"list   {listed[:400]}\nclient {got[:400]}"
        status = client.quit()
        assert status == 0, f"status {status}"
