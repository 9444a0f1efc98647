"""Archives whose bytes depend only on what is in them: names are sorted, owners are root, and all times are those of the release."""

import gzip
import io
import os
import tarfile

from installation import TOP, run


def time_of_release():
    """Returns the time of all files of a release: SOURCE_DATE_EPOCH, or that of the commit."""
    return int(os.environ.get("SOURCE_DATE_EPOCH") or run("git", "log", "-1", "--format=%ct", cwd=TOP).decode())


def tar(name, files, time):
    """Returns a compressed archive of files, in one directory of this name."""
    held = io.BytesIO()
    with tarfile.open(fileobj=held, mode="w", format=tarfile.GNU_FORMAT) as it:
        for path in sorted({*files, *folders_of(files)}):
            entry = tarfile.TarInfo(f"{name}/{path}".rstrip("/"))
            entry.mtime, (data, entry.mode) = time, files.get(path, (b"", 0o755))
            entry.type, entry.size = (tarfile.REGTYPE, len(data)) if path in files else (tarfile.DIRTYPE, 0)
            it.addfile(entry, io.BytesIO(data))
    return packed(held.getvalue())


def folders_of(files):
    """Returns the directories of these paths, the empty path among them."""
    found = {""}
    for path in files:
        while path:
            path = os.path.dirname(path)
            found.add(path)
    return found


def packed(held):
    """Returns bytes packed by gzip, without a name and a time."""
    out = io.BytesIO()
    with gzip.GzipFile(filename="", mode="wb", fileobj=out, compresslevel=9, mtime=0) as it:
        it.write(held)
    return out.getvalue()
