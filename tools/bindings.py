"""The packages of a release for Rust and Python: a crate archive, a wheel with the shared library, and the sources of the package.

They are made of bindings/ without cargo, pip and a network. Two runs write the same bytes.
"""

import base64
import hashlib
import io
import os
import re
import tempfile
import time
import tomllib
import zipfile

from installation import TOP, content, installed_text, run, version

RUST, PYTHON = "bindings/rust", "bindings/python"
# what is not in an archive of the sources
LEFT_OUT = {"__pycache__", "target", "build", "dist", ".gitignore", "Cargo.lock", "libromtool.so"}
# the oldest glibc of which wheels are named, and its other name
OLDEST, OTHER_NAME = (2, 17), "manylinux2014_x86_64"


def below(folder):
    """Returns the paths of the files below a directory of the repository, in order."""
    found = []
    for at, folders, names in os.walk(f"{TOP}/{folder}"):
        folders[:] = [it for it in folders if it not in LEFT_OUT and not it.endswith(".egg-info")]
        found += [os.path.relpath(f"{at}/{it}", TOP) for it in names if it not in LEFT_OUT]
    return sorted(found)


def sources(folder, without=()):
    """Returns the files of a package: for each path its bytes and its mode. Documents have no links to files that are not there."""
    paths = [it for it in below(folder) if not os.path.relpath(it, folder).startswith(tuple(without))]
    found = {os.path.relpath(it, folder): (installed_text(it, paths) if it.endswith(".md") else content(it), 0o644) for it in paths}
    return {**found, "LICENSE": (content("LICENSE"), 0o644)}


def crate():
    """Returns the files of the crate for Rust."""
    return sources(RUST)


def package():
    """Returns the sources of the package for Python. Its tests, which need the crate's image, are in the repository."""
    return sources(PYTHON, without=("tests/",))


def metadata():
    """Returns the metadata of the package for Python, by the specification of core metadata, version 2.1."""
    told = tomllib.loads(content(f"{PYTHON}/pyproject.toml").decode())["project"]
    lines = ["Metadata-Version: 2.1", f"Name: {told['name']}", f"Version: {version()}", f"Summary: {told['description']}"]
    lines += [f"License: {told['license']['text']}", *(f"Classifier: {it}" for it in told["classifiers"])]
    lines += [f"Requires-Python: {told['requires-python']}", "License-File: LICENSE", "Description-Content-Type: text/markdown", ""]
    return "\n".join(lines).encode() + b"\n" + package()["README.md"][0]


def platform(library):
    """Returns the platforms of a wheel with this shared library: Linux with the oldest glibc that has all that it uses."""
    with tempfile.NamedTemporaryFile() as it:
        it.write(library)
        it.flush()
        told = run("readelf", "--version-info", it.name).decode()
    major, minor = max(OLDEST, *((int(one), int(two)) for one, two in re.findall(r"\bGLIBC_(\d+)\.(\d+)\b", told)))
    return [f"manylinux_{major}_{minor}_x86_64", *([OTHER_NAME] if (major, minor) == OLDEST else [])]


def wheel(library, when):
    """Returns the name and the bytes of the wheel with a shared library, whose files have this time."""
    platforms, directory = platform(library), f"romtool-{version()}.dist-info"
    tags = "".join(f"Tag: py3-none-{it}\n" for it in platforms)
    modules = {path: held for path, (held, _) in package().items() if path.startswith("romtool/")}
    files = {**modules, "romtool/libromtool.so": library, f"{directory}/METADATA": metadata(), f"{directory}/LICENSE": content("LICENSE")}
    files[f"{directory}/WHEEL"] = f"Wheel-Version: 1.0\nGenerator: romtool\nRoot-Is-Purelib: false\n{tags}".encode()
    sums = {path: base64.urlsafe_b64encode(hashlib.sha256(held).digest()).rstrip(b"=").decode() for path, held in files.items()}
    lines = [f"{path},sha256={sums[path]},{len(held)}\n" for path, held in sorted(files.items())]
    files[f"{directory}/RECORD"] = "".join([*lines, f"{directory}/RECORD,,\n"]).encode()
    return f"romtool-{version()}-py3-none-{'.'.join(platforms)}.whl", zipped(files, when)


def zipped(files, when):
    """Returns files as a zip archive, those of the metadata at its end."""
    held = io.BytesIO()
    with zipfile.ZipFile(held, "w", zipfile.ZIP_DEFLATED, compresslevel=9) as it:
        for path, data in sorted(files.items(), key=lambda pair: (".dist-info/" in pair[0], pair[0])):
            entry = zipfile.ZipInfo(path, time.gmtime(max(when, 315532800))[:6])  # a zip archive has no time before 1980
            entry.external_attr, entry.compress_type, entry.create_system = 0o100644 << 16, zipfile.ZIP_DEFLATED, 3
            it.writestr(entry, data)
    return held.getvalue()
