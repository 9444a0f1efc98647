"""The commands `check` and `build` of the program."""

from __future__ import annotations

import os
import subprocess
from typing import Any, List, NamedTuple, Optional, Union

from ._errors import ProgramError


class Checked(NamedTuple):
    """Has what `romtool check` prints of a valid image."""

    format: str
    references: int
    depth: int


def _said(words: List[Any], text: Optional[bytes] = None) -> List[str]:
    """Runs the program that ROMTOOL names, or else `romtool` of the PATH, and returns the words of its line after `ok`.

    Raises ProgramError if its status is not 0.
    """
    given = {name: value for name, value in os.environ.items() if name != "ROMTOOL_EXPLAIN"}
    told = {"stdin": subprocess.DEVNULL} if text is None else {"input": text}
    done: Any = subprocess.run([os.environ.get("ROMTOOL") or "romtool", *words], capture_output=True, env=given, **told)
    lines = (done.stdout or done.stderr).decode("utf-8", "replace").splitlines() or [""]
    if done.returncode or not lines[0].startswith("ok "):
        raise ProgramError(lines[0], done.returncode)
    return lines[0].split(" ")[1:]


def check(image: Union[str, os.PathLike[str]]) -> Checked:
    """Runs `romtool check` on the file of an image. Raises ProgramError with its line and status if it is refused."""
    form, references, depth = _said(["check", "--", os.fspath(image)])
    return Checked(form, int(references), int(depth))


def build(
    manifest: Union[str, os.PathLike[str], bytes],
    out: Union[str, os.PathLike[str]],
    format: str = "cramfs",
    *,
    directory: Union[str, os.PathLike[str], None] = None,
    strict: bool = False,
    xip: bool = False,
    max_size: Optional[int] = None,
) -> int:
    """Runs `romtool build`, and returns the size of the image. Raises ProgramError with its line and status.

    `manifest` is the path of a manifest, or its text as bytes. `directory` is where the names of sources begin (`-C`).
    `strict`, `xip` and `max_size` are the options of `build` with these names.
    """
    words: List[Any] = ["build", *(["--strict"] if strict else []), *(["--xip"] if xip else [])]
    words += [] if max_size is None else ["--max-size", str(max_size)]
    words += [] if directory is None else ["-C", os.fspath(directory)]
    text = manifest if isinstance(manifest, bytes) else None
    name = "-" if isinstance(manifest, bytes) else os.fspath(manifest)
    if text is None and name == "-":
        name = "./-"
    (size,) = _said([*words, "--", format, name, os.fspath(out)], text)
    return int(size)
