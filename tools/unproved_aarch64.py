"""The program for Linux on aarch64, of the module that tools/unproved has of the sources. NOTHING of it is proved.

The module is that of a trial for x86-64, with traps in place of what a proof would rule out. Pointers, sizes and alignments are the
same on aarch64, so only the machine is dropped (to32.py), and the kit's clang compiles it. c/aarch64.c is what the program calls
of the kit's two archives in C, which are for x86-64. It is compiled with an assertion for each number that the kit has of the C
library, so the build fails if one differs on aarch64. The C compiler of Debian's gcc-aarch64-linux-gnu links both.
"""

import hashlib
import os
import re
import shutil
import subprocess

import boards
import installation
import to32

CC, TRIPLE, SOURCE = "aarch64-linux-gnu-gcc", "aarch64-unknown-linux-gnu", f"{installation.TOP}/c/aarch64.c"
COMPILED = ["-std=c99", "-O2", "-fPIE", "-ffunction-sections", "-fdata-sections", "-Wall", "-Wextra", "-pedantic", "-Werror"]
COMPILED += ["-Wconversion", "-D_GNU_SOURCE"]
LINKED = ["-Wl,--gc-sections", "-Wl,-z,relro,-z,now", "-Wl,-z,noexecstack", "-Wl,--build-id=sha1", "-s"]
STATIC = ["-static-pie", *LINKED]
LIBRARY = "libc6-dev-arm64-cross"
# the object file of the last module, behind a checksum
KEPT = f"{installation.TOP}/out/aarch64.kept"
# what is linked, and the two programs, by their words for the linker
PARTS = ("romtool.o", "aarch64.o")
PROGRAMS = {"romtool": ["-pie", *LINKED], "romtool-static": STATIC}
HEADERS = ("errno", "fcntl", "limits", "sched", "sys/file", "sys/resource", "sys/stat", "sys/wait", "time", "unistd")


def lacks():
    """Returns why no program for aarch64 can be made here, or nothing."""
    if not shutil.which(CC):
        return f"there is no {CC}"
    if not os.path.isabs(installation.run(CC, "-print-file-name=libc.a").decode().strip()):
        return f"there is no C library for aarch64 ({LIBRARY})"
    return None


def numbers():
    """Returns assertions in C that the numbers which the kit has of the C library are those of the compiler."""
    text = "".join(installation.content(f"{installation.kit_directory()}/rattle/{it}/src/lib.rt").decode() for it in ("libc", "os"))
    found = re.findall(r"^(?:pub )?const (\w+): \w+ = (-?\w+);$", text, re.M)
    heads = "".join(f"#include <{it}.h>\n" for it in HEADERS)
    return heads + "".join(f'__extension__ _Static_assert({name} == {int(it, 0)}, "{name}");\n' for name, it in found)


def compiled(module, to):
    """Compiles a module, which takes a minute or two, unless it is the last one that was compiled."""
    it = to32.Pass(module.replace(" sanitize_address", " nounwind"))
    it.machine()
    words = [f"--target={TRIPLE}", "-fPIE", "-O2"]
    key = f"{installation.content(f'{installation.kit_directory()}/KIT-ID')} {words} {it.text}"
    total = hashlib.sha256(key.encode()).hexdigest().encode()
    held = installation.content(KEPT) if os.path.exists(KEPT) else b""
    if not held.startswith(total):
        boards.rom32.compiled_text(words[:-1], words[-1], it.text, to, TRIPLE)
        held = total + installation.content(to)
        os.makedirs(os.path.dirname(KEPT), exist_ok=True)
        with open(f"{KEPT}-{os.getpid()}", "wb") as file:
            file.write(held)
        os.replace(file.name, KEPT)
    with open(to, "wb") as file:
        file.write(held[len(total) :])


def build(module, folder):
    """Compiles a module and c/aarch64.c in a directory, and links them to both programs there."""
    compiled(module, f"{folder}/romtool.o")
    with open(f"{folder}/numbers.h", "w", encoding="utf-8") as file:
        file.write(numbers())
    words = ["-include", f"{folder}/numbers.h", f"-ffile-prefix-map={installation.TOP}=."]
    subprocess.run([CC, *COMPILED, *words, "-c", SOURCE, "-o", f"{folder}/aarch64.o"], check=True)
    os.remove(f"{folder}/numbers.h")
    for name, words in PROGRAMS.items():
        subprocess.run([CC, *words, "-o", name, *PARTS], cwd=folder, check=True)
