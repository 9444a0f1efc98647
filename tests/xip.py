"""Programs of ELF and in the flat format, and what `romtool xip` says of them by Linux's rules, for the tests of it.

The segments of compiled programs are those of `readelf -l`; the headers of programs that are laid out here, for both classes and byte
orders, are read by this module. The offset of each file is where its bytes are in the image.
"""

import os
import re
import struct
import subprocess

from romtool import escaped

PAGE = 4096


def segments(name):
    """Yields the segments with bytes of an ELF file: offset, address, bytes in the file and in memory, and whether they can be written."""
    told = subprocess.run(["readelf", "-lW", name], check=True, stdout=subprocess.PIPE, text=True).stdout
    for line in told.splitlines():
        if found := re.match(r"\s+LOAD\s+(\S+) (\S+) \S+ (\S+) (\S+) (.{3}) ", line):
            offset, address, filed, held = (int(it, 16) for it in found.groups()[:4])
            yield offset, address, filed, held, "W" in found[5]


def pages(loads, is_linked=False):
    """Returns the pages that are not written, those that can be, those of zeros, and where the bytes of the last segment end.

    The dynamic linker writes zeros behind the bytes of a segment of a library, even if the segment cannot be written.
    """
    fixed = written = zeros = used = 0
    for offset, address, filed, held, is_written in loads:
        ends = [-(-(address % PAGE + it) // PAGE) for it in (filed, held)]
        zeros += ends[1] - ends[0]
        if filed:
            used = max(used, offset + filed)
            zeroed = not is_written and is_linked and held > filed and (address + filed) % PAGE > 0
            written += ends[0] if is_written else zeroed
            fixed += 0 if is_written else ends[0] - zeroed
    return fixed, written, zeros, used


def expected(image, files, base=0, is_romfs=False, no_mmu=False, advice=False, moved=()):
    """Returns the answer for files whose segments are known: (path, bytes, segments). Other files have None."""
    lines, total = [], [0, 0, 0, 0]
    for path, held, loads in files:
        at = image.find(held)
        place, reason, shared = "0x%0*x" % (8 if base + at < 2**32 else 16, base + at), None, 0
        if loads is None:
            if advice and (base + at) % PAGE == 0:
                front = image[at - PAGE + 1 : at]
                lines.append("object %s %s %d" % (path, place, len(front) - len(front.rstrip(b"\0"))))
            continue
        fixed, written, zeros, used = pages(loads, not no_mmu and is_linked(*numbers_in(held)))
        if written and not fixed:
            reason = "writable"
        elif fixed and not no_mmu:
            reason = "romfs" if is_romfs else "unaligned" if (base + at) % PAGE else None
        if fixed and not reason and path in moved:
            reason = "textrel"
        end = -(-(at + len(held)) // PAGE) * PAGE
        if not reason and not no_mmu and fixed and any(image[at + len(held) : end]):
            last = (len(held) - 1) // PAGE
            for offset, address, filed, _, is_written in loads:
                if filed and not is_written and offset // PAGE - 1 + -(-(address % PAGE + filed) // PAGE) == last:
                    shared += 1
        if reason:
            lines.append("not %s %s %s %d" % (path, place, reason, fixed + written))
        else:
            lines.append("xip %s %s %d %d %d" % (path, place, fixed - shared, written + shared, zeros))
        if shared:
            lines.append("shared %s %s %d" % (path, place, -(-len(held) // PAGE) * PAGE))
        if advice and not reason and len(held) - used > PAGE:
            lines.append("unused %s %d" % (path, len(held) - used))
        more = (1, 0, fixed + written, 1) if reason else (1, fixed - shared, written + shared, 0)
        total = [one + other for one, other in zip(total, more)]
    warned = any(line.startswith(("not", "shared")) for line in lines)
    text = "".join(line + "\n" for line in [*lines, "total %d %d %d %d" % tuple(total)])
    return text.encode(), b"", 1 if warned else 0


def manifest(names, align):
    """Returns a manifest of files in the root, by their names and in their order."""
    return "".join("file /%s 0755 0 0 %d %s\n" % (escaped(os.fsencode(it)), align, escaped(os.fsencode(it))) for it in names)


def elf(kind=2, loads=(), size=PAGE, wide=True, order="<", dynamic=None, entry=None, table=None):
    """Returns an ELF file of so many bytes: its segments are (type, flags, offset, address, bytes in the file, bytes in memory)."""
    head = struct.pack("4sBBB9x", b"\x7fELF", 2 if wide else 1, 1 if order == "<" else 2, 1)
    start = table if table is not None else 64 if wide else 52
    entry = entry if entry is not None else 56 if wide else 32
    numbers = (kind, 62, 1, 0, start, 0, 0, 64 if wide else 52, entry, len(loads), 0, 0, 0)
    out = head + struct.pack(order + ("HHIQQQIHHHHHH" if wide else "HHIIIIIHHHHHH"), *numbers)
    for what, flags, offset, address, filed, held in loads:
        if wide:
            out += struct.pack(order + "IIQQQQQQ", what, flags, offset, address, address, filed, held, PAGE)
        else:
            out += struct.pack(order + "IIIIIIII", what, offset, address, address, filed, held, flags, PAGE)
    out = out[:size] + b"\xa5" * (size - len(out))
    return out if dynamic is None else out[: dynamic[0]] + dynamic[1] + out[dynamic[0] + len(dynamic[1]) :]


def numbers_in(held):
    """Returns the type and the segments of an ELF file, read by the rules; None if it is none; only the type without a table."""
    if len(held) < 52 or held[:4] != b"\x7fELF" or held[4] not in (1, 2) or held[5] not in (1, 2):
        return None
    wide, order = held[4] == 2, "<" if held[5] == 1 else ">"
    if wide and len(held) < 64:
        return None
    kind = struct.unpack_from(order + "H", held, 16)[0]
    table = struct.unpack_from(order + ("Q" if wide else "I"), held, 32 if wide else 28)[0]
    entry, count = struct.unpack_from(order + "HH", held, 54 if wide else 42)
    width = 56 if wide else 32
    if entry != width or not 0 < count * width <= PAGE or table + count * width > len(held):
        return kind, None
    out = []
    for at in range(table, table + count * width, width):
        if wide:
            what, flags, offset, address, _, filed, memory, _ = struct.unpack_from(order + "IIQQQQQQ", held, at)
        else:
            what, offset, address, _, filed, memory, flags, _ = struct.unpack_from(order + "IIIIIIII", held, at)
        out.append((what, flags, offset, address, filed, memory))
    return kind, out


def is_linked(kind, headers):
    """Returns whether the dynamic linker may load an ELF file: it is of the type ET_DYN, and has bytes for dynamic linking."""
    return kind == 3 and any(it[0] == 2 and it[4] for it in headers)


def changed_line(path, held, at):
    """Returns the line of a changed ELF file at an offset of a cramfs image that begins with a page, and what it adds to the totals."""
    found = numbers_in(held)
    if not found or found[0] not in (2, 3):
        return "", (0, 0, 0, 0)
    if found[1] is None:
        return "not %s 0x%08x table 0\n" % (path, at), (1, 0, 0, 1)
    loads = [it for it in found[1] if it[0] == 1]
    for _, _, offset, address, filed, memory in loads:
        if filed and (offset % PAGE != address % PAGE or memory < filed or offset + filed > len(held)):
            return "not %s 0x%08x unloadable 0\n" % (path, at), (1, 0, 0, 1)
    fixed, written, zeros, _ = pages(((*it[2:], it[1] & 2) for it in loads), is_linked(*found))
    if written and not fixed:
        return "not %s 0x%08x writable %d\n" % (path, at, written), (1, 0, written, 1)
    return "xip %s 0x%08x %d %d %d\n" % (path, at, fixed, written, zeros), (1, fixed, written, 0)


def flat_line(path, held):
    """Returns the line of a file in the flat format without an MMU, at the address 0, and what it adds to the totals."""
    if len(held) < 64 or held[:4] != b"bFLT":
        return "", (0, 0, 0, 0)
    rev, _, text, data, zeros = struct.unpack_from(">5I", held, 4)
    flags, least = struct.unpack_from(">I", held, 36)[0], 1 << 28
    if rev != 4 or not 64 <= text <= len(held) or not text <= data <= zeros or text >= least:
        return "not %s 0 unloadable 0\n" % path, (1, 0, 0, 1)
    if data - text >= least or zeros - data >= least:
        return "not %s 0 unloadable 0\n" % path, (1, 0, 0, 1)
    behind = (zeros - text + PAGE - 1) // PAGE - (data - text + PAGE - 1) // PAGE
    placed, copied = (text + PAGE - 1) // PAGE, (data - text + PAGE - 1) // PAGE
    if flags & 5:
        placed, copied = 0, (data + PAGE - 1) // PAGE
    return "xip %s 0 %d %d %d\n" % (path, placed, copied, behind), (1, placed, copied, 0)
