"""Lays out small ELF files that name an interpreter and libraries, by the System V gABI."""

import struct

BASE = 0x10000  # the address of the file's first byte


def linked(interpreter=None, needed=(), run_path=None, wide=True, order="<", tag=29):
    """Returns an ELF file with PT_INTERP, PT_LOAD of the whole file, and PT_DYNAMIC with DT_NEEDED and a run path of a tag."""
    word = "Q" if wide else "I"
    header, program = (64, 56) if wide else (52, 32)
    strings = b"\0" + b"".join(it + b"\0" for it in [*needed, *([] if run_path is None else [run_path])])
    named = b"" if interpreter is None else interpreter + b"\0"
    count = 2 if interpreter is None else 3
    at_name = header + count * program
    at_strings = at_name + len(named)
    at_entries = (at_strings + len(strings) + 15) // 16 * 16
    entries, place = [], 1
    for it in needed:
        entries.append((1, place))
        place += len(it) + 1
    if run_path is not None:
        entries.append((tag, place))
    entries += [(5, BASE + at_strings), (10, len(strings)), (0, 0)]
    table = b"".join(struct.pack(order + 2 * word, *it) for it in entries)
    size = at_entries + len(table)

    def segment(kind, offset, length):
        if wide:
            return struct.pack(order + "IIQQQQQQ", kind, 4, offset, BASE + offset, BASE + offset, length, length, 1)
        return struct.pack(order + "IIIIIIII", kind, offset, BASE + offset, BASE + offset, length, length, 4, 1)

    programs = b"" if interpreter is None else segment(3, at_name, len(named))
    programs += segment(1, 0, size) + segment(2, at_entries, len(table))
    front = b"\x7fELF" + bytes([2 if wide else 1, 1 if order == "<" else 2, 1]) + bytes(9)
    front += struct.pack(order + "HHI" + 3 * word + "IHHHHHH", 3, 62, 1, 0, header, 0, 0, header, program, count, 0, 0, 0)
    body = front + programs + named + strings
    return body + bytes(at_entries - len(body)) + table
