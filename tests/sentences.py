"""The sentences of the program, written out: what test_explain.py and the cases expect, and what the code is compared with.

Those of the faults of an image are in docs/FAULTS.md, which is written by a person, too. Nothing here is taken from the code: if a sentence
of `crates/sentences` is changed or new, change it here (or in FAULTS.md); until then `test_explain.py` fails.
"""

import re

from files import repository_text

# the subcommands, in the order of help
SUBCOMMANDS = (
    "check", "list", "info", "map", "which", "diff", "digest", "verify", "numbers", "cat", "linux", "xip", "serve", "space", "build",
    "pack", "scan", "extract", "version",
)  # fmt: skip
# the faults of an image: their names and sentences, by their numbers
FAULTS = {
    int(number): (name, sentence)
    for number, name, sentence in re.findall(r"^### (\d+) (\w+)\n\n> (.*)$", repository_text("docs/FAULTS.md"), re.M)
}
# the faults of a manifest: their names and sentences, by their numbers
MANIFESTS = {
    1: ("BadWord", "an unknown word, a wrong number of fields, an empty field, or a nod line with neither b nor c"),
    2: ("BadNumber", "a mode is not four octal digits, or another number is not decimal or not below 2^32"),
    3: ("BadPath", "a path, a link's text or a volume's name is not valid"),
    4: ("NoParent", "no earlier line makes the parent directory of the path"),
    5: ("Exists", "an earlier line already has this path, or already names the volume"),
    6: ("BadAlign", "the alignment is not a power of two from 4 to 65536"),
    7: ("BadTarget", "OLD of a hard or same line is not the path of an earlier file of the right kind"),
}
# what a format cannot hold
MISFITS = {
    1: ("Attribute", "the format cannot hold an owner, a group, a mode or a device's number"),
    2: ("TooLarge", "a file, a list or the whole image is too large"),
    3: ("NameTooLong", "a name is longer than the format allows"),
    4: ("HardLink", "cramfs has no hard links: write same PATH MODE UID GID OLD instead of hard"),
}
# what Linux misreads, by the numbers of `linux`; 0 is a warning of `build` only
MISREADS = {
    0: ("Empty", "no line makes a file, so the image has only an empty root; did the scan fail?"),
    1: (
        "LastBlock",
        "Linux reads the last 4,096 bytes of a file as zeros if its length is a multiple of 4,096; "
        "append a byte to the source (truncate -s +1 FILE)",
    ),
    2: (
        "SharedTable",
        "Linux shows files that share contents with the mode and the owner of one of them; "
        "write a file line with the source instead of same",
    ),
    3: ("NameCut", "Linux lists only 127 bytes of a name that has 128; shorten it"),
    4: ("NameTooLong", "Linux finds no name of more than 128 bytes in romfs; shorten it"),
    5: ("Volume", "Linux finds no root after a volume name of more than 143 bytes; shorten it"),
    6: ("Device", "Linux keeps no major number above 4095 in romfs, and none above 255 in cramfs; use a lower number"),
    7: ("NamePadded", "Linux lists but does not find a name with more padding than it needs; build the image with romtool"),
    8: ("LinkCut", "Linux ends the text of a link before its first zero byte; build the image with romtool"),
    9: ("RootMode", "Linux adds 0555 to the mode of the root in cramfs; set these bits in the line dir /"),
    10: (
        "OtherPlace",
        "Linux reads a hard link's bytes from a wrong offset if the file's own name has more than 143 bytes; shorten that name",
    ),
}
# why Linux does not execute a program in place, by the REASON of a line `not`, or by `shared`
PROGRAMS = {
    "unaligned": "Linux copies a program whose first byte is not at the front of a page; give it an ALIGN of 4096 (--align 4096)",
    "scattered": "Linux copies a program that is not in one piece; build the image with romtool",
    "unloadable": "Linux does not load one of its segments; link it for pages of 4,096 bytes",
    "table": "its program headers are none that Linux loads; link it again for Linux",
    "romfs": "Linux with an MMU executes nothing of romfs in place; use cramfs",
    "textrel": "the dynamic linker writes into its text; compile it with -fPIC",
    "writable": "each page of it is written; link it with a segment that cannot be written (without -N, --omagic)",
    "shared": "Linux copies its last page, which also has other data; pad the source to N + 1 bytes, by the N of its line",
}
# why a server refuses a call, by the name of the error
CALLS = {
    "ENOENT": "no file has this path",
    "ENOTDIR": "a directory is needed here, and this is another kind of file",
    "ELOOP": "more than 40 symbolic links are on the way",
    "ENAMETOOLONG": "the path has more than 4,095 bytes, or a name in it more than 255",
    "EINVAL": "the path has no slash in front, the file has another kind, the range is empty or past the end, or the image is not mounted",
    "EBADF": "this descriptor is not open",
    "EISDIR": "it is a directory, which has no bytes",
    "ENXIO": "only directories and regular files can be opened",
    "EMFILE": "64 files are open, which is the most",
    "ERANGE": "the bytes do not follow one another in the image",
    "ENODEV": "no image has this number",
    "EBUSY": "the image or the directory is in use by a mount",
}
# why a line is no request, by its reply
BAD_LINES = {
    "bad command": "the first word is not a command",
    "bad line": "too few or too many words, an empty word, or a line of over 8,191 bytes",
    "bad number": "a number is not decimal or not below 2^32, or a read asks for more than 4096 bytes",
    "bad session": "the line does not begin with a session, 0 to 7, and a space",
}
# why a command ended early, by its line on standard error
ENDINGS = {
    "memory": "the system refused more memory",
    "write fault": "not everything could be written to standard output",
    "read fault": "standard input could not be read",
    "too many reads": "standard input had not ended after 2^40 bytes",
}
# why a file cannot be used, and what else is said of one
REASONS = {
    "NO_REGULAR_FILE": "it is not a regular file",
    "MANIFEST_TOO_LONG": "a manifest has at most 2^30 bytes",
    "LINE_TOO_LONG": "a line of it has more than 2^20 bytes, so it is no manifest",
    "NO_FOLDER": "it is not a directory",
    "TOO_MANY_LINKS": "more than 40 symbolic links follow one another",
    "HUNDRED_PARTS": "a hundred parts, .NAME.romtool-0.part and so on, are beside it; remove old ones",
    "NO_KIND": "it is of a kind that no manifest has",
    "REPLACED": "another file took its name meanwhile",
    "SOURCE_CHANGED": "it changed while it was read",
    "SOURCE_UNREAD": "it could not be read, or its length is not the length that the system reported",
    "PART_LEFT_OUT": "left out: it is a part of a file that this command writes, left by an interrupted build",
    "NO_PART": (
        "warning: it has the name of a part of a file that this command writes, but not the mark of one (mode 1000), "
        "so it is scanned like any other file"
    ),
    "FOLDER_CHANGED": "it changed while it was scanned",
    "OWN_INPUT": "it is the manifest or a source, which a build never replaces",
    "OWN_OUTPUT": "it is standard output, and the line ok LENGTH would get into the image",
    "OUT_IS_LAST": "it is a directory; OUT, the file of the image, is the last word",
    "OWN_RULE": "it is also OUT, the file of the image",
    "OWN_PART": "it has the name of a part of OUT, or OUT that of a part of it",
    "RULE_UNFIT": "make cannot read a name in it; PROTOCOL.md lists such names",
    "SOURCE_LINK": "it is a symbolic link, and --no-follow refuses these",
    "NOT_TAKEN": "not all of the image could be written to it",
    "NO_TEXT": "a name that is not UTF-8 cannot be opened",
    "NO_WORD": "it is not UTF-8, and every word has to be UTF-8",
    "PART_REPLACED": "its part was renamed, replaced or removed meanwhile",
    "SUM_DIFFERS": "a source changed while it was read, so the stored checksum is wrong",
    "NO_ADDRESS": "with this --base it has addresses of more than 64 bits",
    "NO_PREFIX": "--prefix has to begin with a letter, and to have only letters, digits and _",
    "MISREAD": "it is valid, but Linux misreads what these lines name; see LINUX, By number",
    "NEEDED": "these are needed and not found, or were not looked at; see PROTOCOL, What programs need",
    "NOT_IN_PLACE": "Linux does not execute all of these programs in place; see PROTOCOL, Programs in place",
    "NOT_EMPTY": "it is not empty",
    "OF_ANOTHER_USER": "it is owned by another user, who could change what is made in it",
    "PROBE_LEFT": "the file .romtool-probe in it could not be removed: remove it",
    "OPEN_TO_OTHERS": "other users may write in it, and could replace what is made in it",
    "LINK_OF_ANOTHER": "it is a link that another user made or may replace: name the directory itself",
    "OUT_BY_LINK": "another user made a link to it, or may replace one: name the file itself",
    "MOUNTED": "a file system on it, or on a partition of it, is mounted: unmount it",
    "SWAPPED": "it, or a partition of it, is used as swap space: run swapoff first",
    "INCOMPLETE": "it is incomplete; the files that were made in it are still there",
    "NAME_UNFIT": "a name has at most 255 bytes here, and a whole path 4095",
    "LINK_UNFIT": "its text is empty or not UTF-8, or has a zero byte or over 4095 bytes",
    "FILE_NOT_TAKEN": "not all of the file could be written",
    "LONG_PATH": "a path in it has more than 4095 bytes, the most in a manifest",
    "LONG_VOLUME": "its volume's name has more than 255 bytes, the most in a manifest",
    "FOREIGN_NAME": "a name in it is not UTF-8; ls -b shows it",
    "FOREIGN_LINK": "the text of the link is not UTF-8; readlink shows it",
    "PATTERN_UNFINISHED": "it has a [ without its ], or a backslash at its end",
    "PATTERN_CLASS": "it has a class such as [:alpha:], and patterns have no classes",
    "KINDS_DIFFER": "a directory and another kind of file cannot replace each other",
    "OWN_FILE": "it is a file that the manifest lists, or the file of --devices",
    "SCANNED": "it is in a scanned directory, so the next scan would list it",
    "WHITEOUT": "it is a whiteout of overlayfs (device 0:0); scan the mounted overlay instead",
    "OUT_OF_ANOTHER": "another user made it, in a directory like /tmp; remove it first",
    "NO_STREAM": "- is the name of a file here; standard input is /dev/stdin",
    "TERMINAL": "it is a terminal, and these bytes are not text: redirect it",
    "WAITS": "waits for requests, such as stat /; Ctrl-D ends them; see LINES",
    "SPACE_WAITS": "waits for requests with a session, such as 0 stat /; Ctrl-D ends them; see LINES",
    "NO_MAX_SIZE": "ROMTOOL_MAX_SIZE is no number of bytes, such as 4096, 64K, 2M, 1G or 0x10000",
    "FAKED": (
        "fakeroot or pseudo is in the environment and does not reach this program (it is static, or LD_PRELOAD is lost), "
        "so owners and devices would be wrong"
    ),
    "OWN_STREAM": "it is the file that standard output is written to",
    "OWN_ERROR": "it is the file that standard error is written to",
    "MANIFEST_NOT_TAKEN": "not all of the manifest could be written to it",
    "LONG_NAME": "the name of a volume has at most 255 bytes",
    "DEVICE_WORD": "a file of devices has only dir, slink, nod, pipe, sock and mode",
    "MODE_LINE": "a mode line is: mode PATH MODE UID GID",
    "DEVICE_EXISTS": "an earlier line already has this path, or a directory and another kind of file have it",
    "DEVICE_NO_PARENT": "no DIR and no dir line has the parent directory of the path",
    "NO_SLASH": "a path in an image begins with a slash",
    "NO_SUCH_FILE": "no file has this path, so its mode and owner cannot be set",
    "TABLE_LINE": "a line has PATH TYPE MODE UID GID MAJOR MINOR START INC COUNT; PATH begins with a slash",
    "TABLE_TYPE": "TYPE is f, F, d, r, c, b or p",
    "TABLE_NUMBER": "MODE is octal, or -1 for f, F, r, d; UID, GID are numbers or root, the others numbers or -",
    "TABLE_COUNT": "COUNT is at most 65536",
    "TABLE_PATH": "a path in an image has at most 64 names",
    "TABLE_FILES": "all lines together make or set at most 1048576 files",
    "TABLE_FILE": "no file of this kind has this path, or a directory and another kind of file have it",
    "DEVICE_NO_TEXT": "a path or the text of a link has to be UTF-8 here",
}
# endings whose sentences depend on the cause
BY_CAUSE = ["changed", "path", "usage", "volume"]


def sentences():
    """Returns all sentences."""
    named = [it for table in (FAULTS, MANIFESTS, MISFITS, MISREADS) for _, it in table.values()]
    return named + [it for table in (PROGRAMS, CALLS, BAD_LINES, ENDINGS, REASONS) for it in table.values()]
