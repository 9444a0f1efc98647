"""Names for each option of each command the case that fails if the program ignores it: a case of tests/cases (see run.py), or a test in
pytest. For `--explain` the case has a run of the command that is explained. test_options.py tests that each of them fails.

A test in pytest is run by a program that leaves out the option, `without`, so it starts the program itself, and not under `strace`.
"""

MOST = "options/images-of-more-bytes-than-max-size"
EXTENTS, READING, SCAN, PACK = (
    "extents/extents-of-hello",
    "options/options-of-reading",
    "options/options-of-scan",
    "options/options-of-pack",
)
CASES = {
    "check": {"--each": "program/check-of-each", "--max-size": "program/check-of-each", "--explain": "cramfs/neither-format"},
    "list": {"--max-size": MOST, "--explain": "cramfs/neither-format"},
    "info": {"--size": "info/info-of-hello", "--max-size": MOST, "--explain": "info/info-of-hello"},
    "map": {
        "--base": "map/map-of-hello", "--all": EXTENTS, "--c": EXTENTS, "--ld": "test_extents.py::test_only",
        "--prefix": "test_extents.py::test_prefix", "--only": "test_extents.py::test_only",
        "--svg": "test_extents.py::test_picture[tricky names]", "--max-size": MOST, "--explain": EXTENTS,
    },
    "which": {"--base": EXTENTS, "--max-size": MOST, "--explain": EXTENTS},
    "diff": {"--tree": READING, "--max-size": MOST, "--explain": "digest/diff-of-hello"},
    "digest": {"--image": "digest/digest-of-hello", "--max-size": MOST, "--explain": "digest/digest-of-hello"},
    "verify": {"--offset": "digest/verify-hello", "--max-size": MOST, "--explain": "digest/verify-hello"},
    "numbers": {"--c": "test_reading.py::test_numbers[romfs]", "--max-size": MOST, "--explain": MOST},
    "cat": {"--max-size": MOST, "--explain": "map/cat-of-hello"},
    "linux": {"--needs": "test_needs.py::test_each_name", "--max-size": MOST, "--explain": "map/linux-of-cramfs-files"},
    "xip": {"--base": READING, "--no-mmu": READING, "--advice": READING, "--max-size": MOST, "--explain": READING},
    "serve": {"--max-size": MOST, "--explain": MOST},
    "space": {"--max-size": MOST, "--explain": MOST},
    "build": {
        "--no-follow": "options/source-that-is-a-link", "--strict": "build/strict-builds", "--xip": "build/xip-in-romfs",
        "--needs": "test_needs.py::test_refused_builds",
        "--max-size": "build/a-length-that-is-too-large", "--size": "build/partition-of-the-image",
        "--fill": "build/partition-of-the-image", "--directory": "build/manifest-on-standard-input-and-sources-in-a-directory",
        "--depfile": "build/manifest-on-standard-input-and-sources-in-a-directory", "--explain": "build/romfs-owner-refused",
    },
    "pack": {
        "--align": PACK, "--owner": PACK, "--all-root": "test_packing.py::test_owners", "--exclude": PACK, "--volume": PACK,
        "--devices": PACK, "--device-table": PACK, "--device": PACK, "--dedupe": PACK, "--strict": PACK, "--xip": PACK,
        "--needs": "test_needs.py::test_packed",
        "--one-file-system": "test_edge_scan.py::test_packed_on_one_file_system", "--max-size": PACK, "--size": PACK, "--fill": PACK,
        "--depfile": PACK, "--manifest": PACK, "--quiet": PACK, "--explain": "test_pack.py::test_words_in_quiet",
    },
    "scan": {
        "--all": SCAN, "--for": SCAN, "--align": SCAN, "--owner": SCAN, "--all-root": "test_packing.py::test_owners", "--exclude": SCAN,
        "--volume": SCAN, "--devices": SCAN, "--device-table": SCAN, "--device": SCAN, "--dedupe": SCAN, "--output": SCAN,
        "--depfile": SCAN, "--one-file-system": "test_edge_scan.py::test_on_one_file_system[scan]", "--strict": SCAN,
        "--explain": "scan/scan-a-file",
    },
    "extract": {
        "--align": "options/alignment-of-an-extracted-program", "--owners": "test_extract.py::test_owners[words0-1-4095]",
        "--no-sync": "test_extract.py::test_no_syncs", "--max-size": MOST, "--explain": "info/info-and-extract-words",
    },
    "version": {"--explain": "program/usage-version-word"},
}  # fmt: skip


def without(words, command, names, has_value):
    """Returns the words of a run without an option of a command, which has these names, and with each use of it its value."""
    if not words or words[0] != command:
        return list(words)
    left, words = [], iter(words)
    for word in words:
        if word == "--":
            return [*left, word, *words]
        if word in names:
            if has_value:
                next(words, None)
        elif not (has_value and word.partition("=")[0] in names):
            left.append(word)
    return left
