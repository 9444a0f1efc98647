"""Makes the release for boards, unpacks it into an empty directory, and builds and runs programs over what is there only.

tools/embedded makes it of the module of the proved build, unless another one is given. For each target boot.c, a program without a C
library, is linked over an image in each format, and run by an emulator of programs, if both are installed: it has to end with status
42. The archives for Arm are linked with programs of both float ABIs, and the one for kernels may not use the red zone or registers
that a kernel does not save. pkg-config and CMake find an archive. clang makes the library for another machine of the text of LLVM,
as OTHER-TARGETS.md says it, and node reads an image by the module of the page. Each function that the headers declare is in each
archive or in a file of src/. The passes over a sample of a module make what tools/to64.py says.
"""

import os
import re
import shutil
import sys
import tarfile
import tempfile

import c
import pytest
from files import bytes_in, put, repository_text, text_of
from harness import SECONDS

sys.path.insert(0, os.path.join(c.TOP, "tools"))

import to32  # noqa: E402
import to32_test  # noqa: E402
import to64  # noqa: E402

pytestmark = pytest.mark.needs("cc", "rt")
each_form = pytest.mark.parametrize("form", c.FORMATS)
BOOT = os.path.join(c.SOURCES, "board", "boot.c")
BARE = ["-std=c99", "-Os", "-ffreestanding", "-fno-builtin", "-fno-stack-protector", "-nostdlib", "-static", "-Wl,--gc-sections"]
WARNED = ["-Wall", "-Wextra", "-Werror"]
# an archive, the emulator, and the compiler with the machine of its programs; that of programs knows no Cortex-M, and has all its code
PROGRAMS = {
    "m0": ("thumbv6m", "qemu-arm", "arm-none-eabi-gcc", "-mthumb -mcpu=cortex-m0plus"),
    "m3": ("thumbv7m", "qemu-arm", "arm-none-eabi-gcc", "-mthumb -mcpu=cortex-m3"),
    "m4": ("thumbv7m", "qemu-arm", "arm-none-eabi-gcc", "-mthumb -mcpu=cortex-m4 -mfloat-abi=hard -mfpu=fpv4-sp-d16"),
    "m7": ("thumbv7m", "qemu-arm", "arm-none-eabi-gcc", "-mthumb -mcpu=cortex-m7 -mfloat-abi=hard -mfpu=fpv5-d16"),
    "m23": ("thumbv6m", "qemu-arm", "arm-none-eabi-gcc", "-mthumb -mcpu=cortex-m23"),
    "m33": ("thumbv7m", "qemu-arm", "arm-none-eabi-gcc", "-mthumb -mcpu=cortex-m33"),
    "a7": ("armv7a", "qemu-arm", "arm-none-eabi-gcc", "-march=armv7-a -marm -mfloat-abi=soft"),
    "a7 hard": ("armv7a", "qemu-arm", "arm-linux-gnueabihf-gcc", "-march=armv7-a -marm -mfpu=vfpv3-d16"),
    "aarch64": ("aarch64", "qemu-aarch64", "aarch64-linux-gnu-gcc", "-fno-pie -mgeneral-regs-only -mstrict-align"),
    "riscv32": ("riscv32", "qemu-riscv32", "riscv64-unknown-elf-gcc", "-march=rv32imac -mabi=ilp32 -mno-relax"),
    "riscv32f": ("riscv32f", "qemu-riscv32", "riscv64-unknown-elf-gcc", "-march=rv32imafc -mabi=ilp32f -mno-relax"),
    "riscv64": ("riscv64", "qemu-riscv64", "riscv64-unknown-elf-gcc", "-march=rv64imac -mabi=lp64 -mcmodel=medany -mno-relax"),
    "riscv64d": ("riscv64d", "qemu-riscv64", "riscv64-unknown-elf-gcc", "-march=rv64gc -mabi=lp64d -mcmodel=medany -mno-relax"),
    "kernel": ("x86_64-kernel", "qemu-x86_64", "cc", "-fno-pie -mno-red-zone -mgeneral-regs-only"),
}
MIPS = ["clang", "--target=mipsel-linux-gnu", "-fno-pic", "-mno-abicalls", "-mno-gpopt"]
CMAKE = """cmake_minimum_required(VERSION 3.13)
project(boot C)
set(ROMTOOL_TARGET thumbv7m)
set(ROMTOOL_WIDE ON)
find_package(romtool %s REQUIRED)
add_executable(boot boot.c)
target_link_libraries(boot romtool::romtool romtool::area romtool::bytes gcc)
"""
READS = """import { readFileSync } from "node:fs";
import { Reader } from "%s/web/reader.mjs";
const reader = await Reader.of(readFileSync("%s/web/romtool.wasm")), image = readFileSync("romfs");
reader.room(image.length);
reader.write(0, image);
const found = reader.check();
console.log(found.error, reader.stat(new TextEncoder().encode("/d/link"), true).size);
"""
# what a module for 64 bits has of the sample of tools/to32_test.py, and what it lacks
WIDE = (
    "define void @romtool_stat_v3(ptr sret([36 x i8]) align 4 %0, ptr %1, ptr %2, i64 %3, i1 %4) nounwind {\n",
    "  %got = call ptr @rom64.stat_v3(ptr %0, ptr %1, ptr %2, i64 %3, i1 %4)\n",
    "define void @romtool_fstat_v3(ptr sret([36 x i8]) align 4 %0, ptr %1) nounwind {",
    "define internal ptr @rom64.stat_node_v3(",
    "define signext i32 @romtool_check_v3(",
    "define i64 @romtool_lookup_v3(",
    "define { i64, i64 } @romtool_map_v3(",
    "define zeroext i1 @romtool_is_node_v3(",
    "define i64 @romtool_links_v3(",
    "define void @romtool_numbers_v3(",
    "define signext i32 @romtool_library_version(",
)
# changes of the sample that are refused
REFUSED = (
    ("define i32 @romtool_seek_v3(ptr %0", "define i16 @romtool_seek_v3(ptr %0"),
    ("define i64 @romtool_lookup_v3(", "define { i32, i32 } @romtool_lookup_v3("),
    ("i64 %2, i1 noundef %3)", "i64 %2, i1 zeroext %3)"), ("@romtool_seek_v3(ptr %0, i64 %1)", "@romtool_sought_v3(ptr %0, i64 %1)"),
)  # fmt: skip
# lines of LLVM 22, and as each release reads them
PLAIN = (
    ("  %a = ptrtoaddr ptr %p to i64", "  %a = ptrtoint ptr %p to i64"),
    ("  %a = getelementptr inbounds nuw i8, ptr %p, i64 %n", "  %a = getelementptr inbounds i8, ptr %p, i64 %n"),
    ("  %a = getelementptr nuw i8, ptr %p, i64 8", "  %a = getelementptr i8, ptr %p, i64 8"),
    ("  %a = zext nneg i32 %n to i64", "  %a = zext i32 %n to i64"),
    ("  %a = trunc nuw nsw i64 %n to i8", "  %a = trunc i64 %n to i8"),
    ("  %a = icmp samesign ult i64 %n, 4", "  %a = icmp ult i64 %n, 4"),
    ("  %a = or disjoint i64 %n, 4", "  %a = or i64 %n, 4"),
    ("  store <2 x i8> splat (i8 -1), ptr %p, align 1", "  store <2 x i8> <i8 -1, i8 -1>, ptr %p, align 1"),
    (
        "declare void @llvm.memset.p0.i64(ptr writeonly captures(none), i8, i64, i1 immarg) #3",
        "declare void @llvm.memset.p0.i64(ptr, i8, i64, i1)",
    ),
    ("attributes #3 = { nocallback nounwind memory(argmem: write) }", "attributes #3 = { nounwind }"),
    ("attributes #4 = { memory(none) }", "attributes #4 = { nounwind }"),
    ("define internal i8 @f(ptr captures(none) %p, i32 range(i32 0, 5) %n) #0 {", "define internal i8 @f(ptr %p, i32 %n) #0 {"),
)
# the words of OTHER-TARGETS.md for a clang as old as Debian's
OLD_CLANG = ["-mllvm", "-opaque-pointers", "-Xclang", "-disable-llvm-passes"]


@pytest.fixture(scope="session")
def release(pytestconfig):
    """The directory to which the release is unpacked."""
    module = pytestconfig.option.module
    with tempfile.TemporaryDirectory(prefix="romtool-") as top:
        made = c.said([c.TOP + "/tools/embedded", *(["--module", os.path.abspath(module)] if module else []), top + "/made"])
        assert made.returncode == 0, made.stdout
        (name,) = os.listdir(top + "/made")
        with tarfile.open(f"{top}/made/{name}") as archive:
            archive.extractall(top)
        yield os.path.join(top, name.removesuffix(".tar.gz"))


@pytest.fixture
def image_header(forms, room):
    """Writes boot.c, and image.h of an image, whose facts are those of the directory that was built."""

    def written(form):
        held = ", ".join(map(str, bytes_in(f"{forms}/{form}")))
        put(room / "image.h", b"#define SIZE %du\n#define SUM %du\n#define IMAGE %s\n" % (len(c.CONTENT), sum(c.CONTENT), held.encode()))

    shutil.copy(BOOT, room)
    return written


@pytest.fixture
def runs(image_header, room, counts):
    """Links boot.c by words for a compiler over an image, and runs it."""

    def ran(form, words, *emulator):
        image_header(form)
        c.compiled([*words, f"-I{room}", "-o", room / "boot"], counts)
        done = c.said([*emulator, room / "boot"], timeout=SECONDS)
        assert (done.returncode, done.stdout) == (42, b"")

    return ran


# the module for 64 bits


def test_wide_calls():
    """Makes of a sample what a module for 64 bits has."""
    text = to64.to64(to32_test.SAMPLE)
    assert [it for it in WIDE if it not in text] == []
    assert [it for it in ("target triple", "target datalayout") if it in text] == []


def test_no_red_zone():
    """Makes functions without a red zone."""
    text = to64.to64(to32_test.SAMPLE, red_zone=False)
    assert [it for it in re.findall(r"^(?:define|attributes).*$", text, re.M) if "noredzone" not in it and " #0 {" not in it] == []


@pytest.mark.parametrize(("old", "new"), REFUSED, ids=["type", "pair", "flag", "name"])
def test_refused(old, new):
    """Refuses a line that is not known."""
    assert old in to32_test.SAMPLE
    with pytest.raises(to32.Refused):
        to64.to64(to32_test.SAMPLE.replace(old, new))


@pytest.mark.parametrize(("line", "wanted"), PLAIN, ids=map(str, range(len(PLAIN))))
def test_plain(line, wanted):
    """Writes a line as each release of LLVM reads it."""
    assert to64.plain(line + "\n") == wanted + "\n"


# programs


@pytest.mark.parametrize("name", PROGRAMS)
@each_form
def test_programs(release, runs, form, name):
    """Runs a program over each archive of a target."""
    target, emulator, compiler, words = PROGRAMS[name]
    for tool in (compiler, emulator):
        if not shutil.which(tool):
            pytest.skip("it needs " + tool)
    there = [it for it in ("libromtool.a", "libromtool_wide.a") if os.path.exists(f"{release}/lib/{target}/{it}")]
    assert there
    for archive in there:
        sources = [BOOT, release + "/src/area.c", release + "/src/bytes.c", f"{release}/lib/{target}/{archive}", "-lgcc"]
        words_of = [compiler, *words.split(), *BARE, *WARNED, f"-I{release}/include", *sources]
        runs(form, words_of, emulator, *["-cpu", "qemu64"] * (name == "kernel"))


@pytest.mark.needs("objdump")
def test_for_kernels(release):
    """Uses neither the red zone nor registers that a kernel does not save in the archive for kernels."""
    text = c.said(["objdump", "-d", "--no-show-raw-insn", release + "/lib/x86_64-kernel/libromtool.a"]).stdout.decode()
    assert text.count("\n") > 1000
    used = re.findall(r"^.*(?:-0x[0-9a-f]+\(%rsp\)|%[xyz]mm\d|%st\b|%mm\d).*$", text, re.M)
    assert used == []


@pytest.mark.needs("nm")
def test_headers(release):
    """Has each function that the headers declare in each archive, or in src/area.c."""
    texts = [text_of(f"{release}/include/{it}") for it in ("romtool.h", "romtool_32.h", "romtool_heap.h")]
    text = "".join(re.sub(r"/\*.*?\*/|static inline [^{;]*\{", "", it, flags=re.S) for it in texts)
    number = re.search(r"^#define ROMTOOL_INTERFACE (\d+)$", text, re.M)[1]
    declared = set(re.findall(r"^(?:struct )?\w+ ((?:romtool|rattle)_\w+)\([^;{()]*\);", text, re.M))
    declared |= {it + "_v" + number for it in re.findall(r'ROMTOOL_(?:SYMBOL|RETURNS)\("(\w+)"\);', text)}
    of_area = set(re.findall(r"\b((?:romtool|rattle)_\w+)\([^;{()]*\) \{", text_of(release + "/src/area.c")))
    assert len(declared) > 25
    lacking = {}
    for target in sorted(set(os.listdir(release + "/lib")) - {"wasm32", "cmake", "pkgconfig"}):  # nm of Debian reads no WebAssembly
        has = set(re.findall(r" T (\w+)", c.said(["nm", f"{release}/lib/{target}/libromtool.a"]).stdout.decode()))
        through = {it.removeprefix("rom32_") for it in has if it.startswith("rom32_")}
        wanted = {it for it in declared if it.removeprefix("romtool_") not in through}
        wanted -= set() if through else {it for it in wanted if it.startswith("rom32_")}
        lacking[target] = sorted(wanted - has - of_area)
    assert lacking and {target: it for target, it in lacking.items() if it} == {}


M3 = ["-mthumb", "-mcpu=cortex-m3"]


@pytest.mark.needs("arm-none-eabi-gcc", "qemu-arm", "pkg-config")
@each_form
def test_pkg_config(release, runs, form):
    """Runs a program over the archive that pkg-config finds."""
    place = {**os.environ, "PKG_CONFIG_PATH": release + "/lib/pkgconfig"}
    flags = c.said(["pkg-config", "--cflags", "--libs", "romtool-thumbv7m"], env=place).stdout.decode().split()
    sources = c.said(["pkg-config", "--variable=sources", "romtool-thumbv7m"], env=place).stdout.decode().strip()
    words = ["arm-none-eabi-gcc", *M3, *BARE, BOOT, sources + "/area.c", sources + "/bytes.c", *flags, "-lgcc"]
    runs(form, words, "qemu-arm")


@pytest.mark.needs("arm-none-eabi-gcc", "qemu-arm", "cmake")
def test_cmake(release, image_header, room):
    """Runs a program over the archive that CMake finds."""
    image_header("cramfs")
    put(room / "CMakeLists.txt", (CMAKE % re.search(r"embedded-([\d.]+)$", release)[1]).encode())
    words = ["cmake", "-S", room, "-B", room / "made", "-DCMAKE_PREFIX_PATH=" + release, "-DCMAKE_SYSTEM_NAME=Generic",
             "-DCMAKE_C_COMPILER=arm-none-eabi-gcc", "-DCMAKE_TRY_COMPILE_TARGET_TYPE=STATIC_LIBRARY",
             "-DCMAKE_C_FLAGS=" + " ".join([*M3, *BARE, f"-I{room}"])]  # fmt: skip
    for command in words, ["cmake", "--build", room / "made"]:
        done = c.said(command)
        assert done.returncode == 0, done.stdout
    assert c.said(["qemu-arm", room / "made" / "boot"]).returncode == 42


@pytest.mark.needs("clang", "ld.lld", "qemu-mipsel")
@each_form
def test_other_target(release, runs, room, counts, form):
    """Makes by clang the library for a machine that has no archive, as OTHER-TARGETS.md says."""
    told = re.search(r"^    clang --target=TRIPLE FLAGS (.*) llvm/romtool32.ll", text_of(release + "/OTHER-TARGETS.md"), re.M)[1].split()
    version = int(re.search(r"version (\d+)", c.said(["clang", "--version"]).stdout.decode())[1])
    old = OLD_CLANG if version < 15 else []
    c.compiled([*MIPS, *told, *old, release + "/llvm/romtool32.ll", "-o", room / "mips.o"], counts)
    words = [*MIPS, *BARE, *WARNED, "-fuse-ld=lld", f"-I{release}/include", BOOT]
    runs(form, [*words, release + "/src/area.c", release + "/src/bytes.c", room / "mips.o"], "qemu-mipsel")


@pytest.mark.needs("node")
def test_in_node(release, forms, room):
    """Reads an image by the module of the page, which has it."""
    put(room / "reads.mjs", (READS % (release, release)).encode())
    assert c.said(["node", room / "reads.mjs"], cwd=forms).stdout == b"0 %d\n" % len(c.CONTENT)


@pytest.mark.needs("arm-none-eabi-gcc")
@pytest.mark.parametrize("name", c.GLUE)
def test_recipes(release, room, counts, name):
    """Compiles a recipe over the headers of the release, with stubs of the system's headers, for a machine of 32 bits."""
    recipe, program = c.GLUE[name]
    folder = os.path.join(release, "recipes", name)
    words = ["arm-none-eabi-gcc", "-mthumb", "-mcpu=cortex-m33", "-std=gnu99", *WARNED, f"-I{release}/include", "-I" + folder]
    words += ["-Dloff_t=long long", "-I" + os.path.dirname(program), "-c", os.path.join(folder, os.path.basename(recipe))]
    c.compiled([*words, "-o", room / "recipe.o"], counts)


# documents


@pytest.fixture(scope="session")
def texts(release):
    """The documents of the release, by their names."""
    paths = [os.path.join(at, it) for at, _, names in os.walk(release) for it in names if it.endswith(".md")]
    return {os.path.relpath(it, release): text_of(it) for it in paths}


def test_documents(texts):
    """Has these documents."""
    assert sorted(texts) == ["OTHER-TARGETS.md", "README.md", "TARGETS.md", "docs/C.md", "docs/FAULTS.md"]


@pytest.mark.parametrize("name", ["OTHER-TARGETS.md", "README.md", "TARGETS.md", "docs/C.md", "docs/FAULTS.md"])
def test_links(release, texts, name):
    """Has each value in a document, and no link that leads out of the release."""
    assert re.findall(r"@[A-Z]+@", texts[name]) == []
    links = [it for it in re.findall(r"\]\(([^)#:\s]+)[^):]*\)", texts[name]) if "//" not in it]
    assert [it for it in links if not os.path.exists(os.path.join(release, os.path.dirname(name), it))] == []


def test_targets(release, texts):
    """Has a row of TARGETS.md for each archive, sizes that rise, the stack of docs/C.md, and each Cortex-M."""
    text = texts["TARGETS.md"]
    measured = re.findall(r"^\| Cortex-M3 .*$", repository_text("docs/C.md"), re.M)
    assert re.findall(r"^\| Cortex-M3 .*$", text, re.M) == measured
    told = set(re.findall(r"cortex-m\d+", text)) - {"cortex-m4", "cortex-m7"}
    assert told == {"cortex-m" + it for it in ("0", "1", "3", "23", "33", "55")}
    rows = re.findall(r"^\| `(lib/\S+)` \| [^|]+ \|((?: [\d,]+ \|)+)$", text, re.M)
    there = [os.path.join(at, it) for at, _, names in os.walk(release + "/lib") for it in names if it.endswith(".a")]
    assert sorted(it for it, _ in rows) == sorted(os.path.relpath(it, release) for it in there)
    for name, sizes in rows:
        numbers = [int(it) for it in re.findall(r"[\d]+", sizes.replace(",", ""))]
        assert 1000 < numbers[0] < numbers[1] < numbers[2] < 400000, name


def test_readme(release, texts, room, counts):
    """Has a short README.md, whose example compiles."""
    assert len(texts["README.md"].splitlines()) <= 60
    put(room / "example.c", re.search(r"```c\n(.*?)```", texts["README.md"], re.S)[1].encode())
    words = ["-std=c99", *WARNED, "-Wno-missing-prototypes", f"-I{release}/include", "-c", room / "example.c", "-o", room / "example.o"]
    c.compiled(["cc", *words], counts)
