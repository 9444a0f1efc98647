#!/usr/bin/env python3
"""Tests the tests in pytest: plants errors in the program, each of which a test has to find.

    planted.py [--binary PATH] [--name TEXT]

An error is a script around the program that changes what a command printed (the file $out), what it said on standard error
(the file $err), its status, or what it wrote; a script or a C program that does something else before it becomes the program, so that
its calls can be traced; or other functions in place of those of the C library (`calls`). The tests of one file, or one test, are run on
it until one fails. A program that changes nothing is planted first, in which no test may find an error. No part of ./test runs this:
run it after a change of these tests. The last line is `N passed, M failed`.
"""

import os
import subprocess
import sys
import tempfile

from files import put
from harness import HERE, Counts, parser, program_of

SCRIPT = """#!/bin/sh
romtool=%s
case "$*" in
%s) [ -p /dev/fd/1 ] && [ -p /dev/fd/2 ] || exec $romtool "$@" ;;
*) exec $romtool "$@" ;;
esac
top=$(mktemp -d) && out=$top/out && err=$top/err
$romtool "$@" >$out 2>$err
status=$?
%s
cat $out; cat $err >&2; rm -r $top; exit $status
"""
BEFORE = """#!/bin/sh
romtool=%s
case "$*" in
%s) %s ;;
esac
exec $romtool "$@"
"""
PROGRAM = """#include <stdio.h>
#include <stdlib.h>
#include <sys/resource.h>
#include <unistd.h>
int main(int count, char **words) {
    struct rlimit limit;
    if (getenv("LD_PRELOAD") && !malloc(1)) { %s }
    if (!getrlimit(RLIMIT_AS, &limit) && limit.rlim_cur >> 24 == 0) { %s }
    unsetenv("LD_PRELOAD");
    return execv("%s", words);
}
"""
# starts the script, but the program itself under strace and in a test that loads a library into it
STARTER = """#include <stdio.h>
#include <stdlib.h>
#include <string.h>
#include <unistd.h>
int main(int count, char **words) {
    char of_parent[40], parent[4096] = "";
    sprintf(of_parent, "/proc/%%d/exe", getppid());
    int is_traced = readlink(of_parent, parent, sizeof parent - 1) > 0 && strstr(parent, "strace");
    if (!is_traced && !getenv("LD_PRELOAD")) execv("%s", words);
    static char both[10000];
    sprintf(both, "%s:%%s", getenv("LD_PRELOAD") ? getenv("LD_PRELOAD") : "");
    if (*both != ':') setenv("LD_PRELOAD", both, 1);
    return execv("%s", words);
}
"""
LIBRARY = """#define _GNU_SOURCE
#include <dlfcn.h>
#include <errno.h>
#include <fcntl.h>
#include <stdarg.h>
#include <stdlib.h>
#include <string.h>
#include <sys/stat.h>
#include <time.h>
#include <unistd.h>
#define REAL(name) ((__typeof__(&name))dlsym(RTLD_NEXT, #name))
%s
"""
MEMORY = 'fputs("memory\\n", stderr); return 3;'
OPEN = "int open(const char *path, int flags, ...) { va_list it; va_start(it, flags); int mode = va_arg(it, int); %s }"
STATX = "int statx(int at, const char *path, int flags, unsigned mask, struct statx *it) { %s }"
STAT = STATX % "int got = REAL(statx)(at, path, flags, mask, it); %s return got;"
# the state of the source `s` that is asked of its name is always, or after a pause, the first one
LOOK = 'static struct statx s; if (!strcmp(path, "s") && S_ISREG(it->stx_mode)) { if (!s.stx_mask || !(%s)) s = *it; *it = s; }'
SLEEP = "int late; int nanosleep(const struct timespec *it, struct timespec *left) { late = 1; return REAL(nanosleep)(it, left); }\n"
WRITE = "ssize_t write(int file, const void *from, size_t count) { ssize_t got = REAL(write)(file, from, count); %s }"
LEFT_OUT = "many_files or root_that_may_not_be_listed"  # a test that takes a minute, and one that copies the program elsewhere
TO_OUTPUT = "cat $err >>$out; : >$err"
SWAPPED = "sed -i '2{h;d};3{G}' $out"
UNSAID = "exec 2>/dev/null"
# what does something before it becomes the program, and what is the script itself, also under fakeroot
IS_BEFORE, IS_SCRIPT = ("edge_scan",), ("pack", "scan_all")
# the file of tests, or a test in it -> the words of the program, and what is changed
ERRORS = {
    "cases::test_plain": (
        ("info *", "sed -i 's/^depth 1/depth 2/' $out"),
        ("which *", "truncate -s -1 $out"),
        ("digest *", "echo more >>$err"),
        ("digest *", ": >$err"),
        ("verify *", "[ $status = 1 ] && status=0"),
        ("build cramfs manifest out", "printf x | dd of=$4 bs=1 seek=40 conv=notrunc 2>/dev/null"),
        ("build romfs manifest out", "[ $status = 1 ] && [ ! -e $4 ] && : >$4"),
        ("serve *", "cat >/dev/null"),
        ("space *", "sed -i 's/ ENOENT/ ENOTDIR/' $out"),
        ("check out", "echo fault >$err"),
    ),
    "cases::test_turned": (
        ("check *", "sed -i 's/cramfs-be/cramfs/' $out"),
        ("list *", "sed -i '$d' $out"),
        ("check *", "sed -i 's/ at 4$/ at 8/' $out"),
        ("check *", "[ $status = 1 ] && status=0"),
    ),
    "cases::test_explained": (
        ("--explain info *", "sed -i /^romtool:/d $err"),
        ("--explain info *", "sed -i '/^depth/s/$/0/' $out"),
        ("--explain space *", "sed -i 's/stdin:1:/stdin:2:/' $err"),
        ("--explain build *", "sed -i 's/ ([0-9]*): / (77): /' $err"),
        ("--explain build *", "sed -i '1d' $err"),
        ("--explain scan *", "sed -i 's/goes with/needs/' $err"),
        ("--explain fly", "sed -i '/^error/d' $err"),
        ("--explain digest *", "echo romtool: image: hello >>$err"),
        ("--explain verify *", "[ $status = 1 ] && status=0"),
    ),
    "refusals": (
        ("memory", "return 3;"),
        ("memory", 'fputs("memory\\n", stderr); return 1;'),
        ("memory", 'fputs("memory\\n", stderr); puts("ok romfs"); return 3;'),
        ("memory", 'puts("memory"); return 3;'),
        ("memory", 'fputs("no memory\\n", stderr); return 3;'),
        ("memory", "abort();"),
        ("limit", "return 3;"),
        ("limit", 'puts("fault"); return 1;'),
    ),
    "manifests": (
        ("list *", "sed -i 3d $out"),
        ("list *", SWAPPED),
        ("list *", r"sed -i 's/^\([0-9]* s\) [0-7]*/\1 0000/' $out"),
        ("list *", "sed -i 's/%25/%/' $out"),
        ("list *", r"sed -i 's/^\([0-9]* c .*\) \([0-9]*\) \([0-9]*\) \(.*\)$/\1 \3 \2 \4/' $out"),
        ("check *", "grep -q cramfs-be $out && echo fault 3 Magic at 0 >$out && status=1"),
        ("serve *", r"sed -i 's/^\(ok [0-9]* [0-9]*\) \(.\)\(.\)/\1 \3\2/' $out"),
        ("serve *", r"sed -i 's/^\(ok [0-9]*\)[0-8] \([0-9]* ..\)/\19 \2/' $out"),
        ("serve *", "sed -i 2d $out"),
        ("build romfs *", "printf x | dd of=$4 bs=1 seek=$(($(stat -c %s $4) - 17)) conv=notrunc 2>$err; : >$err"),
    ),
    "digest": (
        ("digest *", r"sed -i 's/^\\//' $out"),
        ("digest *", "sed -i '2s/^./x/' $out"),
        ("digest *", "sed -i '$d' $out"),
        ("digest *", SWAPPED),
        ("digest *", "[ $status = 0 ] && [ -s $out ] && status=1"),
        ("digest *", r"sed -i 's/\\n/\\r/' $out"),
        ("digest --image *", "sed -i 's/-$/image/' $out"),
        ("digest --image *", "[ $status = 0 ] && sha256sum <$3 >$out"),
        ("verify *", "sed -i '/^differ/s/$/0/' $out"),
        ("verify *", "grep -q differ $out && status=0"),
        ("verify *", "[ $status = 1 ] && [ -s $err ] && echo ok 0 >$out"),
        ("verify *stdin", "sed -i 's/ok/differ/' $out"),
        ("digest *", TO_OUTPUT),
        ("--explain verify *", "sed -i /--offset/d $err"),
    ),
    "diff": (
        ("diff *", "sed -i '$d' $out"),
        ("diff *", "sed -i 's/^+/~/;s/^-/+/;s/^~/-/' $out"),
        ("diff *", "[ -s $out ] && status=0"),
        ("diff --tree *", "$romtool diff $3 $4 >$out"),
        ("diff *", "sed -i '/^@/s/$/0/' $out"),
        ("diff *", r"sed -i '/^m/s/ \([^ ]*\) \([^ ]*\)$/ \2 \1/' $out"),
        ("diff *", r"sed -i '/^c .* \([0-9]*\) \1$/d' $out"),
        ("diff *", SWAPPED),
        ("diff *", TO_OUTPUT),
        ("diff *", "[ -s $err ] && status=3"),
        ("diff *", ": >$err"),
    ),
    "info": (
        ("info *", "sed -i '/^gaps/s/$/0/' $out"),
        ("info *", "sed -i /^volume/d $out"),
        ("info *", "sed -i /^flags/d $out"),
        ("info *", r"sed -i '/^sum/s/0x\(.*\)/0x\U\1/' $out"),
        ("info *", "sed -i '/^size/{p;s/size/file/};/^file [0-9]*$/{x;/./d;x;h}' $out"),
        ("info *", "sed -i '/^references/{h;d};/^depth/{G}' $out"),
        ("info *", "sed -i 's/^others 1$/others 0/' $out"),
        ("info *", "[ $status = 1 ] && status=0"),
        ("info *", TO_OUTPUT),
        ("info *", ": >$err"),
    ),
    "scan_all": (
        ("scan --all *", "sed -i '0,/^hard/{/^hard/d}' $out"),
        ("scan --all *", "sed -i 's/%25/%/' $out"),
        ("scan --all *", "sed -i 's,/link%20b$,,' $err"),
        ("scan --all *", "[ $status = 3 ] && status=1"),
        ("scan --all *", SWAPPED),
        ("scan --all --for romfs *", "sed -i 's/^\\(file .*\\) 0755 0 0/\\1 0744 0 0/' $out"),
        ("scan --all --for cramfs *", "sed -i 's/ 65535 255 / 65535 0 /' $out"),
        ("scan --all *--align*", "sed -i 's/ 65536 / 4 /' $out"),
        ("list image", "sed -i '$d' $out"),
        ("list image", "sed -i 's/ l \\([0-7]*\\) 7 8 / l \\1 7 7 /' $out"),
        ("list image", "sed -i 's/^[0-9]* \\(f .*again\\)/16 \\1/' $out"),
        ("serve image", "sed -i 's/^ok 5 00/ok 5 01/' $out"),
        ("serve image", "sed -i 's/^ok \\([0-9]*\\)[0-9] 1 /ok \\11 1 /' $out"),
        ("build *", "[ $status = 0 ] && echo warning >>$err"),
    ),
    "packing": (
        ("scan --all *--exclude*", "sed -i '$d' $out"),
        ("scan --all *--exclude*", "grep -q ^dir $out && $romtool scan --all top >$out 2>$err"),
        ("scan --all *--align*=*", "sed -i 's/ 64 / 4 /' $out"),
        ("scan --all *--align*4096*", "sed -i 's/ 4 \\(.*exact\\)/ 4096 \\1/;s/ 4096 \\(.*exact\\)/ 4 \\1/' $out"),
        ("scan --all *--volume*", "sed -i 1d $out"),
        ("scan --all *--owner*", "sed -i 's/ 65535 255/ 65535 65535/' $out"),
        ("scan --all *-o there*", "[ $status = 3 ] && : >there"),
        ("scan --all *-o there*", "[ $status = 0 ] && chmod 644 there"),
        ("scan --all *-o *", "[ $status = 3 ] && : >.there.romtool-0.part"),
        ("scan --all *-o over/out*", "sed -i 's,/out,,' $err"),
        ("scan --all *--devices*", "sed -i 's/4 NoParent/5 Exists/' $err"),
        ("scan --all *--devices*", "sed -i '/^sock/d' $out"),
        ("scan --all *--devices*", "sed -i 's/ 4750 / 0750 /' $out"),
        ("scan --all *--device *", "sed -i 's/^nod \\(.*\\) b 8 1$/nod \\1 b 1 8/' $out"),
        ("scan --all *--device *", "sed -i 's/4 NoParent/5 Exists/' $err"),
        ("scan --all *--device-table*", "sed -i 's/2 BadNumber/1 BadWord/' $err"),
        ("scan --all *--device-table*", "sed -i 's/hda3/hda2/' $out"),
        ("scan --all *--device-table*", "sed -i 's/^slink \\(.*\\) 0 0 a/slink \\1 9 9 a/' $out"),
        ("scan --all *--device-table*", "sed -i 's/ b 1 10$/ b 1 6/' $out"),
        ("scan --all *--device-table*", "sed -i 's,^dir /srv2 0755 0 0,dir /srv2 0755 3 4,' $out"),
        ("scan --all *--devices*", "sed -i 's,^file /b 4711 7 8,file /b 0644 0 0,' $out"),
        ("scan --all *lower upper", "sed -i 's,upper/x,lower/x,' $err"),
        ("scan --all *--all-root*", "sed -i 's/ 0 0/ 7 8/' $out"),
        ("scan --all *--strict*", "sed -i 's/^unfit 6/unfit 5/' $err"),
        ("--explain scan --all *", "sed -i '/newly readable/d' $err"),
        ("scan --all *--dedupe*", "sed -i 's,^file /e .*,same /e 0644 0 0 /f,' $out"),
        ("scan --all *--depfile*", "sed -i /list/d rule"),
        ("pack *--dedupe*", "[ $status = 3 ] && status=1"),
        ("pack *--depfile*", "sed -i s,rows/srv/a,, rule"),
        ("scan --all *", "sed -i '2,$d' $err"),
        ("scan --all *", "grep -q usage $err && status=1"),
    ),
    "reading::test_most": (
        ("verify --max-size *", "[ $status = 3 ] && status=1"),
        ("space --max-size *", "sed -i 's/image/other/' $err"),
        ("extract --max-size *", "[ $status = 3 ] && mkdir to"),
        ("list image", "[ $status = 3 ] && : >$err && status=0"),
    ),
    "reading::test_most_of_a_cut_image": (("which --max-size *", "[ $status = 1 ] && echo file image >$err && status=3"),),
    "reading::test_numbers": (("numbers --c *", "sed -i 's/, 0,/, 1,/' $out"),),
    "pack": (
        ("pack *--size *", "[ $status = 0 ] && truncate -s -1 out"),
        ("pack *", "[ $status = 1 ] && : >out"),
        ("pack *", "sed -i 's/^size 1024 9/size 1024 8/' $out"),
        ("pack *", "sed -i 's/^usage/file there/' $err"),
        ("pack *", "[ $status = 3 ] && : >small/rule"),
        ("pack *", "[ $status = 3 ] && : >there"),
        ("pack *", "[ $status = 1 ] && status=0"),
        ("pack --all-root *", "sed -i '/the largest/d' $err"),
        ("pack --all-root *", "sed -i 's/  the image/  image/' $err"),
        ("pack *--xip *", "sed -i 's/in place: 2 of 2/in place: 3 of 2/' $err"),
        ("pack *--manifest kept *", "sed -i '$d' kept"),
        ("pack *--depfile rule *", "sed -i 's,tree/sub/b,,' rule"),
        ("pack *--depfile ../rule *", "sed -i 's,sub/b,,' ../rule"),
        ("pack --quiet *", "echo packed >>$err"),
        ("build --size *", "truncate -s 2047 out"),
        ("scan --all faked", "status=0"),
        ("scan --all under", "sed -i 's/ 5 6/ 0 0/' $out"),
    ),
    "pack_tar": (
        ("pack --quiet --strict *", "[ $status = 0 ] && $romtool pack --quiet --all-root $5 $6 $7 >>$err"),
        ("pack *", "[ $status = 1 ] && : >out"),
    ),
    "edge_scan::test_each_call_failed": (
        ("scan --all in", UNSAID),
        ("scan in", "set -- scan --all in"),
        ("scan --all --for *", "set -- scan --all --for romfs in"),
    ),
    "edge_scan::test_refusal_that_is_not_taken": (("scan none", "set -- scan"), ("scan --all none", "exit 0")),
    "edge_scan::test_memory_that_ends": (("scan --all in", UNSAID), ("scan in", "set -- scan --exclude none in")),
    "edge_scan::test_each_write_failed": (("scan --all in", UNSAID), ("scan in", "set -- scan --all in")),
    "edge_scan::test_room_that_ends": (("scan --all in", "exec 2>&1"), ("scan in", "$romtool scan in; exec $romtool scan in 2>/dev/null")),
    "edge_scan::test_readers_that_leave": (("scan --all in", UNSAID), ("scan in", "exec $romtool scan in | cat")),
    "edge_scan::test_output_into_the_folder": (("scan --all in", "set -- scan --all --exclude manifest in"), ("scan in", "rm in/manifest")),
    "edge_scan::test_changed_between_calls": (("scan --all in", "set -- scan --all --exclude d/y in"), ("scan --all in", UNSAID)),
    "edge_scan::test_moved_between_folders": (("scan --all in", "set -- scan --all --exclude c/d/dd in"), ("scan in", UNSAID)),
    "edge_scan::test_entry_that_vanishes": (("scan --all in", UNSAID), ("scan in", "rm -f in/d/y")),
    "edge_scan::test_pipe_that_takes_a_name": (("scan *", UNSAID),),
    "edge_scan::test_one_moment": (("scan *", "exec $romtool \"$@\" | sed 's,^\\(file /[az]\\) 0600,\\1 0644,'"),),
    "edge_scan::test_odd_folders": (("scan --all *", "exec $romtool \"$@\" | sed 's, led/, in/,'"), ("scan -- in/none", "set -- scan in")),
    "edge_scan::test_what_is_no_folder": (("scan *pipe/", "exec $romtool scan pipe"), ("scan * ", "set -- scan --all .")),
    "edge_scan::test_folders_that_are_forbidden": (("scan *", 'exec $romtool "$@" 2>&1'), ("scan *", '$romtool "$@"; exit 3')),
    "edge_scan::test_every_byte": (("scan *", "exec $romtool \"$@\" | sed 's/%7F/%7f/'"), ("build *", "exit 1")),
    "edge_scan::test_longest_names": (("scan *", '$romtool "$@" 2>err; s=$?; cut -c 1-4095 err >&2; exit $s'),),
    "edge_scan::test_deep_from_inside": (("scan *", "exec $romtool \"$@\" | sed 's, ./d, d,'"),),
    "edge_scan::test_many_entries": (("scan --all in", "exec $romtool scan --all in | sed '/^hard .*99 /d'"),),
    "edge_scan::test_greatest_numbers": (("scan *", 'exec $romtool "$@" | sed s/4294967294/4294967295/'), ("scan in", "exit 0")),
    "edge_scan::test_folder_within_itself": (("scan *", 'set -- "$@" --exclude d/self/d/here'),),
    "edge_scan::test_on_one_file_system": (
        ("scan --one-file-system in", "set -- scan in"),
        ("scan --all *", 'set -- "$@" --one-file-system'),
    ),
    "edge_scan::test_files_of_one_number": (("build *", "sed -i 's,^file /b .*,hard /b /a,' m"), ("cat *", "exit 0")),
    "edge_scan::test_manifest_over_its_output": (("scan *-o m *", "rm .m.romtool-0.part"), ("scan *-o kept *", ": >kept")),
    "edge_scan::test_manifest_over_its_errors": (("scan *-o /dev/stderr *", "exec 2>/dev/null"), ("scan *", "set -- scan --all in")),
    "edge_scan::test_equal_manifest_stays": (("scan --all -o m in", "[ -e m ] && touch m"), ("scan --all -o m in", "[ -e m ] && exit")),
    "edge_scan::test_rule_of_a_scan": (
        ("scan *--devices *", "$romtool \"$@\"; s=$?; sed -i '$d' rule; exit $s"),
        ("scan *-o m in", '$romtool "$@"; s=$?; [ $s = 3 ] && : >m; exit $s'),
    ),
    "edge_scan::test_folders_that_rest": (("scan *", 'for it in 1 2 3 4; do touch in/1; $romtool "$@"; done'),),
    "map": (
        ("map *", r"sed -i '1s/^\(0x[0-9a-f]*\)[0-9a-e] /\1f /' $out"),
        ("map *", "sed -i 2d $out"),
        ("map *", r"sed -i 's/^0x\([0-9a-f]*\)/0x\U\1/' $out"),
        ("map *", SWAPPED),
        ("map *", r"sed -i 's/^- 0 0/0x00000000 0 0/' $out"),
        ("map *", r"sed -i 's/^\(0x[0-9a-f]*\) \([0-9]*\) \([0-9]*\)/\1 \2 4096/' $out"),
        ("cat *", "truncate -s -1 $out 2>/dev/null"),
        ("cat *", "status=1"),
        ("cat *", "echo warning >$err"),
    ),
    "linux": (
        ("linux *", "sed -i '$d' $out"),
        ("linux *", SWAPPED),
        ("linux *", "status=0"),
        ("linux *", "sed -i '/Device/d' $out; [ -s $out ] || status=0"),
        ("linux *", "sed -i 's/^linux 8/linux 9/' $out"),
        ("linux *", "sed -i '/RootMode/d' $out; [ -s $out ] || status=0"),
    ),
    "extents": (
        ("map --all *", "sed -i '/ gap /d' $out"),
        ("map --all *", "sed -i 's/ pad / gap /' $out"),
        ("map --all *", "sed -i '/ beyond /d' $out"),
        ("map --all *", SWAPPED),
        ("which *", r"sed -i 's/\( data [^ ]*\) [0-9]*$/\1/' $out"),
        ("which *", "status=0"),
        ("which *", "sed -i /ERANGE/d $out"),
        ("map --c *", "sed -i '/_ADDRESS/s/0x/0x1/' $out"),
        ("map --c *", "sed -i '/_PATH/d' $out"),
        ("map --c *", "sed -i 's/Zu/_/' $out"),
        ("map --ld *", "sed -i '/_LENGTH/s/);/0);/' $out"),
        ("map --ld *", "sed -i '$d' $out"),
        ("map --c --only *", "$romtool map --c $5 >$out"),
        ("map --c --prefix 1 *", "status=0"),
        ("map --svg *", "sed -i '$d' $out"),
        ("map --svg *", "sed -i '0,/<title>/s/ \\([0-9]*\\)<.title>/ 1\\1<\\/title>/' $out"),
        ("map --svg *", 'sed -i \'s/class=.mark. d=.M[0-9]*/class="mark" d="M9999/\' $out'),
    ),
    "building": (
        ("build --max-size *", "sed -i '/^size/s/$/0/' $out"),
        ("build --max-size *", "[ $status = 1 ] && echo x >out"),
        ("info --size *", "status=0"),
        ("info --size *", "sed -i 's/^left 0$/left 1/' $out"),
        ("build --strict *", "[ $status = 1 ] && status=0"),
        ("build --strict --depfile *", "rm -f d"),
        ("--explain build cramfs m out", "sed -i '/LastBlock/d' $err"),
        ("linux *", "sed -i '$d' $out"),
        ("build -C in *", "$romtool build $4 $5 $6 >$out 2>$err; status=$?"),
        ("build romfs - *", "status=3"),
        ("build --depfile d *", r"sed -i 's/\\#/#/' d 2>/dev/null"),
        ("build --depfile d *", "[ $status = 0 ] && sed -i '/:$/d' d"),
        ("build --depfile *", "[ $status = 3 ] && [ -e out ] && printf x >out"),
        ("build --depfile * romfs m x", "[ $status = 3 ] && rm -f $3"),
        ("--explain build romfs m out", "sed -i 's/^romtool: m:8:/romtool: m:7:/' $err"),
        ("--explain build romfs m out", "sed -i '/more sources/d' $err"),
        ("check none", "echo romtool: none: missing >$err"),
        ("calls", WRITE % "return got < 0 && errno == EPIPE ? count : got;"),
    ),
    "extract": (
        ("extract * out", "sed -i 's/^hard /same /' $out"),
        ("extract * out", "find out -type l -exec ln -sfn x {} ';' 2>/dev/null"),
        ("extract *", TO_OUTPUT),
        ("extract *", "[ $status = 3 ] && mkdir -p out"),
        ("extract * out /*", "[ $status = 0 ] && mkdir out/more"),
        ("extract --align *", "sed -i 's/ 4096 / 8192 /' $out"),
        ("extract --owners *", "chown 0:0 out/a"),
        ("--explain extract *", "sed -i 's/: 2$/: 3/' $err"),
        ("--explain extract *", "sed -i '/its files have/d' $err"),
        ("calls", "int fsync(int file) { return 0; }"),
        ("calls", "int fsync(int file) { REAL(fsync)(file); return 0; }"),
        ("calls", "int fchmod(int file, mode_t mode) { return REAL(fchmod)(file, mode & 0777); }"),
        ("calls", "int link(const char *a, const char *b) { return REAL(link)(a, b) ? errno = EPERM, -1 : 0; }"),
        ("calls", "int symlink(const char *text, const char *path) { return REAL(symlink)(text + (*text == '/'), path); }"),
        ("calls", "int mkdir(const char *path, mode_t mode) { return REAL(mkdir)(path, 0777); }"),
        ("calls", "int chdir(const char *path) { REAL(chdir)(path); return 0; }"),
        ("calls", "int unlink(const char *path) { return 0; }"),
        ("calls", WRITE % "return got < 0 ? count : got;"),
        ("calls", WRITE % 'if (file == 2 && !memcmp(from, "memory", 6)) _exit(1); return got;'),
        ("extract image theirs", "touch theirs/x"),
        ("--explain extract image out", "[ $status = 3 ] && chmod 755 out"),
        ("--explain extract *", "sed -i 's/made or may/may/' $err"),
        ("extract image theirs/out", "{ mkdir -p theirs/out/d && >theirs/out/d/x; } 2>$err; : >$err"),
        ("calls", "__attribute__((constructor)) void f(int n, char **it) { if (*it[1] == 'e') memset(malloc(1 << 24), 1, 1 << 24); }"),
    ),
    "build": (
        ("scan in", "sed -i '$d' $out"),
        ("build cramfs *", "printf x | dd of=$4 bs=1 seek=3000 conv=notrunc 2>/dev/null"),
        ("list image", "sed -i 's/ 0644 / 0755 /' $out"),
        ("serve romfs", "sed -i 's/ ELOOP/ ENOENT/' $out"),
        ("build * out", "[ $status = 3 ] && : >out"),
        ("build * out", "[ $status = 3 ] && : >.out.romtool-0.part"),
        ("build * out", "sed -i 's/^changed$/file source/' $err"),
        ("build * out", "[ $status = 0 ] && echo 50 % >>$err"),
        ("build romfs * out", "chmod 644 out"),
        ("build romfs * pipe", "sed -i 's/ok/OK/' $out"),
        ("calls", "int isatty(int file) { return 0; }"),
        ("calls", "int isatty(int file) { return 1; }"),
    ),
    "edge_kept": (
        ("build --no-follow *", "[ $status = 3 ] && { $romtool build romfs m out >$out 2>$err; status=$?; }"),
        ("build romfs m shared/out", "[ $status = 3 ] && echo more >>shared/out"),
        ("--explain build *", "sed -i 's/^romtool: //' $err"),
        ("check sparse", "cat $err >>$out"),
        ("calls", "int fsync(int file) { return 0; }"),
        ("calls", "int close(int file) { return REAL(close)(file) && errno == EIO ? -1 : (errno = 0); }"),
        ("calls", "int fchown(int file, uid_t user, gid_t group) { return 0; }"),
        ("calls", "int fchmod(int file, mode_t mode) { return REAL(fchmod)(file, mode | 040); }"),
        ("calls", "int unlink(const char *path) { return 0; }"),
        ("calls", 'char *getenv(const char *name) { return strcmp(name, "ROMTOOL_MAX_SIZE") ? REAL(getenv)(name) : NULL; }'),
    ),
    "edge_parts": (
        ("build romfs m out", "rm -f .out.romtool-7.part"),
        ("build romfs m out", "touch .out.romtool-50.part"),
        ("build romfs m out", "[ $status = 3 ] && status=0"),
        ("scan --all --exclude *", "rm -f d/.list.romtool-1.part"),
        ("--explain build romfs m /dev/*", "sed -i 's/mounted/in use/' $err"),
        ("calls", "int flock(int file, int how) { return 0; }"),
        ("calls", "int unlink(const char *path) { return 0; }"),
        ("calls", STAT % "it->stx_mode &= ~01000;"),
        ("calls", STAT % "it->stx_nlink = 1;"),
        ("calls", STAT % "it->stx_ino = 1;"),
        ("calls", STAT % "memset(&it->stx_mtime, 0, sizeof it->stx_mtime); it->stx_ctime = it->stx_mtime;"),
    ),
    "edge": (
        ("build * hard", "[ $status = 3 ] && printf x >>a"),
        ("build romfs m link*", "[ $status = 3 ] && status=0"),
        ("space /dev/zero *", "sed -i 's/ in 0//' $out"),
        ("check /dev/stdin", "head -c 1 >/dev/null"),
        ("xip image", "echo more >>$err"),
        ("serve image", "[ -s $err ] && status=0"),
        ("calls", STAT % (LOOK % "1")),
        ("calls", SLEEP + STAT % (LOOK % "late")),
        ("calls", "int fsync(int file) { return 0; }"),
        ("calls", "int fsync(int file) { REAL(fsync)(file); return 0; }"),
        ("calls", "int rename(const char *from, const char *to) { unlink(to); return REAL(rename)(from, to); }"),
        ("calls", "int unlink(const char *path) { return 0; }"),
        ("calls", "int fchown(int file, uid_t user, gid_t group) { return 0; }"),
        ("calls", "int fchmod(int file, mode_t mode) { return REAL(fchmod)(file, mode & 0777); }"),
        ("calls", "off_t lseek(int file, off_t to, int how) { return how == SEEK_CUR && to < 0 ? 0 : REAL(lseek)(file, to, how); }"),
        ("calls", OPEN % "return REAL(open)(path, flags, mode | 044);"),
        ("calls", WRITE % "return got < 0 && errno == EINTR ? errno = EIO, got : got;"),
        ("calls", "ssize_t write(int file, const void *from, size_t count) { return REAL(write)(file, from, count / 2 + 1); }"),
    ),
}


def is_found(name, program, *more):
    """Returns whether a test of a file fails on a program."""
    file, *tests = name.split("::")
    words = [*more, "::".join([f"{HERE}/test_{file}.py", *tests]), "-x", "-k", f"not ({LEFT_OUT})", "-p", "no:cacheprovider"]
    return subprocess.run(["sh", f"{HERE}/pytest.sh", *words, "--binary", program], stdout=subprocess.PIPE).returncode in (1, 2)


def compiled(source, path, *words):
    """Compiles a program or a library in C."""
    subprocess.run(["cc", "-x", "c", "-", "-w", "-o", path, *words], input=source.encode(), check=True)


def plant(binary, name, words, change, path):
    """Makes a program with an error."""
    if name == "refusals":
        compiled(PROGRAM % (change if words == "memory" else MEMORY, change if words == "limit" else "", binary), path)
        return
    patterns = words.replace(" ", r"\ ").replace("\n", "|")
    if name.startswith((*IS_BEFORE, *IS_SCRIPT)):
        put(path, ((BEFORE if name.startswith(IS_BEFORE) else SCRIPT) % (binary, patterns, change)).encode(), 0o755)
        return
    library = path + ".so" if words == "calls" else ""
    if library:
        compiled(LIBRARY % change, library, "-shared", "-fPIC")
    put(path + ".sh", (SCRIPT % (binary, patterns, change)).encode(), 0o755)
    compiled(STARTER % ("" if library else path + ".sh", library, binary), path, "-static")


def main():
    reader = parser("Tests the tests in pytest by errors in the program.")
    reader.add_argument("--name", default="", help="only the errors of the files whose name has this text")
    arguments = reader.parse_args()
    binary, counts = program_of(arguments), Counts()
    with tempfile.TemporaryDirectory(prefix="romtool-") as top:
        os.chmod(top, 0o755)  # tests also run the program as an ordinary user
        path = f"{top}/romtool"
        for name, errors in ((name, errors) for name, errors in ERRORS.items() if arguments.name in name):
            nothing = ("memory", MEMORY) if name == "refusals" else ("\n".join(words for words, _ in errors), ":")
            for words, change in nothing, *errors:
                plant(binary, name, words, change, path)
                if (words, change) == nothing:
                    wrong = ["a test finds this"] if is_found(name, path, "--parallel") else []
                else:
                    wrong = [] if is_found(name, path) else ["no test finds this"]
                counts.result(f"{name}: {words!r} {change}", wrong)
    return counts.close()


if __name__ == "__main__":
    sys.exit(main())
