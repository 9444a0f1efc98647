#!/bin/sh
# Builds an image of a tar archive, and writes a tar archive of an image, with devices, owners and modes, and without root.
#
#     romtool-tar.sh pack FORMAT ARCHIVE OUT [OPTION OF romtool pack]..
#     romtool-tar.sh unpack IMAGE ARCHIVE
#
# ARCHIVE is `-` for standard input or output. A file may be compressed; a new one is, if its suffix says so (.tar.gz). OUT and
# ARCHIVE are replaced as a whole. ROMTOOL is the program, by default romtool. GNU tar, fakeroot and setsid are needed. The files are
# below TMPDIR meanwhile. The status is that of romtool if it fails, 2 if the arguments are wrong, 3 if something else fails, and
# 128 and the signal's number after a signal.
set -u
romtool=${ROMTOOL:-romtool}
room='' part=''

fail() {
    printf 'romtool-tar.sh: %s\n' "$2" >&2
    exit "$1"
}

usage() {
    fail 2 "$1
usage: romtool-tar.sh pack FORMAT ARCHIVE OUT [OPTION OF romtool pack]..
       romtool-tar.sh unpack IMAGE ARCHIVE"
}

# Under fakeroot: packs what tar unpacks. The root has the mode 0755 if the archive has no member for it.
pack() {
    format=$1 archive=$2 out=$3
    shift 3
    (umask 022 && mkdir "$room/root" && tar --force-local --numeric-owner -xpf "$archive" -C "$room/root") \
        || fail 3 "$archive: tar cannot unpack it"
    exec "$romtool" pack "$@" -- "$format" "$room/root" "$out"
}

# Under fakeroot: writes an archive of what `extract` makes, and of the devices and FIFOs in its manifest.
unpack() {
    mkdir "$room/empty" && "$romtool" --explain scan --all "$room/empty" >"$room/manifest" || exit # whether fakeroot reaches it
    "$romtool" --explain extract --owners --no-sync -- "$1" "$room/root" >"$room/manifest" 2>"$room/said" \
        || { status=$? && cat "$room/said" >&2 && exit "$status"; } # otherwise it says that it made no devices
    special "$room/manifest" >"$room/special" && make_special <"$room/special" || fail 3 "$1: a device or a FIFO cannot be made"
    tar --force-local --numeric-owner --sort=name --mtime=@0 -caf "$2" -C "$room/root" . || fail 3 "tar cannot write the archive"
}

# Prints the lines of a manifest that `extract` only prints: of devices, FIFOs, sockets, and further names of these. In place of
# `%XX`, names have what `printf %b` decodes.
special() {
    LC_ALL=C awk '
        function digit(char) { return index("0123456789ABCDEF", char) - 1 }
        function decoded(name,   out, at, char) {
            for (at = 1; at <= length(name); at++) {
                char = substr(name, at, 1)
                if (char == "%") {
                    char = sprintf("\\0%03o", 16 * digit(substr(name, at + 1, 1)) + digit(substr(name, at + 2, 1)))
                    at += 2
                } else if (char == "\\") char = "\\0134"
                out = out char
            }
            return out
        }
        $1 == "nod" || $1 == "pipe" || $1 == "sock" { kind[$2] = $1; print $1, decoded($2), $3, $4, $5, $6, $7, $8 }
        $1 == "hard" && ($3 in kind) { print kind[$3] == "sock" ? "sock" : "hard", decoded($2), decoded($3) }
    ' "$1"
}

# Makes what these lines say. A command substitution drops line feeds at the end of a name, so a dot is behind it meanwhile.
make_special() {
    while read -r word name mode user group type major minor; do
        node=$room/root$(printf '%b.' "$name")
        node=${node%.}
        case $word in
        nod) mknod -- "$node" "$type" "$major" "$minor" || return ;;
        pipe) mkfifo -- "$node" || return ;;
        hard)
            old=$room/root$(printf '%b.' "$mode")
            ln -- "${old%.}" "$node" || return
            continue
            ;;
        sock)
            printf 'romtool-tar.sh: %s: left out, since tar stores no sockets\n' "${node#"$room/root"}" >&2
            continue
            ;;
        esac
        chown "+$user:+$group" "$node" && chmod "$mode" "$node" || return
    done
}

clean() {
    [ -z "$part" ] || rm -f -- "$part"
    [ -z "$room" ] || rm -rf -- "$room" 2>/dev/null || { sleep 1 && rm -rf -- "$room"; } # what was ended may still have made a file
}

# On a signal: ends what runs under fakeroot, if it has begun. Then fakeroot ends its daemon, which it does not if it is killed.
stop() {
    trap '' HUP INT TERM
    [ -z "$room" ] || : >"$room/stop"
    [ ! -s "$room/group" ] || kill -s TERM -- "-$(cat "$room/group")"
    [ -z "${!-}" ] || wait "$!"
    exit $((128 + $1))
}

if [ "${1-}" = within ]; then # within ROOM COMMAND WORD..: this script, under fakeroot
    room=$2
    echo $$ >"$room/group"
    [ ! -e "$room/stop" ] || exit 3
    shift 2
    "$@"
    exit
fi
case ${1-} in
pack) [ $# -ge 4 ] || usage "pack needs three arguments" ;;
unpack) [ $# -eq 3 ] || usage "unpack needs two arguments" ;;
*) usage "no command: ${1-}" ;;
esac
for tool in tar fakeroot setsid "$romtool"; do
    command -v "$tool" >/dev/null || fail 3 "there is no program $tool"
done
trap clean EXIT
trap 'stop 1' HUP
trap 'stop 2' INT
trap 'stop 15' TERM
room=$(mktemp -d "${TMPDIR:-/tmp}/romtool-tar.XXXXXX") || fail 3 "no directory can be made in ${TMPDIR:-/tmp}"
archive=${3-}
if [ "$1" = unpack ] && [ "$archive" != - ] && { [ ! -e "$archive" ] || [ -f "$archive" ]; }; then
    case $archive in
    */*) part=${archive%/*}/.romtool-tar.$$.${archive##*/} ;;
    *) part=.romtool-tar.$$.$archive ;;
    esac
    set -- unpack "$2" "$part"
fi
set -- setsid sh "$0" within "$room" "$@"
[ -n "${FAKEROOTKEY-}" ] || set -- setsid fakeroot -- "$@"
exec 3<&0 # the shell gives commands in the background no standard input
"$@" <&3 3<&- &
wait "$!"
status=$?
if [ "$status" = 0 ] && [ -n "$part" ]; then
    mv -fT -- "$part" "$archive" || fail 3 "$archive: it cannot be replaced"
fi
exit "$status"
