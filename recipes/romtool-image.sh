#!/bin/sh
# romtool-image.sh IMAGE PROGRAM WORD..: runs PROGRAM WORD.. IMAGE.romtool-new, and replaces IMAGE by this file if their bytes differ.
# What the program prints is shown only then, or if it fails. Then IMAGE stays as it was. What is shown names IMAGE, and FILE of
# `--manifest FILE` in place of `-`.
image=$1
shift
last='' manifest=-
for word; do
    [ "$last" != --manifest ] || manifest=$word
    case $word in --manifest=*) manifest=${word#*=} ;; esac
    last=$word
done
said=$("$@" "$image.romtool-new" 2>&1) && status=0 || status=$?
said=$(printf '%s\n' "$said" | manifest=$manifest awk '
    { gsub(/\.romtool-new/, "") }
    index($0, "romtool: -:") == 1 { $0 = "romtool: " ENVIRON["manifest"] substr($0, 11) }
    1')
[ "$status" = 0 ] || { printf '%s\n' "$said" >&2 && exit "$status"; }
if cmp -s "$image.romtool-new" "$image"; then
    rm "$image.romtool-new"
else
    mv "$image.romtool-new" "$image" && printf '%s\n' "$said"
fi
