#!/bin/sh
# list.sh PROGRAM: the listing program on a sample stream: for the teaching array, in mode 1, two windows of which the later lies inside
# the earlier.
set -eu
here=$(cd "$(dirname "$0")" && pwd)
mode=01
kind=00
stream="B2 00 00 00 00 FD 00 00 09 00 0B 11 22 33 00 00 0A 00 0A 44 4D"
echo "mode $mode, kind $kind, stream $stream"
for byte in $mode $kind $stream; do
    printf "\\$(printf %03o "0x$byte")"
done | sh "$here/../tools/x86.sh" run "$1"
