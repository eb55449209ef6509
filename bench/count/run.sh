#!/bin/sh
# run.sh ARCHIVE: how many instructions of x86-64 each job makes in ARCHIVE. Exact and the same on every machine but for what the C library's
# own copies take; it says nothing of what an instruction costs. On x86-64 the processor steps through the jobs; elsewhere the kit's
# emulator does, and logs every instruction.
set -eu
archive=$1
here=$(cd "$(dirname "$0")" && pwd)
x86=$here/../../tools/x86.sh
room=$(mktemp -d)
trap 'rm -rf "$room"' EXIT

sh "$x86" cc "$room/jobs" "$here/jobs.c" "$archive"
if [ "$(uname -m)" = x86_64 ]; then
    gcc -std=gnu11 -O2 -Wall -Wextra -Werror "$here/steps.c" -o "$room/steps"
    "$room/steps" "$room/jobs" >"$room/counts" 2>"$room/names"
else
    QEMU_ONE_INSN_PER_TB=1 QEMU_LOG=exec,nochain QEMU_LOG_FILENAME="$room/log" sh "$x86" run "$room/jobs" >"$room/names"
    read -r begin end <"$room/names"
    # a line of the log: Trace 0: 0x.. [../address of the instruction/../..]
    awk -F/ -v begin="$begin" -v end="$end" '
        BEGIN { zeros = "0000000000000000"; begin = substr(zeros begin, length(begin) + 1); end = substr(zeros end, length(end) + 1) }
        $2 == begin { counting = 1; n = 0; next }
        counting && $2 == end { print n; counting = 0; next }
        counting { n++ }' "$room/log" >"$room/counts"
fi
sed 1d "$room/names" >"$room/jobs.txt"
paste "$room/counts" "$room/jobs.txt" | awk -F'\t' '
    NR == 1 { marks = $1; print "instructions of the archive, for x86-64"; next }
    { printf "%-40s %8d\n", $2, $1 - marks }'
