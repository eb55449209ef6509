#!/bin/sh
# run.sh ARCHIVE: measures the stack that each call uses, the most over its states, and fails where one uses more than 2 KiB, the load sheet
# more than 2 KiB and three of the largest device; then runs a controller's way to sleep on a stack of 2 KiB with a guard below it, and shows
# that the guard is one.
set -eu
here=$(cd "$(dirname "$0")" && pwd)
x86=$here/../../tools/x86.sh
room=$(mktemp -d)
trap 'rm -rf "$room"' EXIT
sh "$x86" cc "$room/stack" "$here/stack.c" "$1"
sh "$x86" run "$room/stack" >"$room/table"
cat "$room/table"
awk '{ most = $1 == "at6000_load_sheet" ? 3 * 16381 + 2048 : 2048 }
    $2 > most { print "more than " most ": " $0; bad = 1 } END { exit bad || NR != 20 }' "$room/table"

sh "$x86" cc "$room/sleep" "$here/sleep.c" "$1"
sh "$x86" run "$room/sleep"

# noticed WORD WHAT: the program ends with another status than 0, and says that WHAT touched the guard
noticed() {
    if sh "$x86" run "$room/sleep" "$1" >"$room/said" || ! grep -q "^FAILED: $2 touches a byte [0-9]* below" "$room/said"; then
        echo "the guard did not notice $2, $1: $(cat "$room/said")"
        exit 1
    fi
}
noticed scratch 'a scratch array'
noticed 2049 'a touch'
sh "$x86" run "$room/sleep" 2048 >"$room/said" || { cat "$room/said"; exit 1; }
echo "the guard notices a scratch array of 3 KiB, and the first byte below the stack; the stack's last byte is free"
