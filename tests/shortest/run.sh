#!/bin/sh
# run.sh ARCHIVE: tries every string that is shorter than the closing bytes, from many open places and over the values at the edges: none ends
# the run. Then shows that bytes which are not the shortest are noticed: document 01's own, before wish 8.
set -eu
here=$(cd "$(dirname "$0")" && pwd)
x86=$here/../../tools/x86.sh
room=$(mktemp -d)
trap 'rm -rf "$room"' EXIT
sh "$x86" cc "$room/shortest" "$here/shortest.c" "$1"
sh "$x86" run "$room/shortest"

if sh "$x86" run "$room/shortest" older >"$room/said"; then
    echo "the older closing bytes were not noticed: $(cat "$room/said")"
    exit 1
fi
for shorter in 'at 2 in a check: .* 6 closing bytes: 08' 'at 11 in a write: .* 3 closing bytes: 00' 'at 11 in a check: .* 5 closing bytes: 00'; do
    grep -q "^FAILED: $shorter is shorter and ends the run with every cell and register as it was$" "$room/said" || {
        echo "the older closing bytes were not noticed $shorter: $(cat "$room/said")"
        exit 1
    }
done
echo "it notices the older closing bytes: 08 is shorter in a check at 2, and 00 at 11"
