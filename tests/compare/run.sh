#!/bin/sh
# run.sh ARCHIVE [SEED [CALLS]]: builds both sides of the comparison and runs it; without a seed each run looks at other
# cases. The model and its driver are native; the archive's side is for x86-64.
set -eu
archive=$1
seed=${2:-$(date +%s)}
calls=${3:-1200000}
here=$(cd "$(dirname "$0")" && pwd)
x86=$here/../../tools/x86.sh
room=$(mktemp -d)
trap 'rm -rf "$room"' EXIT
sh "$here/../../tools/rustc.sh" -O --edition 2021 "$here/main.rs" -o "$room/compare"
sh "$x86" cc "$room/archive" "$here/archive.c" "$archive"
"$room/compare" "$seed" "$calls" sh "$x86" run "$room/archive"
