#!/bin/sh
# run.sh ARCHIVE [ROUNDS]: lists the archive's functions and fails where the machine's step is one of them; then races the archive against safe
# Rust and memcpy. On x86-64 the archive itself is raced. On another processor an emulator's times would say nothing, and here.sh makes
# the library for that processor from the same module.
set -eu
archive=$1
here=$(cd "$(dirname "$0")" && pwd)
room=$(mktemp -d)
trap 'rm -rf "$room"' EXIT

echo "functions of the archive:"
nm --defined-only "$archive" | sed -n 's/^[0-9a-f]* [tT] /  /p'
if nm --defined-only "$archive" | grep -q ' [tT] machine::.*::step$'; then
    echo "the step is a function of its own: every framing byte pays a call" >&2
    exit 1
fi

if [ "$(uname -m)" = x86_64 ]; then
    echo "raced: the archive"
    gcc -std=c11 -O2 -fPIC -I"$here/../include" -c "$here/by_pointer.c" -o "$room/by_pointer.o"
    library=$archive
else
    echo "raced: the archive's module, compiled for $(uname -m)"
    sh "$here/here.sh" "$room"
    library=$room/library.o
fi
sh "$here/../tools/rustc.sh" --edition 2021 -C opt-level=3 "$here/main.rs" -o "$room/race" -C link-arg="$room/by_pointer.o" -C link-arg="$library"
"$room/race" "${2:-101}"
