#!/bin/sh
# run.sh ARCHIVE [NAME]: builds examples/NAME.c with the archive and runs it; NAME is controller, where none is given, patches, onefile, salvage, eprom or sheet.
set -eu
here=$(cd "$(dirname "$0")" && pwd)
name=${2:-controller}
room=$(mktemp -d)
trap 'rm -rf "$room"' EXIT
sh "$here/../tools/x86.sh" cc "$room/$name" "$here/$name.c" "$1"
sh "$here/../tools/x86.sh" run "$room/$name"
