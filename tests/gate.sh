#!/bin/sh
# The gate's tests, beside rt ci: what the documents cite, the header, the C examples, the comparison with the model, the stack, shorter ways
# out, the listing program. .ci/run runs them right after rt ci, on what that proved, so that nothing is proved twice but the thin archive.
set -eu
cd "$(dirname "$0")/.."
archive=target/staticlib/libat6000.a
listing=target/bin/listing

python3 tests/docs/cited.py
python3 tests/docs/count.py
sh tests/header/run.sh

make --no-print-directory lib
mkdir -p "$(dirname "$listing")"
cp crates/listing/out/listing "$listing"
sh examples/run.sh "$archive" controller | diff examples/controller.out -
sh examples/run.sh "$archive" patches | diff examples/patches.out -
sh examples/run.sh "$archive" onefile | diff examples/onefile.out -
sh examples/run.sh "$archive" salvage | diff examples/salvage.out -
sh examples/run.sh "$archive" eprom | diff examples/eprom.out -
sh examples/run.sh "$archive" sheet | diff examples/sheet.out -
sh tests/compare/run.sh "$archive"
sh tests/stack/run.sh "$archive"
sh tests/shortest/run.sh "$archive"
sh tests/listing/run.sh "$listing"
