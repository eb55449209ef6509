#!/bin/sh
# here.sh ROOM: writes ROOM/library.o and ROOM/by_pointer.o for this processor, from the LLVM module that the archive is made of. The kit
# compiles that module for x86-64 alone and keeps no copy: it is caught by a stand-in for the kit's compiler, which hands on every word.
# The calls and by_pointer.c both go through x86-64's rules for C first, so that they agree on how a struct is passed; `sret` goes away,
# since the kit spells that pointer out. It needs a kit with a folder on/ for this processor, which takes its tools from the folder RATTLE_HOME.
set -eu
room=$1
here=$(cd "$(dirname "$0")" && pwd)
guide=$(rt doc)
kit=${guide%/*}
machine=$(uname -m)
clang=$kit/on/$machine/toolchain/bin/clang
[ -x "$clang" ] || {
    echo "here.sh: no $clang: this kit makes nothing for $machine" >&2
    exit 2
}

mkdir -p "$room/kit/on/$machine/toolchain/bin"
for f in "$kit"/*; do [ "${f##*/}" = on ] || ln -s "$f" "$room/kit/"; done
for f in "$kit/on/$machine"/*; do [ "${f##*/}" = toolchain ] || ln -s "$f" "$room/kit/on/$machine/"; done
for f in "$kit/on/$machine/toolchain"/*; do [ "${f##*/}" = bin ] || ln -s "$f" "$room/kit/on/$machine/toolchain/"; done
for f in "$kit/on/$machine/toolchain/bin"/*; do [ "${f##*/}" = clang ] || ln -s "$f" "$room/kit/on/$machine/toolchain/bin/"; done
cat >"$room/kit/on/$machine/toolchain/bin/clang" <<STAND
#!/bin/sh
for word in "\$@"; do case \$word in *module.bc) cp "\$word" "$room/module.bc" ;; esac; done
exec "$clang" "\$@"
STAND
chmod +x "$room/kit/on/$machine/toolchain/bin/clang"
(cd "$here/../crates/at6000_c" && RATTLE_HOME=$room/kit rt lib) >"$room/log" 2>&1 || { cat "$room/log"; exit 1; }

x86="--target=x86_64-unknown-linux-gnu"
"$clang" $x86 -O0 -Xclang -disable-llvm-passes -S -emit-llvm -x ir "$room/module.bc" -o "$room/library.ll"
"$clang" $x86 -std=c11 -O2 -nostdinc -isystem "$(gcc -print-file-name=include)" -isystem /usr/include \
    -isystem "/usr/include/$(gcc -dumpmachine)" -I"$here/../include" -S -emit-llvm "$here/by_pointer.c" -o "$room/by_pointer.ll"
for f in library by_pointer; do
    sed -E -e '/^target (triple|datalayout)/d' -e 's/ sret\([^)]*\)//g' -e 's/"(target-cpu|target-features|tune-cpu)"="[^"]*"//g' \
        "$room/$f.ll" >"$room/$f.here.ll"
    "$clang" --target="$machine-unknown-linux-gnu" -Wno-override-module -O3 -ffunction-sections -fPIC -c -x ir "$room/$f.here.ll" -o "$room/$f.o"
done
