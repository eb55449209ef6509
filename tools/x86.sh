#!/bin/sh
# Programs here are for x86-64. This builds C programs for it, and runs them; on another processor the compiler, the linker and the emulator
# of the kit that the command rt belongs to do both, with the headers that gcc has here. They are in the kit's folder on/ for that processor:
# a kit for x86-64 alone has none.
#   x86.sh cc OUT SOURCE ARCHIVE [FLAGS]    compiles SOURCE, with include/ and FLAGS, and links it with ARCHIVE to the program OUT
#   x86.sh run PROGRAM [WORDS]              runs PROGRAM
set -eu
include=$(cd "$(dirname "$0")/../include" && pwd)
verb=$1
shift
if [ "$(uname -m)" = x86_64 ]; then
    case $verb in
    cc)
        out=$1 source=$2 archive=$3
        shift 3
        exec gcc -std=c11 -O2 -Wall -Wextra -Werror -I"$include" "$@" "$source" "$archive" -o "$out"
        ;;
    run) exec "$@" ;;
    esac
else
    guide=$(rt doc)
    tools=${guide%/*}/on/$(uname -m)/toolchain
    [ -d "$tools" ] || {
        echo "x86.sh: no $tools: this kit neither builds nor runs programs for x86-64 on $(uname -m)" >&2
        exit 2
    }
    lib=$tools/lib
    loader=$lib/ld-linux-x86-64.so.2
    case $verb in
    cc)
        out=$1 source=$2 archive=$3
        shift 3
        "$tools/bin/clang" --target=x86_64-unknown-linux-gnu -std=c11 -O2 -Wall -Wextra -Werror -I"$include" "$@" -nostdinc \
            -isystem "$(gcc -print-file-name=include)" -isystem /usr/include -isystem "/usr/include/$(gcc -dumpmachine)" -c "$source" -o "$out.o"
        exec "$tools/bin/ld.lld" -pie -dynamic-linker "$loader" -o "$out" "$lib/Scrt1.o" "$lib/crti.o" "$lib/crtbeginS.o" \
            "$out.o" "$archive" "$lib/libc.so.6" "$lib/libc_nonshared.a" "$lib/libgcc.a" "$lib/crtendS.o" "$lib/crtn.o"
        ;;
    run) exec "$tools/bin/qemu-x86_64" "$loader" --library-path "$lib" "$@" ;;
    esac
fi
echo "x86.sh: cc or run, not $verb" >&2
exit 2
