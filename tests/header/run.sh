#!/bin/sh
# run.sh: the header compiles without a warning as C99, C11 and C++17, alone and twice over; its own lines assert sizes and offsets.
set -eu
header=$(cd "$(dirname "$0")/../../include" && pwd)/at6000.h
warn="-Wall -Wextra -Wpedantic -Werror -fsyntax-only"
for standard in c99 c11; do
    printf '#include "%s"\n#include "%s"\n' "$header" "$header" | gcc -std=$standard $warn -x c -
done
printf '#include "%s"\n#include "%s"\n' "$header" "$header" | g++ -std=c++17 $warn -x c++ -
echo "header: C99, C11 and C++17 without a warning"
