#!/bin/sh
# run.sh PROGRAM [CASES]: runs the listing program on every input of cases.txt (or of CASES) through a pipe, and compares what it writes.
# Prints one line; exit status 1 where something differs.
set -u
LC_ALL=C
export LC_ALL

die() { echo "listing: $*" >&2; exit 1; }

[ $# -ge 1 ] || die "usage: run.sh PROGRAM [CASES]"
program=$1
cases=${2:-$(dirname "$0")/cases.txt}
[ -x "$program" ] || die "no program at $program"
[ -f "$cases" ] || die "no cases at $cases"

run() { sh "$(dirname "$0")/../../tools/x86.sh" run "$program"; }

room=$(mktemp -d) || exit 1
trap 'rm -rf "$room"' EXIT

# The names into one file, and each case into two: its input, a line for each part (0 and octal escapes, or how often and an octal byte), and what is expected.
awk -v room="$room" '
    function octal(word,    n) {
        n = (index(digits, substr(word, 1, 1)) - 1) * 16 + index(digits, substr(word, 2, 1)) - 1
        return sprintf("%03o", n)
    }
    BEGIN { digits = "0123456789ABCDEF" }
    /^</ {
        if (n) { close(room "/" n ".runs"); close(room "/" n ".out") }
        n++
        print $2 > (room "/names")
        printf "" > (room "/" n ".runs")
        for (i = 3; i <= NF; i++) {
            at = index($i, "*")
            if (at) print substr($i, 1, at - 1), octal(substr($i, at + 1)) > (room "/" n ".runs")
            else {
                line = ""
                for (; i <= NF && !index($i, "*"); i++) line = line "\\" octal($i)
                i--
                print 0, line > (room "/" n ".runs")
            }
        }
    }
    /^>/ { print substr($0, 3) > (room "/" n ".out") }
' "$cases"
[ -s "$room/names" ] || die "no cases in $cases"

bytes() { # the input of a case
    while read -r count octal; do
        case $count in
        0) printf "$octal" ;;
        *) head -c "$count" /dev/zero | tr '\000' "\\$octal" ;;
        esac
    done
}

n=0 wrong=0
compare() { # NAME: what was written, with what is expected
    if ! cmp -s "$room/wrote" "$room/$n.out"; then
        wrong=$((wrong + 1))
        echo "listing: $1: expected (<) and written (>)" >&2
        diff "$room/$n.out" "$room/wrote" | head -n 6 >&2
    fi
}

while read -r name; do
    n=$((n + 1))
    bytes <"$room/$n.runs" >"$room/in"
    cat "$room/in" | run >"$room/wrote" || die "$name: the program failed"
    compare "$name"
    # one input comes in three pieces as well
    if [ "$name" = stream-a ]; then
        { head -c 1 "$room/in"; sleep 1; tail -c +2 "$room/in" | head -c 7; sleep 1; tail -c +9 "$room/in"; } | run >"$room/wrote" || die "$name: the program failed"
        compare "$name in pieces"
    fi
done <"$room/names"

[ "$wrong" -eq 0 ] || die "$wrong outputs of $n inputs are not as expected"
echo "listing: $n inputs, all as expected"
