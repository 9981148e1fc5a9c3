#!/usr/bin/env bash
# Times edits of a loaded book of 100,000 rows in four columns: numbers, their doubles, a running sum, and sums over
# windows of eight rows.
#
# `calc` is timed as a whole: what a script of edits takes beyond one that does nothing, over the number of its edits.
# No script recalculates. bench/edits/edits.c makes the same edits in plain arrays, and stands for what the machine can
# do; its formulas are ids, so it neither reads a formula nor says what reads a cell.
#
# Prints the milliseconds and the largest memory of loading, and then a line for each kind of edit: microseconds of
# `calc`, of C, and the ratio. The least of three runs counts. LibreOffice isn't timed.
set -euo pipefail

top="$(cd "$(dirname "$0")/.." && pwd)"
work="$(mktemp -d)"
trap 'rm -rf "$work"' EXIT
cd "$work"

awk 'BEGIN {
    for (i = 1; i <= 100000; i++) {
        sum = i == 1 ? "=[.B1]" : "=[.C" (i - 1) "]+[.B" i "]"
        window = i < 8 ? "" : "=SUM([.A" (i - 7) ":.A" i "])"
        print (7 + 37 * i) % 1000 ",=[.A" i "]*2," sum "," window
    }
}' >book
echo '# nothing' >nothing
awk 'BEGIN { for (k = 0; k < 50000; k++) print "set A50000 " k }' >number
awk 'BEGIN { for (k = 0; k < 50000; k++) print "set B50000 " (k % 2 ? "=[.A50000]*2" : k) }' >kinds
awk 'BEGIN { for (k = 0; k < 50000; k++) print "set A" (k * 7919) % 100000 + 1, k }' >scattered
awk 'BEGIN { for (k = 0; k < 20; k++) print "insert 50000 1" }' >insert
awk 'BEGIN { for (k = 0; k < 20; k++) print "delete 50000 1" }' >delete
awk 'BEGIN { for (k = 0; k < 5; k++) print "fill B1 B1:B100000" }' >fill
awk 'BEGIN { for (k = 0; k < 5; k++) print "copy B1:B100000 G1" }' >copy
awk 'BEGIN { for (k = 0; k < 5; k++) print "copy A1:A100000 G1" }' >numbers

# The nanoseconds of the quickest of three runs of a script.
time_of() {
    local start end least=
    for _ in 1 2 3; do
        start="$(date +%s%N)"
        "$top/crates/calc/out/calc" book <"$1" >/dev/null
        end="$(date +%s%N)"
        if [ -z "$least" ] || [ $((end - start)) -lt "$least" ]; then least=$((end - start)); fi
    done
    echo "$least"
}

"$top/calc" book <nothing
for compiler in gcc clang; do
    "$compiler" -O3 -march=x86-64-v2 -o "c_$compiler" "$top/bench/edits/edits.c"
    for _ in 1 2 3; do "./c_$compiler" 2>>sums; done >>plain
done
[ "$(sort -u sums | wc -l)" = 1 ]
idle="$(time_of nothing)"
memory="$(/usr/bin/env time -f %M "$top/crates/calc/out/calc" book <nothing 2>&1 >/dev/null)"
echo "load $((idle / 1000000)) ms, $((memory / 1024)) MiB"
printf '%-10s %10s %10s %10s\n' edit calc C ratio
for edit in number kinds scattered insert delete fill copy numbers; do
    lines="$(wc -l <"$edit")"
    spent="$(time_of "$edit")"
    awk -v edit="$edit" -v calc="$(((spent - idle) / lines))" '
        $1 == edit && (least == "" || $2 < least) { least = $2 }
        END { printf "%-10s %10.1f %10.3f %10.0f\n", edit, calc / 1000, least / 1000, (least > 0 ? calc / least : 0) }' plain
done
