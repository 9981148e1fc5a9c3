#!/usr/bin/env bash
# Times recalculations of a loaded book of 100,000 rows in four columns: numbers, their doubles, a running sum, and sums
# over windows of eight rows; 299,993 formulas.
#
# `calc` is timed as a whole: what a script that edits and recalculates takes beyond the same script without its last
# edits, over the number of these. `full` is the first recalculation; `first`, `middle` and `last` change a number at the
# top, in the middle and near the end and recalculate, so that 100,002, 50,010 and about 18 formulas are stale; `insert`
# puts in a row in the middle. `scattered` changes numbers all over a book of two columns, numbers and their doubles, and
# recalculates after each, so that one formula is stale. bench/recalc/recalc.c calculates the same rows again in plain arrays.
#
# Prints a line for each: milliseconds of `calc`, of C, and the ratio. The least of three runs counts. LibreOffice isn't
# timed.
set -euo pipefail

top="$(cd "$(dirname "$0")/.." && pwd)"
work="$(mktemp -d)"
trap 'rm -rf "$work"' EXIT
cd "$work"

awk 'BEGIN {
    for (i = 1; i <= 100000; i++) {
        sum = i == 1 ? "=[.B1]" : "=[.C" (i - 1) "]+[.B" i "]"
        window = i < 8 ? "" : "=SUM([.A" (i - 7) ":.A" i "])"
        print (7 + 37 * i) % 1000 ",=[.A" i "]*2," sum "," window
    }
}' >book
awk 'BEGIN { for (i = 1; i <= 100000; i++) print (7 + 37 * i) % 1000 ",=[.A" i "]*2" }' >pairs
echo '# nothing' >nothing
echo 'calc' >full
edits() { awk -v row="$1" -v times="$2" 'BEGIN { print "calc"; for (k = 0; k < times; k++) print "set A" row, k "\ncalc" }'; }
edits 1 20 >first
edits 50000 20 >middle
edits 99992 1000 >last
awk 'BEGIN { print "calc"; for (k = 0; k < 10; k++) print "insert 50000 1\ncalc" }' >insert
awk 'BEGIN { print "calc"; for (k = 0; k < 1000; k++) print "set A" (k * 7919) % 100000 + 1, k "\ncalc" }' >scattered

# The nanoseconds of the quickest of three runs of a script, over `book` where no other is given.
time_of() {
    local start end least=
    for _ in 1 2 3; do
        start="$(date +%s%N)"
        "$top/crates/calc/out/calc" "${2:-book}" <"$1" >/dev/null
        end="$(date +%s%N)"
        if [ -z "$least" ] || [ $((end - start)) -lt "$least" ]; then least=$((end - start)); fi
    done
    echo "$least"
}

"$top/calc" book <nothing
for compiler in gcc clang; do
    "$compiler" -O3 -march=x86-64-v2 -o "c_$compiler" "$top/bench/recalc/recalc.c"
    for _ in 1 2 3; do "./c_$compiler" 2>>sums; done >>plain
done
[ "$(sort -u sums | wc -l)" = 1 ]
# The program comes to the same sums.
awk 'BEGIN { print "set A1 19\nset A50000 19\ninsert 50000 1\nset A99993 999\nprint C100001:D100001" }' >same
{ grep set scattered; printf 'set C1 =SUM([.B1:.B100000])\nprint C1\n'; } >twice
shown="$("$top/crates/calc/out/calc" book <same | tail -n 1 | tr ',' ' ') $("$top/crates/calc/out/calc" pairs <twice | tail -n 1)"
[ "$shown" = "$(sort -u sums)" ] || { echo "the sums differ: $shown, $(sort -u sums)" >&2; exit 1; }

idle="$(time_of nothing)"
once="$(time_of full)"
printf '%-10s %10s %10s %10s\n' edit calc C ratio
line() {
    awk -v edit="$1" -v calc="$2" '
        $1 == edit && (least == "" || $2 < least) { least = $2 }
        END { printf "%-10s %10.3f %10.3f %10.0f\n", edit, calc / 1000000, least / 1000000, (least > 0 ? calc / least : 0) }' plain
}
line full $((once - idle))
for edit in first middle insert last; do
    times="$(($(grep -c calc "$edit") - 1))"
    line "$edit" $((($(time_of "$edit") - once) / times))
done
line scattered $((($(time_of scattered pairs) - $(time_of full pairs)) / 1000))
