#!/usr/bin/env bash
# Times each public call of calc_num against plain C that does the same, on the same data in the same run.
#
# bench/decimals/decimals.h and decimals.c are the C. gcc builds it, and clang where it is on the path or in
# the toolchain that runs `rt`; of their times the least counts. bench/decimals/program has the Rattle side:
# its files end in `.rattle`, since an `.rt` file belongs to a crate of crates.txt, and become the sources of
# a crate in a repository of their own beside a copy of calc_num.
#
# Prints a line a call: its name, the data (small: amounts and short texts; wide: up to 27 digits), the
# nanoseconds a call of calc and of C, and the ratio of the two. All programs give checksums of all results,
# and the script fails where two differ. It takes some minutes, most of them for proofs from nothing.
set -euo pipefail

top="$(cd "$(dirname "$0")/.." && pwd)"
source="$top/bench/decimals"
source "$top/bench/program.sh"
work="$(mktemp -d)"
trap 'rm -rf "$work"' EXIT

build_program "$work" decimals "$source/program" "calc_num"

# Rattle compiles for x86-64-v2, and so does the C.
flags=(-O3 -march=x86-64-v2 -isystem "$(gcc -print-file-name=include)")
kit="$(dirname "$(dirname "$(readlink -f "$(command -v rt)")")")/toolchain/bin/clang"
for compiler in gcc clang "$kit"; do
    command -v "$compiler" >/dev/null || continue
    "$compiler" "${flags[@]}" -c -o "$work/decimals.o" "$source/decimals.c"
    gcc -o "$work/c_$(echo "$compiler" | tr / _)" "$work/decimals.o" -lm
done

# In turn, since other work on the machine comes and goes. The least time of each call counts.
for _ in 1 2 3 4 5; do
    "$work/crates/decimals/out/decimals" | sed 's/^/calc /'
    for program in "$work"/c_*; do "$program" | sed 's/^/C /'; done
done >"$work/lines"

# A line: whose it is, name, data, rounds, nanoseconds of those rounds, two checksums.
printf '%-10s %-6s %8s %8s %6s\n' call data calc C ratio
awk '
    { key = sprintf("%-10s %-6s", $2, $3); nanos = $5 / $4 / 4096 }
    !(key in results) { results[key] = $6 " " $7; keys[++count] = key }
    results[key] != $6 " " $7 { print "the results of " key " differ"; wrong = 1 }
    !(($1, key) in least) || nanos < least[$1, key] { least[$1, key] = nanos }
    END {
        for (at = 1; at <= count; at++) {
            key = keys[at]
            calc = least["calc", key]
            c = least["C", key]
            printf "%s %8.1f %8.1f %6.2f\n", key, calc, c, calc / c
        }
        exit wrong || count != 32
    }
' "$work/lines"
