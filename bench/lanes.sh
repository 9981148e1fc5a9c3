#!/usr/bin/env bash
# Times each call of lane_kernels over 1,048,576 small numbers against plain C loops that do the same, on the same
# numbers in the same run.
#
# bench/lanes/lanes.c is the C. gcc builds it, and clang where it is on the path or in the toolchain that runs
# `rt`; of their times the least counts. bench/lanes/program has the Rattle side: its files end in `.rattle`, since
# an `.rt` file belongs to a crate of crates.txt, and become the sources of a crate in a repository of their own
# beside copies of lane_kernels and of the crates that it stands on.
#
# Prints a line a call: its name, the nanoseconds an item of calc and of C, and the ratio of the two. All programs
# give checksums of all results, and the script fails where two differ. It takes some minutes, most of them for
# proofs from nothing.
set -euo pipefail

top="$(cd "$(dirname "$0")/.." && pwd)"
source="$top/bench/lanes"
source "$top/bench/program.sh"
work="$(mktemp -d)"
trap 'rm -rf "$work"' EXIT

build_program "$work" lanes "$source/program" "lane_kernels calc_model"

# Rattle compiles for x86-64-v2, and so does the C.
flags=(-O3 -march=x86-64-v2 -isystem "$(gcc -print-file-name=include)")
kit="$(dirname "$(dirname "$(readlink -f "$(command -v rt)")")")/toolchain/bin/clang"
for compiler in gcc clang "$kit"; do
    command -v "$compiler" >/dev/null || continue
    "$compiler" "${flags[@]}" -c -o "$work/lanes.o" "$source/lanes.c"
    gcc -o "$work/c_$(echo "$compiler" | tr / _)" "$work/lanes.o"
done

# In turn, since other work on the machine comes and goes. The least time of each call counts.
for _ in 1 2 3 4 5; do
    "$work/crates/lanes/out/lanes" | sed 's/^/calc /'
    for program in "$work"/c_*; do "$program" | sed 's/^/C /'; done
done >"$work/lines"

# A line: whose it is, name, nanoseconds, checksum.
printf '%-12s %6s %6s %6s\n' call calc C ratio
awk '
    { key = $2; nanos = $3 / 1048576 }
    !(key in results) { results[key] = $4; keys[++count] = key }
    results[key] != $4 { print "the results of " key " differ"; wrong = 1 }
    !(($1, key) in least) || nanos < least[$1, key] { least[$1, key] = nanos }
    END {
        for (at = 1; at <= count; at++) {
            key = keys[at]
            calc = least["calc", key]
            c = least["C", key]
            printf "%-12s %6.2f %6.2f %6.2f\n", key, calc, c, calc / c
        }
        exit wrong || count != 10
    }
' "$work/lines"
