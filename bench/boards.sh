#!/usr/bin/env bash
# Times draws and marks on the boards of work_board by 1, 2 and 4 workers against C11 atomics in POSIX threads that do
# the same, in the same run: 4,000,000 units are drawn, and each worker marks each of 4,194,304 bits.
#
# bench/boards/boards.c is the C. gcc builds it, and clang where it is on the path or in the toolchain that runs
# `rt`; of their times the least counts. bench/boards/program has the Rattle side: its files end in `.rattle`, since
# an `.rt` file belongs to a crate of crates.txt, and become a crate in a repository of their own beside a copy of
# work_board.
#
# Prints a line a run: its name, its workers, the nanoseconds a draw, or a mark of all workers' marks, of calc and of
# C, and the ratio of the two. The start of the threads is in the times. All programs give checksums of what the
# workers drew or marked first, and the script fails where two differ. It takes some minutes, most of them for proofs
# from nothing. On a machine with other work, or with fewer processors than workers, the times of more than one
# worker say little.
set -euo pipefail

top="$(cd "$(dirname "$0")/.." && pwd)"
source="$top/bench/boards"
source "$top/bench/program.sh"
work="$(mktemp -d)"
trap 'rm -rf "$work"' EXIT

build_program "$work" boards "$source/program" "work_board"

# Rattle compiles for x86-64-v2, and so does the C.
flags=(-O3 -march=x86-64-v2 -pthread -isystem "$(gcc -print-file-name=include)")
kit="$(dirname "$(dirname "$(readlink -f "$(command -v rt)")")")/toolchain/bin/clang"
for compiler in gcc clang "$kit"; do
    command -v "$compiler" >/dev/null || continue
    "$compiler" "${flags[@]}" -c -o "$work/boards.o" "$source/boards.c"
    gcc -pthread -o "$work/c_$(echo "$compiler" | tr / _)" "$work/boards.o"
done

# In turn, since other work on the machine comes and goes. The least time of each run counts.
for _ in 1 2 3 4 5 6 7; do
    "$work/crates/boards/out/boards" | sed 's/^/calc /'
    for program in "$work"/c_*; do "$program" | sed 's/^/C /'; done
done >"$work/lines"

# A line: whose it is, name, workers, nanoseconds, checksum.
printf '%-6s %7s %6s %6s %6s\n' call workers calc C ratio
awk '
    { key = sprintf("%-6s %7s", $2, $3); nanos = $4 / ($2 == "draw" ? 4000000 : 4194304 * $3) }
    !(key in results) { results[key] = $5; keys[++count] = key }
    results[key] != $5 { print "the results of " key " differ"; wrong = 1 }
    !(($1, key) in least) || nanos < least[$1, key] { least[$1, key] = nanos }
    END {
        for (at = 1; at <= count; at++) {
            key = keys[at]
            calc = least["calc", key]
            c = least["C", key]
            printf "%s %6.2f %6.2f %6.2f\n", key, calc, c, calc / c
        }
        exit wrong || count != 6
    }
' "$work/lines"
