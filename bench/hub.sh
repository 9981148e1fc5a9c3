#!/usr/bin/env bash
# Times calls on a hub of listener_hub, which knows runs of formulas, against a C program that keeps for each cell a
# growing list of the cells that read it, and against ixion's tracker of dirty cells, in the same run.
#
# bench/hub/hub.c is the C. gcc builds it, and clang where it is on the path or in the toolchain that runs `rt`; of
# their times the least counts. bench/hub/ixion.cpp is built where Debian's libixion-dev is installed, and is left out
# elsewhere. bench/hub/program has the Rattle side: its files end in `.rattle`, since an `.rt` or `.antt` file belongs to
# a crate of crates.txt, and become those of a crate in a repository of their own beside copies of the crates that it
# stands on.
#
# The calls: three runs of 100,000 rows are attached (`=[.A1]*2` in B, a chain `=[.C1]+[.B2]` in C, `=SUM([.A1:.A8])` in
# D); the readers are asked of a cell that has nine, of one that has one, and of each cell of the chain; the parts are
# asked of the three runs, and what the chain's first cell reaches; a row is inserted in their midst. Beside the runs
# 10,000 formulas of one cell each are attached and detached; alone they see a row inserted at the top. Last, 10,000 and
# 100,000 formulas of one cell each that all read one cell are attached and detached one by one, from the top.
#
# The C writes an entry for each cell that each formula reads, so attaching a run and inserting a row take it long, and
# it gives readers in no order, where a hub sorts them. Its parts stand ready in a table of three runs. Where many cells
# read one it looks for the one that goes, so that detaching them is quadratic. ixion knows no runs, and its queries are
# transitive, so it has the calls alone that it shares with the others. It is run once, since attaching the runs takes it
# about a minute; of the others' five runs the least time counts.
#
# Prints a line a call: its name, the nanoseconds of one, of calc, of C and of ixion, and the ratios of calc to the two.
# `parts` is the three runs together. The programs give checksums, all but those of the parts and of what is reached over
# who reads which cell, and the script fails where two differ; ixion gives only how many cells are reached. It takes some
# minutes, most of them for proofs from nothing.
set -euo pipefail

top="$(cd "$(dirname "$0")/.." && pwd)"
source="$top/bench/hub"
source "$top/bench/program.sh"
work="$(mktemp -d)"
trap 'rm -rf "$work"' EXIT

build_program "$work" hubs "$source/program" "listener_hub ears calc_model calc_addr"

# Rattle compiles for x86-64-v2, and so does the C.
flags=(-O3 -march=x86-64-v2 -isystem "$(gcc -print-file-name=include)")
kit="$(dirname "$(dirname "$(readlink -f "$(command -v rt)")")")/toolchain/bin/clang"
for compiler in gcc clang "$kit"; do
    command -v "$compiler" >/dev/null || continue
    "$compiler" "${flags[@]}" -c -o "$work/hub.o" "$source/hub.c"
    gcc -o "$work/c_$(echo "$compiler" | tr / _)" "$work/hub.o"
done

# In turn, since other work on the machine comes and goes. The least time of each call counts.
for _ in 1 2 3 4 5; do
    "$work/crates/hubs/out/hubs" | sed 's/^/calc /'
    for program in "$work"/c_*; do "$program" | sed 's/^/C /'; done
done >"$work/lines"
if pkg-config --exists libixion-0.17; then
    # shellcheck disable=SC2046
    g++ -O3 -march=x86-64-v2 -std=c++17 $(pkg-config --cflags libixion-0.17) -o "$work/ixion" "$source/ixion.cpp" \
        $(pkg-config --libs libixion-0.17)
    "$work/ixion" | sed 's/^/ixion /' >>"$work/lines"
else
    echo 'ixion is left out: libixion-dev is not installed' >&2
fi

# A line: whose it is, name, how often it was called, nanoseconds, checksum.
printf '%-18s %12s %12s %14s %10s %12s\n' call calc C ixion calc/C calc/ixion
awk '
    function ratio(of, to) { return to ? sprintf("%.5f", of / to) : "-" }
    { key = $2; nanos = $4 / $3; result = key == "reached" ? $5 / $3 : $5 }
    result != "-" && !(key in results) { results[key] = result }
    !(key in seen) { seen[key]; keys[++count] = key }
    result != "-" && results[key] != result {
        print "the results of " key " differ: " $1 " " result " " results[key]
        wrong = 1
    }
    !(($1, key) in least) || nanos < least[$1, key] { least[$1, key] = nanos }
    END {
        for (at = 1; at <= count; at++) {
            key = keys[at]
            calc = least["calc", key]
            c = least["C", key]
            ixion = least["ixion", key]
            printf "%-18s %12.1f %12.1f %14s %10s %12s\n", key, calc, c, ixion ? sprintf("%.1f", ixion) : "-", ratio(calc, c), ratio(calc, ixion)
        }
        exit wrong || count != 14
    }
' "$work/lines"
