#!/usr/bin/env bash
# Times formulas that are run over two columns of values as token arrays, against C that runs like tokens over the same
# values in the same run.
#
# bench/interpret/interpret.c is the C, with the decimals of bench/decimals. gcc builds it, and clang where it is on the
# path or in the toolchain that runs `rt`; of their times the least counts. bench/interpret/program has the Rattle side:
# its files end in `.rattle`, since an `.rt` or `.antt` file belongs to a crate of crates.txt, and become those of a crate
# in a repository of their own beside copies of the crates that it stands on.
#
# Prints a line a formula: its name, the nanoseconds a run of calc and of C, and the ratio of the two. All programs give
# checksums of all results, and the script fails where two differ. It takes some minutes, most of them for proofs from
# nothing.
set -euo pipefail

top="$(cd "$(dirname "$0")/.." && pwd)"
source="$top/bench/interpret"
source "$top/bench/program.sh"
work="$(mktemp -d)"
trap 'rm -rf "$work"' EXIT

build_program "$work" interpreted "$source/program" "formula_reader formula_code cell_interpreter calc_model calc_addr calc_num"

# Rattle compiles for x86-64-v2, and so does the C.
flags=(-O3 -march=x86-64-v2 -isystem "$(gcc -print-file-name=include)")
kit="$(dirname "$(dirname "$(readlink -f "$(command -v rt)")")")/toolchain/bin/clang"
for compiler in gcc clang "$kit"; do
    command -v "$compiler" >/dev/null || continue
    "$compiler" "${flags[@]}" -c -o "$work/interpret.o" "$source/interpret.c"
    gcc -o "$work/c_$(echo "$compiler" | tr / _)" "$work/interpret.o"
done

# In turn, since other work on the machine comes and goes. The least time of each formula counts.
for _ in 1 2 3; do
    "$work/crates/interpreted/out/interpreted" | sed 's/^/calc /'
    for program in "$work"/c_*; do "$program" | sed 's/^/C /'; done
done >"$work/lines"

# A line: whose it is, name, nanoseconds, checksum.
printf '%-12s %6s %6s %6s\n' formula calc C ratio
awk '
    { key = $2; nanos = $3 / 1000448 }
    !(key in results) { results[key] = $4; keys[++count] = key }
    results[key] != $4 { print "the results of " key " differ"; wrong = 1 }
    !(($1, key) in least) || nanos < least[$1, key] { least[$1, key] = nanos }
    END {
        for (at = 1; at <= count; at++) {
            key = keys[at]
            calc = least["calc", key]
            c = least["C", key]
            printf "%-12s %6.1f %6.1f %6.2f\n", key, calc, c, calc / c
        }
        exit wrong || count != 4
    }
' "$work/lines"
