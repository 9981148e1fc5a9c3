#!/usr/bin/env bash
# Times `CodeTable::intern` over a million formulas with three relative forms, in ratio to the reading of the same
# fields by formula_reader.
#
# bench/codes/program has the program: its files end in `.rattle`, since an `.rt` file belongs to a crate of
# crates.txt, and become the sources of a crate in a repository of their own beside copies of the crates that it
# stands on.
#
# Prints a line for the formulas row by row, as a book is loaded, and one for them column by column: its name, the
# nanoseconds a formula of reading and of interning, and the ratio of the second to the first. The least of five runs
# counts. It takes some minutes, most of them for proofs from nothing.
set -euo pipefail

top="$(cd "$(dirname "$0")/.." && pwd)"
source="$top/bench/codes"
source "$top/bench/program.sh"
work="$(mktemp -d)"
trap 'rm -rf "$work"' EXIT

build_program "$work" codes "$source/program" "formula_code formula_reader calc_model calc_addr"

for _ in 1 2 3 4 5; do
    "$work/crates/codes/out/codes"
done >"$work/lines"

# A line: name, formulas, nanoseconds of reading and of interning, a sum of the codes' numbers.
printf '%-10s %8s %8s %6s\n' order reading intern ratio
awk '
    { key = $1; reading = $3 / $2; interning = $4 / $2 }
    !(key in results) { results[key] = $2 " " $5; keys[++count] = key; read[key] = reading; intern[key] = interning }
    results[key] != $2 " " $5 { print "the results of " key " differ"; wrong = 1 }
    reading < read[key] { read[key] = reading }
    interning < intern[key] { intern[key] = interning }
    END {
        for (at = 1; at <= count; at++) {
            key = keys[at]
            printf "%-10s %8.1f %8.1f %6.2f\n", key, read[key], intern[key], intern[key] / read[key]
        }
        exit wrong || count != 2
    }
' "$work/lines"
