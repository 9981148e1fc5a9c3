#!/usr/bin/env bash
# Times edits and walks of columns against a C program that keeps a column as one array of numbers and a byte a row for
# its kind, and, where mdds (Debian's libmdds-dev) is installed, against its multi_type_vector, in the same run.
#
# bench/columns/columns.c is the C, bench/columns/mdds.cpp the program over mdds. bench/columns/program has the Rattle
# side: its files end in `.rattle`, since an `.rt` file belongs to a crate of crates.txt, and become those of a crate in
# a repository of their own beside copies of the crates that it stands on.
#
# Prints a line a call: its name, the nanoseconds of one operation of calc, of C and of mdds, and the ratios. All programs
# give checksums, and the script fails where two differ. It takes some minutes.
set -euo pipefail

top="$(cd "$(dirname "$0")/.." && pwd)"
source="$top/bench/columns"
source "$top/bench/program.sh"
work="$(mktemp -d)"
trap 'rm -rf "$work"' EXIT

build_program "$work" columns "$source/program" "run_tables block_column value_column calc_model calc_addr calc_num"

# Rattle compiles for x86-64-v2, and so do the others.
gcc -O3 -march=x86-64-v2 -o "$work/c" "$source/columns.c"
mdds="$(ls -d /usr/include/mdds-* 2>/dev/null | tail -1)"
if [ -n "$mdds" ]; then
    g++ -O3 -march=x86-64-v2 -std=c++17 -I "$mdds" -o "$work/mdds" "$source/mdds.cpp"
fi

# In turn, since other work on the machine comes and goes. The least time of each call counts.
for _ in 1 2 3; do
    "$work/crates/columns/out/columns" | sed 's/^/calc /'
    "$work/c" | sed 's/^/C /'
    if [ -n "$mdds" ]; then "$work/mdds" | sed 's/^/mdds /'; fi
done >"$work/lines"

# A line: whose it is, name, operations, nanoseconds, checksum.
printf '%-18s %10s %10s %10s %7s %7s\n' call calc C mdds to_C to_mdds
awk '
    { key = $2; nanos = $4 / $3 }
    !(key in results) { results[key] = $5; keys[++count] = key }
    results[key] != $5 { print "the results of " key " differ: " $1 " " $5 " " results[key]; wrong = 1 }
    !(($1, key) in least) || nanos < least[$1, key] { least[$1, key] = nanos }
    END {
        for (at = 1; at <= count; at++) {
            key = keys[at]
            calc = least["calc", key]
            c = least["C", key]
            m = least["mdds", key]
            printf "%-18s %10.2f %10.2f %10.2f %7.2f %7.2f\n", key, calc, c, m, c ? calc / c : 0, m ? calc / m : 0
        }
        exit wrong
    }
' "$work/lines"
