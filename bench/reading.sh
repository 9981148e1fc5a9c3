#!/usr/bin/env bash
# Times the reading of formulas, against C that reads the same ones into trees with malloc for each node.
#
# bench/reading/reading.c is the C. gcc builds it, and clang where it is on the path or in the toolchain that runs `rt`;
# of their times the least counts. bench/reading/program has the Rattle side: its files end in `.rattle`, since an `.rt`
# file belongs to a crate of crates.txt, and become the sources of a crate in a repository of their own beside copies of
# the crates that it stands on.
#
# The first text has the 300,000 formulas of a generated book, and the second has 200,000 longer ones with nested calls,
# names, texts, decimals and blanks. Prints a line a text: the nanoseconds a formula of calc and of C, the ratio, and,
# where valgrind is on the path, the instructions a formula of calc and of C by gcc. The least of five runs counts. All
# programs give checksums of all trees, and the script fails where two differ. It takes some minutes, most of them for
# proofs from nothing.
set -euo pipefail

top="$(cd "$(dirname "$0")/.." && pwd)"
source="$top/bench/reading"
source "$top/bench/program.sh"
work="$(mktemp -d)"
trap 'rm -rf "$work"' EXIT

awk 'BEGIN {
    for (i = 1; i <= 100000; i++) {
        print "=[.A" i "]*2"
        print i == 1 ? "=[.B1]" : "=[.C" (i - 1) "]+[.B" i "]"
        if (i >= 8) print "=SUM([.A" (i - 7) ":.A" i "])"
    }
}' >"$work/generated"
awk 'BEGIN {
    for (i = 1; i <= 50000; i++) {
        print "=IF([.A" i "]>=10.25;\"high \"\"tide\"\"\";[$Sheet2.$B$" i "]%)"
        print "=ROUND(price*(1+tax_rate)-SUM([.A1:.B" i "];3;-[.C9])^2;2)&\" EUR\""
        print "=-([.A" i "]+[.A2]*" i ".5)/Max([.C:.D])<>#N/A"
        print "= vlookup( [.A" i "] ; [Sheet3.A1:.C99] ; 2 ) + 1"
    }
}' >"$work/longer"

build_program "$work" reading "$source/program" "byte_cuts formula_reader calc_model calc_addr calc_num anyhow"

# Rattle compiles for x86-64-v2, and so does the C.
flags=(-O3 -march=x86-64-v2 -isystem "$(gcc -print-file-name=include)")
kit="$(dirname "$(dirname "$(readlink -f "$(command -v rt)")")")/toolchain/bin/clang"
for compiler in gcc clang "$kit"; do
    command -v "$compiler" >/dev/null || continue
    "$compiler" "${flags[@]}" -c -o "$work/reading.o" "$source/reading.c"
    gcc -o "$work/c_$(echo "$compiler" | tr / _)" "$work/reading.o"
done

# The instructions a formula of a program's function, by the first 20,000 formulas of a text.
instructions_of() {
    head -n 20000 "$3" >"$work/few"
    valgrind --tool=callgrind --callgrind-out-file=/dev/null --toggle-collect="$2" "$1" "$work/few" 2>&1 |
        awk '/Collected/ { printf "%d", $NF / 20000 }'
}

cd "$work"
# In turn, since other work on the machine comes and goes. The least time of each text counts.
for _ in 1 2 3 4 5; do
    ./crates/reading/out/reading generated longer | sed 's/^/calc /'
    for program in ./c_*; do "$program" generated longer | sed 's/^/C /'; done
done >lines
for text in generated longer; do
    if command -v valgrind >/dev/null; then
        echo "$text $(instructions_of crates/reading/out/reading '*contents_of*' "$text")" \
            "$(instructions_of ./c_gcc read_all "$text")"
    else
        echo "$text - -"
    fi
done >counts

# A line of counts: text, instructions of calc and of C. A line of times: whose it is, text, nanoseconds, formulas,
# checksum.
printf '%-10s %6s %6s %6s %13s %13s\n' text calc C ratio 'calc (instr.)' 'C (instr.)'
awk '
    NR == FNR { instructions[$1] = sprintf("%13s %13s", $2, $3); next }
    { key = $2; nanos = $3 / $4 }
    !(key in results) { results[key] = $4 " " $5; keys[++count] = key }
    results[key] != $4 " " $5 { print "the results of " key " differ"; wrong = 1 }
    !(($1, key) in least) || nanos < least[$1, key] { least[$1, key] = nanos }
    END {
        for (at = 1; at <= count; at++) {
            key = keys[at]
            calc = least["calc", key]
            c = least["C", key]
            printf "%-10s %6.0f %6.0f %6.2f %s\n", key, calc, c, calc / c, instructions[key]
        }
        exit wrong || count != 2
    }
' counts lines
