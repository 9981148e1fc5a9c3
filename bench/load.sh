#!/usr/bin/env bash
# Times the loading of two generated books: one of 100,000 rows with 300,000 formulas, and one of 1,000,000 numbers.
#
# bench/load/load.c is a plain C loop over the same fields, which reads numbers and hashes all else. bench/load/program
# has a program that times the parts of loading: its files end in `.rattle`, since an `.rt` file belongs to a crate of
# crates.txt, and become the sources of a crate in a repository of their own beside copies of the crates that it stands
# on.
#
# Prints a line a book and a number of processors: the milliseconds of a whole run of `calc` with a script that does
# nothing, of `wc -c` and of the C loop, and then of `load` and of its parts: of taking the records and of reading the
# fields, each by one thread; what is left of `load` sets the cells. The least of five runs counts. It takes some
# minutes the first time, most of them for proofs.
set -euo pipefail

top="$(cd "$(dirname "$0")/.." && pwd)"
source="$top/bench/load"
source "$top/bench/program.sh"
work="$(mktemp -d)"
trap 'rm -rf "$work"' EXIT

awk 'BEGIN {
    for (i = 1; i <= 100000; i++) {
        sum = i == 1 ? "=[.B1]" : "=[.C" (i - 1) "]+[.B" i "]"
        window = i < 8 ? "" : "=SUM([.A" (i - 7) ":.A" i "])"
        print (7 + 37 * i) % 1000 ",=[.A" i "]*2," sum "," window
    }
}' >"$work/formulas"
awk 'BEGIN {
    for (i = 0; i < 250000; i++) {
        for (k = 0; k < 4; k++) {
            n = (n * 69069 + 1) % 4294967296
            printf "%d.%02d%s", n % 100000, n % 97, k < 3 ? "," : "\n"
        }
    }
}' >"$work/numbers"

build_program "$work" loading "$source/program" "calc_book book_parts formula_reader calc_model csv anyhow"
gcc -O3 -march=x86-64-v2 -o "$work/c" "$source/load.c"
printf '# nothing\n' >"$work/script"
"$top/calc" "$work/numbers" <"$work/script"

# The nanoseconds of a command.
time_of() {
    local start end
    start="$(date +%s%N)"
    "$@" <"$work/script" >/dev/null
    end="$(date +%s%N)"
    echo $((end - start))
}

cd "$work"
printf '%-9s %5s %6s %6s %6s %6s %8s %8s\n' book cores calc wc C load records reading
for cores in 0 0-3; do
    for book in formulas numbers; do
        for _ in 1 2 3 4 5; do
            echo "$(time_of taskset -c "$cores" "$top/crates/calc/out/calc" "$book")" \
                "$(time_of wc -c "$book")" \
                "$(taskset -c "$cores" ./c "$book" | cut -d ' ' -f 2)" \
                "$(taskset -c "$cores" ./crates/loading/out/loading "$book" | cut -d ' ' -f 2-4)"
        done | awk -v book="$book" -v cores="$([ "$cores" = 0 ] && echo 1 || echo 4)" '
            { for (k = 1; k <= 6; k++) if (NR == 1 || $k < least[k]) least[k] = $k }
            END {
                printf "%-9s %5d %6.0f %6.0f %6.0f", book, cores, least[1] / 1e6, least[2] / 1e6, least[3] / 1e6
                printf " %6.0f %8.0f %8.0f\n", least[6] / 1e6, least[4] / 1e6, least[5] / 1e6
            }'
    done
done
