#!/usr/bin/env bash
# Times dirty_spread over a hub of listener_hub: which formulas are stale once an area was touched, and their waves.
#
# bench/waves/program has the program: its files end in `.rattle`, since an `.rt` or `.antt` file belongs to a crate of
# crates.txt, and become those of a crate in a repository of their own beside copies of the crates that it stands on.
#
# The books: the generated book of 100,000 rows, of which `A1`, a cell in the midst of A, and all of A are touched;
# 50,000 formulas of one cell each, two rows apart, that all read `A1`, which is touched; and 4,000 rows of formulas in B
# with sums of all of B down to the row and of 8 rows of it, of which all of A is touched.
#
# Prints a line a call: its name, how often it was made, the nanoseconds of the fastest, and how many cells are stale or
# how many waves there are. It takes some minutes, most of them for proofs from nothing.
set -euo pipefail

top="$(cd "$(dirname "$0")/.." && pwd)"
source="$top/bench/waves"
source "$top/bench/program.sh"
work="$(mktemp -d)"
trap 'rm -rf "$work"' EXIT

build_program "$work" spreads "$source/program" "dirty_spread listener_hub registration_slab ears cell_runs calc_model calc_addr"
cat "$work/printed"
