# Sourced by the benchmarks that call crates themselves.

# The crates among the names given, and those below them, as crates.txt has them.
crates_below() {
    local file="$1"
    shift
    awk -v wanted="$*" '
        function take(name,    words, count, at) {
            if (name in taken || !(name in below)) return
            taken[name] = 1
            count = split(below[name], words, " ")
            for (at = 1; at <= count; at++) take(words[at])
        }
        /^[a-z]/ {
            name = $1
            sub(/:.*/, "", name)
            sub(/^[^:]*:/, "")
            below[name] = $0
            names[++total] = name
        }
        END {
            count = split(wanted, words, " ")
            for (at = 1; at <= count; at++) take(words[at])
            for (at = 1; at <= total; at++) if (names[at] in taken) print names[at]
        }
    ' "$file"
}

# build_program WORK NAME SOURCE USES: makes the program NAME in the folder WORK, in a repository of its own beside
# copies of the crates that it USES and of those below them, and runs it once. Its files, in the folder SOURCE, end in
# `.rattle`, since an `.rt` file belongs to a crate of crates.txt: those in `.antt.rattle` keep their places, and the
# others are its sources. The program is then WORK/crates/NAME/out/NAME, and what it printed in WORK/printed.
build_program() {
    local work="$1" name="$2" source="$3" uses="$4" top crate folder file to
    top="$(cd "$(dirname "${BASH_SOURCE[0]}")/.." && pwd)"
    cp "$top/HANDLES" "$work/"
    # shellcheck disable=SC2086 # the crates are words
    for crate in $(crates_below "$top/crates.txt" $uses); do
        mkdir -p "$work/crates/$crate"
        for folder in src specs proofs; do
            if [ -d "$top/crates/$crate/$folder" ]; then cp -r "$top/crates/$crate/$folder" "$work/crates/$crate/"; fi
        done
        grep "^$crate[: ]" "$top/crates.txt" >>"$work/crates.txt"
    done
    (cd "$source" && find . -name '*.rattle') | while read -r file; do
        case "$file" in
            *.antt.rattle) to="$work/crates/$name/${file%.rattle}" ;;
            *) to="$work/crates/$name/src/$(basename "$file" .rattle).rt" ;;
        esac
        mkdir -p "$(dirname "$to")"
        cp "$source/$file" "$to"
    done
    printf '%s: %s\n' "$name" "$uses" >>"$work/crates.txt"
    (cd "$work/crates/$name" && rt run --jobs 2 >"$work/printed" 2>"$work/log") || {
        cat "$work/log" >&2
        exit 1
    }
}
