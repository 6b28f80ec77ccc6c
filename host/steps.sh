# The steps of `test`, sourced with $here, $root, $published and $build set.

# Proves the library and writes its archive, if a source is newer; or takes the one of HOST_ARCHIVE, proved or not.
archive() {
    archive=${HOST_ARCHIVE:-$root/target/staticlib}
    local built=$archive/libdemsharin.a crate=$root/crates/demsharin_c
    if [ -z "${HOST_ARCHIVE:-}" ] && { [ ! -f "$built" ] || newer "$built"; }; then
        (cd "$crate" && rt lib) >"$build/archive.log" 2>&1 || { tail -n 20 "$build/archive.log" >&2 && return 1; }
        mkdir -p "$archive"
        cp "$crate/out/libdemsharin_c.a" "$built"
    fi
    [ -f "$built" ] || { echo "no archive in $archive" >&2 && return 1; }
}

# newer FILE: whether a source of a crate is newer
newer() {
    [ -n "$(find "$root/crates" "$root/crates.txt" -name out -prune -o -newer "$1" -type f -print -quit)" ]
}

# What every step stands on: the tools, the archive, the wrapper over it.
prepare() {
    mkdir -p "$build"
    export link_work=$build/link link_rustc=${RUSTC:-rustc}
    sh "$here/link/setup.sh" "$link_work"
    . "$here/link/env.sh"
    archive
    wrapper=(-L "native=$archive" --extern "demsharin=$build/libdemsharin.rlib")
    rustc_x86 --crate-name demsharin --crate-type rlib --edition 2024 -O -D warnings -D missing_docs -L "native=$archive" \
        --out-dir "$build" "$here/demsharin/src/lib.rs"
}

# oracle_crates on|off: the oracle's crates for x86-64, with overflow checked or not; sets $oracle to their folder.
oracle_crates() {
    local folder=$build/oracle-$1 newest
    oracle=$folder/lib newest=$folder/lib/libpublished.rlib
    (cd "$published" && sha256sum --check --quiet "$here/oracle/published.sha256")
    if [ -f "$newest" ] && [ -z "$(find "$here/oracle" "$here/link" "$published" -name build -prune \
        -o -type f -newer "$newest" -print -quit)" ]; then
        return
    fi
    mkdir -p "$folder"
    # Debian's source packages are fetched once for both.
    if [ ! -e "$folder/fetched" ] && [ -e "$build/oracle-on/fetched" ]; then
        ln -s ../oracle-on/root ../oracle-on/fetched "$folder"
    fi
    RUSTC=$here/link/rustc-x86 bash "$here/oracle/build.sh" "$folder" "$published" "$1" >"$folder/log" 2>&1 || {
        tail -n 20 "$folder/log" >&2
        return 1
    }
}

# program NAME CRATE ..: a program of this folder over the wrapper and these crates of the oracle
program() {
    local name=$1 crate externs=()
    shift
    for crate in "$@"; do externs+=(--extern "$crate=$oracle/lib$crate.rlib"); done
    rustc_x86 --crate-name "$name" --edition 2024 -C opt-level=3 -D warnings -L "$oracle" "${wrapper[@]}" "${externs[@]}" \
        -o "$build/$name" "$here/$name/main.rs"
}

unit() {
    rustc_x86 --test --crate-name demsharin --edition 2024 -O -D warnings -L "native=$archive" -o "$build/unit" \
        "$here/demsharin/src/lib.rs"
    run_x86 "$build/unit" --quiet
}

example() {
    local name
    for name in knots exchange; do
        rustc_x86 --crate-name $name --edition 2024 -O -D warnings "${wrapper[@]}" -o "$build/example-$name" \
            "$here/examples/$name.rs"
        run_x86 "$build/example-$name"
    done
}

# The C program; then, as C++, that the archive has all of the header's functions.
c() {
    local linked=("-I$root/include" "-L$archive" -ldemsharin) names
    cc_x86 "$here/examples/convert.c" "$build/convert" -std=c11 -Wall -Wextra -Wpedantic -Werror "${linked[@]}"
    run_x86 "$build/convert"
    names=$(sed -n 's/^uint32_t \(demsharin_[a-z_]*\)(.*/    (const void *)\1,/p' "$root/include/demsharin.h")
    {
        echo '#include "demsharin.h"'
        echo '#include <stdio.h>'
        echo 'const void *volatile all[] = {'
        echo "$names"
        echo '};'
        echo 'int main() { printf("%zu functions in the header and in the archive\n", sizeof all / sizeof *all); }'
    } >"$build/header.cpp"
    cc_x86 "$build/header.cpp" "$build/header" -std=c++11 -Wall -Wextra -Werror "${linked[@]}"
    run_x86 "$build/header"
}

# seeds NAME SIZE SEED ..: a program over so much of each seed, as many at once as there are processors; then its table
seeds() {
    local name=$1 size=$2 seed failed=0 running=() files=() counts
    shift 2
    [ $# -gt 0 ] || set -- 1 2 3 4 5 6 7 8
    counts=$(mktemp -d "$build/counts.XXXXXX")
    for seed in "$@"; do
        [ ${#running[@]} -lt "${HOST_JOBS:-$(nproc)}" ] || finish_one
        run_x86 "$build/$name" "$seed" "$size" "$counts/$seed" >"$counts/$seed.log" 2>&1 &
        running+=("$! $counts/$seed")
        files+=("$counts/$seed")
    done
    while [ ${#running[@]} -gt 0 ]; do finish_one; done
    run_x86 "$build/$name" --table "${files[@]}" || failed=1
    rm -r "$counts"
    return $failed
}

# Waits for the first of `running`, and prints what it has to say.
finish_one() {
    wait "${running[0]%% *}" || failed=1
    cat "${running[0]#* }.log"
    running=("${running[@]:1}")
}

# compared NAME WHAT N CRATES [--WHAT N] [SEED ..]: a comparison over N for each seed, unless said
compared() {
    local name=$1 what=$2 size=$3 crates
    read -ra crates <<<"$4"
    shift 4
    [ "${1:-}" != "--$what" ] || { size=$2 && shift 2; }
    oracle_crates on
    program "$name" "${crates[@]}"
    seeds "$name" "$size" "$@"
}

# Requests of all calls, table files, knot vectors, counted conversions.
differential() { compared differential requests 130000 'wire scope published generator' "$@"; }
files() { compared files files 130000 'wire scope generator' "$@"; }
knots() { compared knots vectors 26000 'wire scope generator' "$@"; }
counts() { compared counts conversions 30000 'wire scope generator' "$@"; }

# Conversions between units in use by both rules, held against exact fractions.
families() {
    rustc_x86 --crate-name families --edition 2024 -O -D warnings "${wrapper[@]}" -o "$build/families" "$here/families/main.rs"
    run_x86 "$build/families" | python3 "$here/families/judge.py"
}

# speed [compare] [files] [merged] [knots] [counted] [growth] [stack] [--round MILLISECONDS]: the Rust as a release build has
# it, without checks for overflow
speed() {
    oracle_crates off
    program speed wire scope published
    run_x86 "$build/speed" "$@"
}

# The sections of the fold, the same in exact fractions, and their picture. The programs end before anything is drawn, so a
# failure leaves the picture as it was.
fold() {
    rustc_x86 --crate-name fold --edition 2024 -O -D warnings "${wrapper[@]}" -o "$build/fold" "$here/examples/fold.rs"
    run_x86 "$build/fold" >"$build/fold.txt"
    grep -v '^curve' "$build/fold.txt"
    python3 "$root/docs/fold/exact.py" <"$build/fold.txt"
    python3 "$root/docs/fold/draw.py" <"$build/fold.txt"
}
