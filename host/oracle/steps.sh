# The steps of `run`, sourced with $here, $root, $build, $published and $streams set.

# The codes that `calls` answers, every other being an unknown one to it; and those that are asked.
standing=$(seq -s, 1 31)
asked=${ORACLE_CODES:-$standing}

# The stored records stand beside the program that answers them again.
records=$root/crates/replay/data

# Checks the published files, and builds anew if one of them or a source is newer than the programs.
build() {
    local newest=$build/bin/store
    (cd "$published" && sha256sum --check --quiet "$here/published.sha256")
    if [ ! -f "$newest" ] || [ -n "$(find "$here" "$published" -path "$here/build" -prune \
        -o \( -name '*.rs' -o -name '*.sh' -o -name '*.py' -o -name '*.sha256' \) -newer "$newest" -print -quit)" ]; then
        bash "$here/build.sh" "$build" "$published" on
    fi
    . "$here/tools.sh"
}

# program NAME ARGS
program() {
    local name=$1
    shift
    start "$build/bin/$name" "$@"
}

bench() {
    program bench requests >"$streams/requests"
    program oracle <"$streams/requests" >"$streams/rust"
    program oracle --unaltered <"$streams/requests" >"$streams/unaltered"
    program oracle --reading <"$streams/requests" >"$streams/reading"
    echo '| case | the Rust | the Rust with its own powi and powf | 01 |'
    echo '|---|---|---|---|'
    program bench show "$streams/rust" "$streams/unaltered" "$streams/reading"
}

self() {
    program generate "$@" >"$streams/requests"
    program oracle <"$streams/requests" >"$streams/rust"
    program oracle --reading <"$streams/requests" >"$streams/reading"
    echo "the Rust against 01's reading, generate $*:"
    program compare "$streams/requests" "$streams/rust" "$streams/reading"
}

distances() {
    program generate "$@" >"$streams/requests"
    program oracle <"$streams/requests" >"$streams/rust"
    program oracle --unaltered <"$streams/requests" >"$streams/unaltered"
    program distances "$streams/requests" "$streams/rust" "$streams/unaltered"
}

# A second build without overflow checks, as a release build is unless it asks for them.
findings() {
    local unchecked=$build/unchecked
    mkdir -p "$unchecked"
    [ -e "$unchecked/root" ] || ln -s ../root "$unchecked/root"
    [ -e "$unchecked/fetched" ] || ln -s ../fetched "$unchecked/fetched"
    bash "$here/build.sh" "$unchecked" "$published" off
    program findings requests >"$streams/requests"
    program oracle <"$streams/requests" >"$streams/rust"
    program oracle --beyond <"$streams/requests" >"$streams/beyond"
    start "$unchecked/bin/oracle" --beyond <"$streams/requests" >"$streams/unchecked"
    program oracle --beyond --unaltered <"$streams/requests" >"$streams/unaltered"
    program oracle --reading <"$streams/requests" >"$streams/reading"
    echo '| input | the oracle | the Rust, checked | unchecked | unaltered | 01 |'
    echo '|---|---|---|---|---|---|'
    program findings show "$streams"/{rust,beyond,unchecked,unaltered,reading}
    program findings order
    program findings near
    depths
}

# The cost of one conversion by the depth of the row's definition.
depths() {
    local depth from
    for depth in 4 8 10 12 13 14 15 16; do
        program findings deep "$depth" >"$streams/requests"
        from=$(date +%s%N)
        program oracle --any-cost <"$streams/requests" >"$streams/rust"
        echo "depth $depth: $((($(date +%s%N) - from) / 1000000)) ms"
    done
}

# wrong [list] [files] [halves] [merged] [knots] [counted]: how many answers each wrong reading changes, in 60,000 generated
# requests and in stored records; of 01, which the Rust judges, and of 02's orders 1 to 5, which the right reading judges
wrong() {
    local word
    [ $# -gt 0 ] || set -- list files halves merged knots counted
    for word in "$@"; do "wrong_$word"; done
}

wrong_list() {
    program generate 1 60000 >"$streams/requests"
    program oracle <"$streams/requests" >"$streams/right"
    wrong_table list "wrong reading" "the stored list" "$records"/call-*.bin
}

wrong_files() {
    program generate 1 60000 --calls 24,25,26 --faults 60 >"$streams/requests"
    program oracle --reading <"$streams/requests" >"$streams/right"
    wrong_table files "wrong reading of a table file" "the stored files" "$records"/{named,edges}-files.bin
}

wrong_halves() {
    program generate 1 60000 --halves >"$streams/requests"
    program oracle --reading <"$streams/requests" >"$streams/right"
    wrong_table halves "wrong reading of the halves" "the stored records" "$records"/edges-{limits,admissions,halves}.bin \
        "$records/named-simplifications.bin"
}

# Half of them are made to leave the range. Sums, comparison and simplification, which keep 01's rule, are asked too.
wrong_merged() {
    program generate 1 30000 --calls 27:4,10,14,17,18,21,22 >"$streams/requests"
    program generate 2 30000 --calls 27 --halves >>"$streams/requests"
    program oracle --reading <"$streams/requests" >"$streams/right"
    wrong_table merged "wrong reading of order 3" "the stored records" "$records/edges-merged.bin"
}

# One in six has damaged bytes, so that wrong lengths are met too.
wrong_knots() {
    program generate 1 50000 --calls 28,29 --faults 0 >"$streams/requests"
    program generate 2 10000 --calls 28,29 --faults 0 --wild >>"$streams/requests"
    program oracle --reading <"$streams/requests" >"$streams/right"
    wrong_table knots "wrong reading of order 4" "the stored records" "$records/edges-knots.bin"
}

wrong_counted() {
    program generate 1 60000 --calls 30,31 --faults 0 >"$streams/requests"
    program oracle --reading <"$streams/requests" >"$streams/right"
    wrong_table counted "wrong reading of order 5" "the stored records" "$records/edges-counted.bin"
}

# wrong_table WORD TITLE LIST FILE ..: a line for each wrong reading that wrong.py lists under the word
wrong_table() {
    local word=$1 title=$2 list=$3 name folder generated stored
    shift 3
    program store split "$streams/stored-requests" "$streams/stored" "$@"
    echo "| $title | of 60,000 generated | of $list |"
    echo '|---|---|---|'
    for name in $(python3 "$here/wrong.py" "$word"); do
        folder=$streams/$name
        python3 "$here/wrong.py" "$name" "$folder"
        wrong_reader "$folder"
        generated=$(changed "$folder" "$streams/requests" "$streams/right")
        stored=$(changed "$folder" "$streams/stored-requests" "$streams/stored")
        echo "| $name | $generated | $stored |"
        rm -rf "$folder"
    done
}

# The oracle over a folder's reading in place of `scope`.
wrong_reader() {
    local lib=$build/lib
    compile --crate-name scope --crate-type rlib --edition 2024 -O -A warnings -L "$lib" --extern "wire=$lib/libwire.rlib" \
        --out-dir "$1" "$1/lib.rs"
    compile --crate-name oracle --edition 2024 -O -L "$lib" -o "$1/oracle" "$here/programs/oracle.rs" \
        --extern "wire=$lib/libwire.rlib" --extern "scope=$1/libscope.rlib" --extern "published=$lib/libpublished.rlib"
}

changed() {
    start "$1/oracle" --reading <"$2" >"$streams/reading"
    { program compare "$2" "$3" "$streams/reading" --show 0 || true; } >"$streams/counts"
    sed -n 's/^of .*different \([0-9]*\).*/\1/p' "$streams/counts" | grep . || echo 0
}

# For each call a few requests over tables of up to 19 rows, then many over tables of about 3 (5 for the registry form).
store() {
    local code limit rows
    for code in $(seq 1 23); do
        rows=3
        [ "$code" != 22 ] || rows=5
        program generate $((1000 + code)) 12 --calls "$code" --faults 0 >"$streams/requests"
        program generate $((2000 + code)) 20000 --calls "$code" --faults 0 --rows $rows >>"$streams/requests"
        program oracle <"$streams/requests" >"$streams/rust"
        limit=240000
        [ "$code" != 1 ] || limit=64000
        program store pick "$streams/requests" "$streams/rust" "$records/call-$(printf %02d "$code").bin" "$code" $limit
    done
    python3 "$root/crates/replay/make.py"
}

replay() {
    program store split "$streams/requests" "$streams/stored" "$records"/call-*.bin
    program oracle <"$streams/requests" >"$streams/rust"
    echo "the stored list answered again:"
    program compare "$streams/requests" "$streams/stored" "$streams/rust"
}

# Sets the array `calls`: the command of ORACLE_CALLS, or the project's own program, which `rt run` proves and builds (and
# starts, here on no input) if a source is newer. That is for x86-64.
find_calls() {
    local built=$root/crates/calls/out/calls
    read -ra calls <<<"${ORACLE_CALLS:-}"
    if [ ${#calls[@]} != 0 ]; then
        command -v "${calls[0]}" >"$streams/told" || { echo "no program ${calls[0]}" >&2 && return 1; }
        return
    fi
    if [ ! -f "$built" ] || [ -n "$(find "$root/crates" "$root/crates.txt" -name out -prune -o -newer "$built" -type f -print -quit)" ]; then
        (cd "$root/crates/calls" && rt run) >"$build/calls.log" 2>&1 </dev/null || { tail -n 20 "$build/calls.log" >&2 && return 1; }
    fi
    calls=("$built")
}

# timed NAME COMMAND ..: adds the nanoseconds to `spent`, and ends as the command does
timed() {
    local name=$1 from status=0
    shift
    from=$(date +%s%N)
    "$@" || status=$?
    spent[$name]=$((${spent[$name]:-0} + $(date +%s%N) - from))
    return $status
}

# answered COUNT: `calls` answers the requests; how it ended, and at which request, is said unless it ended with 0
answered() {
    local status=0
    timed calls timeout 900 "${calls[@]}" <"$streams/requests" >"$streams/calls" || status=$?
    [ $status != 0 ] || return 0
    echo "calls ended with status $status"
    [ $status = 124 ] || bad_end "$1"
    return 1
}

# Without the shell's own word on how it ended.
ends_well() {
    timeout 900 "${calls[@]}" <"$streams/part" >"$streams/answers"
} 2>"$streams/told"

# bad_end COUNT: the first request up to which the stream makes `calls` end badly, by halving
bad_end() {
    local low=0 high=$1 middle
    while [ $((high - low)) -gt 1 ]; do
        middle=$(((low + high) / 2))
        program decode "$streams/requests" --count $middle --bytes >"$streams/part"
        if ends_well; then low=$middle; else high=$middle; fi
    done
    echo "it does so from this on:"
    program decode "$streams/requests" --from $low --count 1
}

# mixed SEED: 70,000 requests, some over few rows, some over up to 128, some with many faults, some by either half
mixed() {
    program generate $(($1 * 4)) 25000 --calls "$asked"
    program generate $(($1 * 4 + 1)) 15000 --calls "$asked" --rows 3 --faults 4
    program generate $(($1 * 4 + 2)) 10000 --calls "$asked" --rows 128 --faults 4
    program generate $(($1 * 4 + 3)) 10000 --calls "$asked" --faults 60
    program generate $(($1 * 4 + 3)) 10000 --calls "$asked" --halves
}

# Over seeds: `calls` against the Rust inside its domain, and against 01's reading everywhere.
against() {
    local seed name requests failed=0
    local -A spent=()
    [ $# -gt 0 ] || set -- 1 2 3 4 5 6
    find_calls
    for seed in "$@"; do
        mixed "$seed" >"$streams/requests"
        timed oracle program oracle <"$streams/requests" >"$streams/rust"
        timed reading program oracle --reading <"$streams/requests" >"$streams/reading"
        answered 70000 || failed=1
        program compare "$streams"/{requests,rust,reading,calls} --add "$streams/counts" || failed=1
    done
    echo "calls against the Rust and 01's reading, seeds $*:"
    program compare --table "$streams/counts" || failed=1
    requests=$(($# * 70000))
    for name in calls oracle reading; do
        echo "$name: $((spent[$name] / 1000000)) ms, $((requests * 1000000000 / spent[$name])) requests a second"
    done
    return $failed
}

# Damaged and random requests against 01's reading, in pieces that are not kept; then streams that end badly.
damaged() {
    local count=${1:-1000000} left size seed=0 failed=0
    local ways=(--wild --random '--wild --rows 3' '--random --rows 3 --faults 0' '--wild --rows 128' '--random --rows 128')
    local -A spent=()
    find_calls
    for ((left = count; left > 0 && failed == 0; left -= 50000)); do
        size=$((left < 50000 ? left : 50000))
        # shellcheck disable=SC2086
        program generate $((5000 + seed)) $size --calls "$asked" ${ways[seed % ${#ways[@]}]} >"$streams/requests"
        program oracle --reading <"$streams/requests" >"$streams/reading"
        answered $size || failed=1
        program compare "$streams"/{requests,reading,calls} --add "$streams/counts" || failed=1
        seed=$((seed + 1))
    done
    echo "calls against 01's reading, damaged and random requests, one answer for each:"
    program compare --table "$streams/counts" || failed=1
    endings $((count / 250 + 11))
    return $failed
}

# endings COUNT: what comes before the bad place is answered, then comes the one number, and `calls` ends with 0; sets
# `failed` if not
endings() {
    local folder=$streams/endings file name status
    mkdir "$folder"
    program generate 6000 400 --calls "$standing" --rows 4 >"$streams/requests"
    python3 "$here/endings.py" make "$folder" "$streams/requests" "$standing" 1 "$1"
    for file in "$folder"/*.requests; do
        name=${file%.requests} status=0
        program oracle --reading --standing "$standing" <"$file" >"$name.reading"
        case ${file##*/} in
        *7-*) python3 "$here/endings.py" feed "$file" | timeout 60 "${calls[@]}" >"$name.calls" || status=$? ;;
        *) timeout 60 "${calls[@]}" <"$file" >"$name.calls" || status=$? ;;
        esac
        echo $status >"$name.status"
    done
    python3 "$here/endings.py" check "$folder" "$standing" || failed=1
    for name in $(head -3 "$folder/failed"); do
        echo "stream $name, what can be read of it:"
        program decode "$folder/$name.requests" "$folder/$name.calls"
    done
}

# The records at the limits, made anew with Python's answers; 01's reading, and the Rust inside its domain, answer alike.
edges() {
    local name failed=0
    python3 "$here/edges.py" write "$records"
    python3 -B "$here/halves.py" write "$records"
    python3 -B "$here/merged.py" write "$records"
    python3 -B "$here/knots.py" write "$records"
    python3 -B "$here/counted.py" write "$records"
    for name in limits admissions halves merged knots counted; do
        program store split "$streams/requests" "$streams/stored" "$records/edges-$name.bin"
        program oracle <"$streams/requests" >"$streams/rust"
        program oracle --reading <"$streams/requests" >"$streams/reading"
        echo "$name:"
        program compare "$streams"/{requests,rust,reading,stored} || failed=1
    done
    python3 "$root/crates/replay/make.py"
    return $failed
}

# The stored table files, made anew with Python's answers; the reading answers alike.
files() {
    local name failed=0
    python3 -B "$here/files.py" write "$records"
    for name in named-files edges-files; do
        program store split "$streams/requests" "$streams/stored" "$records/$name.bin"
        program oracle --reading <"$streams/requests" >"$streams/reading"
        echo "$name:"
        program compare "$streams"/{requests,reading,stored} || failed=1
    done
    python3 "$root/crates/replay/make.py"
    return $failed
}

# The named cases: of simplification, of the rules that the algebra leaves free, of a sixteenth base row.
named() {
    named_file simplifications named.py
    named_file rules pinned.py rules
    named_file sixteenth pinned.py sixteenth
    python3 "$root/crates/replay/make.py"
}

# named_file NAME SCRIPT ..: a script's cases, with the Rust's answers inside its domain and 01's reading's elsewhere;
# nothing is stored if the two differ inside it.
named_file() {
    local file=$records/named-$1.bin by
    local cases=(python3 -B "$here/$2" "${@:3}")
    "${cases[@]}" requests >"$streams/requests"
    program oracle <"$streams/requests" >"$streams/rust"
    program oracle --reading <"$streams/requests" >"$streams/reading"
    "${cases[@]}" store "$streams/records" "$streams"/{rust,reading}
    program store split "$streams/requests" "$streams/stored" "$streams/records"
    program compare "$streams"/{requests,rust,reading,stored}
    cp "$streams/records" "$file"
    for by in rust reading; do program decode "$streams/requests" "$streams/$by" >"$streams/$by.text"; done
    "${cases[@]}" table "$streams"/{rust,reading}.text
}

# What `calls` answers in the gate, and 01's answers: the longest knots, then requests with many faults, the last one cut
# short.
stream() {
    local folder=$root/crates/calls
    python3 -B "$here/knots.py" longest >"$streams/requests"
    program generate 7015 160 --calls "$standing" --rows 3 --faults 30 >>"$streams/requests"
    head -c -100 "$streams/requests" >"$folder/stdin"
    program oracle --reading --standing "$standing" <"$folder/stdin" >"$folder/stdout"
    program compare "$folder/stdin" "$folder/stdout" "$folder/stdout"
}
