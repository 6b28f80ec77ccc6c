#!/bin/bash
# Builds every program of this folder into the build folder by plain rustc calls: Debian's crates, the edited published
# files with this folder's own, then the programs.
#
#   build.sh BUILD_FOLDER FOLDER_OF_PUBLISHED_FILES [on|off]
#
# The last is whether arithmetic is checked for overflow (on: an overflow of the Rust is a panic, so it is seen).
set -euo pipefail
here=$(cd "$(dirname "$0")" && pwd)
build=$1 published=$2 checks=${3:-on}
sh "$here/setup.sh" "$build"
. "$here/tools.sh"
lib=$build/lib
rm -rf "$build/edited" "$lib"
mkdir -p "$lib" "$build/bin" "$build/generated" "$build/edited"
# ORACLE_FLAGS: further switches for rustc, as -C debug-assertions=on
# shellcheck disable=SC2206
flags=(-O ${ORACLE_FLAGS:-} -C "overflow-checks=$checks" -L "$lib")

# library NAME EDITION ROOT_FILE ARGS
library() {
    local name=$1 edition=$2 root=$3
    shift 3
    compile --crate-name "$name" --crate-type rlib --edition "$edition" "${flags[@]}" --out-dir "$lib" "$root" "$@"
}
# debian NAME EDITION ARGS: one of Debian's crates, in the version it has
debian() {
    local name=$1 edition=$2 root
    shift 2
    root=$(ls -d "$build/root/usr/share/cargo/registry/${name//_/-}"-[0-9]*)
    library "$name" "$edition" "$root/src/lib.rs" --cap-lints allow --cfg 'feature="std"' --cfg has_i128 "$@"
}
# needs NAME ..: fills the array `externs`
needs() {
    externs=()
    for name in "$@"; do externs+=(--extern "$name=$lib/lib$name.rlib"); done
}
program() {
    compile --crate-name "$1" --edition 2024 "${flags[@]}" -o "$build/bin/$1" "$here/programs/$1.rs" "${externs[@]}"
}

python3 "$here/radix_bases.py" >"$build/generated/radix_bases.rs"
export OUT_DIR=$build/generated
debian num_traits 2015 --cfg has_copysign --cfg has_int_assignop_ref --cfg has_div_euclid
needs num_traits
debian num_integer 2015 "${externs[@]}"
needs num_traits num_integer
debian num_bigint 2018 --cfg u64_digit --cfg has_try_from "${externs[@]}"
needs num_traits num_integer num_bigint
debian num_rational 2018 --cfg 'feature="num-bigint"' --cfg 'feature="num-bigint-std"' "${externs[@]}"
debian either 2015 --cfg 'feature="use_std"'
needs either
debian itertools 2018 --cfg 'feature="use_std"' --cfg 'feature="use_alloc"' "${externs[@]}"

library compact_str 2024 "$here/published/compact_str.rs"
library wire 2024 "$here/wire/lib.rs"
needs wire
library scope 2024 "$here/scope/lib.rs" "${externs[@]}"
needs wire scope
library generator 2024 "$here/generator/lib.rs" "${externs[@]}"

python3 "$here/edits.py" "$published" "$build/edited"
cp "$here"/published/*.rs "$build/edited/"
needs wire compact_str num_traits num_integer num_rational itertools
library published 2024 "$build/edited/lib.rs" "${externs[@]}"

needs wire scope published
for name in oracle findings; do program "$name"; done
needs wire scope generator
for name in generate compare distances decode bench store; do program "$name"; done
