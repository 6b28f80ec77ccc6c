#!/bin/sh
# Fetches what the oracle needs into the build folder: Debian's source packages of num-rational and itertools with what
# they stand on, and on aarch64 without a rustc also Debian's rustc with the x86-64 std. Nothing is installed for x86-64.
set -eu
build=$1
[ -f "$build/fetched" ] && exit 0
mkdir -p "$build/deb" "$build/root"
cd "$build/deb"
crates='librust-num-rational-dev librust-num-bigint-dev librust-num-integer-dev librust-num-traits-dev
    librust-itertools-dev librust-either-dev'
depends() { apt-cache depends "$1" 2>/dev/null | sed -n "s/^ *Depends: \($2\)\$/\1/p" | head -1; }

# A machine of the other kind that has no rustc of its own gets one that writes x86-64, as no other std is packaged for it.
packages() {
    echo "$crates"
    [ "$(uname -m)" = aarch64 ] && ! command -v "${RUSTC:-rustc}" >/dev/null || return 0
    std=$(depends libstd-rust-web-dev 'libstd-rust-web-[0-9.]*')
    llvm=$(depends "$std" 'libllvm[0-9]*')
    echo "rustc-web ${std:-missing} ${llvm:-missing} libstd-rust-web-dev:amd64"
}
fetch() {
    # shellcheck disable=SC2046
    apt-get download -qq $(packages) >fetch.log 2>&1
}
if [ "$(uname -m)" = aarch64 ] && ! command -v "${RUSTC:-rustc}" >/dev/null; then
    dpkg --print-foreign-architectures | grep -qx amd64 || dpkg --add-architecture amd64
fi
fetch || { apt-get update -qq && fetch; } || { cat fetch.log >&2; exit 1; }
for deb in *.deb; do dpkg -x "$deb" "$build/root"; done
rm -f ./*.deb
: >"$build/fetched"
