#!/bin/sh
# Gets what a host of the archive needs beside it into the folder given. The archive is for x86-64: a machine of that kind
# needs its own rustc (1.88 or newer) and cc, and nothing is fetched. For aarch64 Debian has a rustc that writes x86-64
# with its std, and C headers; they are downloaded and unpacked, not installed.
#
#   setup.sh FOLDER
set -eu
folder=$1
[ -f "$folder/ready" ] && exit 0
[ "$(uname -m)" = aarch64 ] || { mkdir -p "$folder" && : >"$folder/ready" && exit 0; }
rm -rf "$folder"
mkdir -p "$folder/deb" "$folder/names"
root=$folder/debian
cd "$folder/deb"

needs() { apt-cache depends "$1" 2>/dev/null | sed -n "s/^ *Depends: \($2\)\$/\1/p" | head -1; }
fetch() {
    std=$(needs libstd-rust-web-dev 'libstd-rust-web-[0-9.]*')
    llvm=$(needs "${std:-missing}" 'libllvm[0-9]*')
    # the headers that come with a C compiler, of the newest one there is
    headers=$(apt-cache search --names-only '^libgcc-[0-9]+-dev$' | cut -d' ' -f1 | sort -V | tail -1)
    apt-get download -qq rustc-web "${std:-missing}" "${llvm:-missing}" libstd-rust-web-dev:amd64 \
        libc6-dev:amd64 "${headers:-missing}:amd64" >fetch.log 2>&1
}
dpkg --print-foreign-architectures | grep -qx amd64 || dpkg --add-architecture amd64
fetch || { apt-get update -qq && fetch; } || { cat fetch.log >&2 && exit 1; }
for deb in *.deb; do dpkg -x "$deb" "$root"; done
rm -f ./*.deb
LD_LIBRARY_PATH=$root/usr/lib/aarch64-linux-gnu "$root/usr/bin/rustc" --version >"$folder/version" 2>&1 || {
    echo "$llvm needs shared libraries that are not here; it is installed for them" >&2
    apt-get install -y -qq --no-install-recommends "$llvm" >"$folder/install.log"
}

# Link names for the x86-64 C library of the kit, with which the kit links its own programs.
kit=$(dirname "$(dirname "$(rt doc)")")/on/aarch64/toolchain
cd "$folder/names"
loader="AS_NEEDED ( $kit/lib/ld-linux-x86-64.so.2 )"
echo "GROUP ( $kit/lib/libc.so.6 $kit/lib/libc_nonshared.a $loader )" >libc.so
echo "GROUP ( $kit/lib/libgcc_s.so.1 $kit/lib/libgcc.a )" >libgcc_s.so
echo "INPUT ( $kit/lib/libm.so.6 )" >libm.so
for empty in pthread dl rt util; do printf '!<arch>\n' >lib$empty.a; done
# The emulator ends when a program opens its own memory map, which Rust's std does before main unless this call fails.
echo 'int pthread_getattr_np(unsigned long t, void *a) { (void)t; (void)a; return 38; }' >no_maps.c
"$kit/bin/clang" --target=x86_64-unknown-linux-gnu -O1 -fPIC -c no_maps.c -o no_maps.o
: >"$folder/ready"
