# Sourced with $build set: `compile ARGS` is rustc for the oracle, `start PROGRAM ..` runs what it wrote.
# A rustc at hand is used as it is, on either processor. On aarch64 without one, Debian's rustc writes x86-64 programs,
# which are linked with the C library of the toolchain kit and run under its emulator.
if command -v "${RUSTC:-rustc}" >/dev/null; then
    compile() { "${RUSTC:-rustc}" "$@"; }
    start() { "$@"; }
else
    kit=$(dirname "$(dirname "$(rt doc)")")/on/aarch64/toolchain
    names=$build/x86lib
    if [ ! -d "$names" ]; then
        mkdir -p "$names"
        loader="AS_NEEDED ( $kit/lib/ld-linux-x86-64.so.2 )"
        echo "GROUP ( $kit/lib/libc.so.6 $kit/lib/libc_nonshared.a $loader )" >"$names/libc.so"
        echo "GROUP ( $kit/lib/libgcc_s.so.1 $kit/lib/libgcc.a )" >"$names/libgcc_s.so"
        echo "INPUT ( $kit/lib/libm.so.6 )" >"$names/libm.so"
        for empty in pthread dl rt util; do printf '!<arch>\n' >"$names/lib$empty.a"; done
        # The emulator ends when a program opens its own memory map, which std does before main unless this call fails.
        echo 'int pthread_getattr_np(unsigned long t, void *a) { (void)t; (void)a; return 38; }' >"$names/no_maps.c"
        "$kit/bin/clang" --target=x86_64-unknown-linux-gnu -O1 -fPIC -c "$names/no_maps.c" -o "$names/no_maps.o"
    fi
    compile() {
        LD_LIBRARY_PATH=$build/root/usr/lib/aarch64-linux-gnu \
            "$build/root/usr/bin/rustc" --sysroot "$build/root/usr" --target x86_64-unknown-linux-gnu \
            -C linker="$kit/bin/ld.lld" -C linker-flavor=ld.lld -C link-arg=-pie \
            -C link-arg=--dynamic-linker=/lib64/ld-linux-x86-64.so.2 -C link-arg="$kit/lib/Scrt1.o" \
            -C link-arg="$kit/lib/crti.o" -C link-arg="$kit/lib/crtbeginS.o" -C link-arg="-L$names" \
            -C link-arg="$names/no_maps.o" -C link-arg="$kit/lib/crtendS.o" -C link-arg="$kit/lib/crtn.o" "$@"
    }
    start() {
        RUST_BACKTRACE=0 "$kit/bin/qemu-x86_64" \
            -E GLIBC_TUNABLES=glibc.cpu.x86_rep_movsb_threshold=100000000:glibc.cpu.x86_rep_stosb_threshold=100000000 \
            "$kit/lib/ld-linux-x86-64.so.2" --library-path "$kit/lib" "$@"
    }
fi
