# Sourced with $link_work set to the folder that setup.sh filled; on x86-64 $link_rustc may name a rustc. Gives, on either:
#   rustc_x86 ARGS              rustc for x86-64, to link an archive of `rt lib`
#   cc_x86 SOURCE OUT ARGS      a C program for x86-64; ARGS go to the compiler or to the linker, -L and -l as they are known
#   run_x86 PROGRAM ARGS        runs either: directly, or under the kit's emulator, loader and C library
if [ "$(uname -m)" = aarch64 ]; then
    link_kit=$(dirname "$(dirname "$(rt doc)")")/on/aarch64/toolchain
    link_start=("$link_kit/lib/Scrt1.o" "$link_kit/lib/crti.o" "$link_kit/lib/crtbeginS.o")
    link_end=("$link_kit/lib/crtendS.o" "$link_kit/lib/crtn.o")
    link_how=(-pie --dynamic-linker=/lib64/ld-linux-x86-64.so.2 "-L$link_work/names")
    rustc_x86() {
        local argument arguments=()
        for argument in "${link_how[@]}" "${link_start[@]}" "$link_work/names/no_maps.o" "${link_end[@]}"; do
            arguments+=(-C "link-arg=$argument")
        done
        LD_LIBRARY_PATH=$link_work/debian/usr/lib/aarch64-linux-gnu \
            "$link_work/debian/usr/bin/rustc" --sysroot "$link_work/debian/usr" --target x86_64-unknown-linux-gnu \
            -C linker="$link_kit/bin/ld.lld" -C linker-flavor=ld.lld "${arguments[@]}" "$@"
    }
    # The kit's clang has no headers of its own.
    link_headers=(-nostdinc -isystem "$(echo "$link_work"/debian/usr/lib/gcc/x86_64-linux-gnu/*/include)"
        -isystem "$link_work/debian/usr/include" -isystem "$link_work/debian/usr/include/x86_64-linux-gnu")
    cc_x86() {
        local source=$1 out=$2 argument compiler=() linker=()
        shift 2
        for argument in "$@"; do
            case $argument in
            -L* | -l*) linker+=("$argument") ;;
            *) compiler+=("$argument") ;;
            esac
        done
        "$link_kit/bin/clang" --target=x86_64-unknown-linux-gnu -fPIC "${link_headers[@]}" "${compiler[@]}" -c "$source" -o "$out.o"
        "$link_kit/bin/ld.lld" "${link_how[@]}" "${link_start[@]}" "$out.o" "${linker[@]}" -lc "${link_end[@]}" -o "$out"
    }
    run_x86() {
        # A backtrace would open the memory map, which ends the emulator. Large copies by `rep movsb` are very slow under
        # it, so the C library is told to do without.
        RUST_BACKTRACE=0 "$link_kit/bin/qemu-x86_64" \
            -E GLIBC_TUNABLES=glibc.cpu.x86_rep_movsb_threshold=100000000:glibc.cpu.x86_rep_stosb_threshold=100000000 \
            "$link_kit/lib/ld-linux-x86-64.so.2" --library-path "$link_kit/lib" "$@"
    }
else
    rustc_x86() { "${link_rustc:-rustc}" --target x86_64-unknown-linux-gnu "$@"; }
    cc_x86() {
        local source=$1 out=$2
        shift 2
        "${CC:-cc}" "$source" -o "$out" "$@"
    }
    run_x86() { "$@"; }
fi
