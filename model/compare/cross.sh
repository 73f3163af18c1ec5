# shellcheck shell=sh
# Sourced by run.sh here and in model/fuzz: what cargo needs to build for x86-64, as the archive is, and to run that here.
# On x86-64 it only looks for cargo. On Arm Debian's cross compiler links and Debian's emulator runs: the kit's emulator (8.2.2) dies
# where a program reads /proc/self/maps, as every Rust program does. Leaves `emulate`, the words before a program, and `built`, the
# folder of cargo's that it lies in.
# shellcheck disable=SC2034
emulate='' built=release

fail() {
    printf '%s: %s\n' "$0" "$1" >&2
    exit 1
}

command -v cargo > /dev/null || fail "cargo is missing: rustup has it, and Debian's package cargo-web (Debian's cargo is too old)"
case $(uname -m) in
    x86_64) ;;
    aarch64)
        # the first toolchain that has Rust's library for x86-64: that of the PATH, then Debian's
        for place in "$(dirname "$(command -v cargo)")" /usr/bin; do
            library=$("$place/rustc" --print target-libdir --target x86_64-unknown-linux-gnu 2> /dev/null) || continue
            [ ! -d "$library" ] || break
        done
        [ -d "${library:-}" ] || fail "Rust's library for x86-64 is missing: rustup target add x86_64-unknown-linux-gnu brings it, or \
dpkg --add-architecture amd64 and Debian's packages rustc-web, cargo-web and libstd-rust-web-dev:amd64"
        PATH=$place:$PATH
        make -s compiler CC=x86_64-linux-gnu-gcc LDFLAGS= || exit 1 # make has said why
        command -v qemu-x86_64 > /dev/null || fail "qemu-x86_64 is missing: Debian's package qemu-user has it"
        # loader and libraries by name, so that they are of one version
        libraries=$(dirname "$(x86_64-linux-gnu-gcc -print-file-name=libc.so.6)")
        emulate="qemu-x86_64 $libraries/ld-linux-x86-64.so.2 --library-path $libraries"
        built=x86_64-unknown-linux-gnu/release
        export CARGO_BUILD_TARGET=x86_64-unknown-linux-gnu
        export CARGO_TARGET_X86_64_UNKNOWN_LINUX_GNU_LINKER=x86_64-linux-gnu-gcc
        export CARGO_TARGET_X86_64_UNKNOWN_LINUX_GNU_RUNNER="$emulate"
        ;;
    *) fail "this machine is $(uname -m), and the archive is for x86-64, or for aarch64 under an emulator" ;;
esac
