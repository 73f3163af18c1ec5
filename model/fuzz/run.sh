#!/bin/sh
# Builds the fuzz target and runs it: run.sh SECONDS. Needs clang with its runtime (Debian: clang, libclang-rt-14-dev) and cargo.
# On Arm an emulator runs it, and without AddressSanitizer: the emulator notes every page of a mapping, and the shadow of
# AddressSanitizer is so large that the notes fill the memory. The pages round each lent slice guard there as on x86-64. A finding
# ends the run with its status there too, but libFuzzer dies as it reports it, and keeps no file of the input.
set -eu
cd "$(dirname "$0")/../.."
seconds=${1:-600}
work=$PWD/target/fuzz
. model/compare/cross.sh
compile="clang -fsanitize=fuzzer,address" packages="clang and libclang-rt-14-dev"
if [ -n "$emulate" ]; then
    compile="clang --target=x86_64-linux-gnu -fsanitize=fuzzer"
    packages="clang, libclang-rt-14-dev:amd64 (after dpkg --add-architecture amd64) and libstdc++-12-dev-amd64-cross"
fi
# a target of its own first, so that what is missing is said in one sentence and not by a linker
echo 'int LLVMFuzzerTestOneInput(const char *data, unsigned long size) { return size > 9 && data == 0; }' \
    | $compile -x c -o /dev/null - 2> /dev/null || fail "clang makes no x86-64 fuzz target here: Debian's packages $packages have what is needed"
make -s lib || exit 1 # make has said why
mkdir -p "$work/corpus"
RUSTFLAGS="-Cpasses=sancov-module -Cllvm-args=-sanitizer-coverage-level=4 -Cllvm-args=-sanitizer-coverage-inline-8bit-counters -Cllvm-args=-sanitizer-coverage-pc-table" \
    cargo build -q --release --manifest-path model/fuzz/Cargo.toml --target-dir "$work/model"
$compile -std=c11 -Wall -Wextra -Wpedantic -g -O1 -Iinclude -o "$work/fuzz" model/fuzz/fuzz.c \
    "$work/model/$built/libbeside.a" target/staticlib/libservicebough.a -lpthread -ldl -lm
cargo run -q --release --manifest-path model/compare/Cargo.toml --bin compare -- seeds 400 1 "$work/corpus"
cd "$work"
exec $emulate ./fuzz -max_len=40000 -max_total_time="$seconds" -print_final_stats=1 -timeout=10 corpus
