#!/bin/sh
# Measures the archive beside the package fast and the model: bench.sh [instructions|times]. Makes the archive if it is not there.
# On x86-64 callgrind counts (Debian's package valgrind). On Arm callgrind cannot count what an emulator runs, and the emulator
# itself counts; times mean nothing there.
set -eu
cd "$(dirname "$0")/../.."
. model/compare/cross.sh
make -s lib || exit 1 # make has said why
what=${1:-instructions}
bench="cargo run -q --release --manifest-path model/compare/Cargo.toml --bin bench --"
if [ -z "$emulate" ]; then
    exec $bench "$what"
fi
[ "$what" = instructions ] || fail "$what cannot be measured under an emulator: only instructions can"
export EMULATE="$emulate"
exec $bench instructions emulated
