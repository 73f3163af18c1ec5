#!/bin/sh
# Compares the archive, and the package fast, with the model: run.sh clock|engine|walk|reply CASES SEED [exact]. Makes the archive if it is not there.
set -eu
cd "$(dirname "$0")/../.."
. model/compare/cross.sh
make -s lib || exit 1 # make has said why
exec cargo run -q --release --manifest-path model/compare/Cargo.toml --bin compare -- "$@"
