#!/bin/sh
# Installs the library into a folder of its own, and compiles and runs programs with what pkg-config prints.
set -eu
cd "$(dirname "$0")/.."
place=$(mktemp -d)
trap 'rm -rf "$place"' EXIT
if ! command -v pkg-config > /dev/null; then
    echo "installed: pkg-config is missing: Debian's package pkg-config has it" >&2
    exit 1
fi
compile=$(make -s compile-line) || exit 1 # make has said why
make -s install PREFIX="$place"
flags=$(PKG_CONFIG_PATH="$place/lib/pkgconfig" pkg-config --cflags --libs servicebough)
for program in tests/installed.c examples/host.c examples/trace.c examples/sheet.c; do
    # shellcheck disable=SC2086
    $compile -Werror -o "$place/$(basename "$program" .c)" "$program" $flags
done
./run "$place/installed"
