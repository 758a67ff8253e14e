#!/bin/sh
# native.sh MODULE DIR: writes DIR/libhawsermole.a for the processor of this machine, compiled by the kit's own clang
# from the module that the proved archive is compiled from (module.sh). The kit answers for x86-64 alone:
# elsewhere this archive is for measuring and for tools that an emulator can't run, and not for a product.
set -eu
[ $# -eq 2 ] || { echo "usage: tools/native.sh MODULE DIR" >&2; exit 2; }
mkdir -p "$2"
machine=$(uname -m)
kit=$(dirname "$(dirname "$(readlink -f "$(command -v rt)")")")
# The module's processor is x86-64; clang says that it takes another.
"$kit/toolchain/bin/clang" --target="$machine-linux-gnu" -O3 -fPIC -c -x ir "$1" \
    -o "$2/hawsermole.o" 2>"$2/native.log" || { cat "$2/native.log" >&2; exit 1; }
rm -f "$2/libhawsermole.a"
ar rcs "$2/libhawsermole.a" "$2/hawsermole.o"
