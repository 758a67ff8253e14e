#!/bin/sh
# board.sh MODULE TARGET DIR: writes DIR/libhawsermole.a for a board, compiled by the kit's own clang from the module
# that the proved archive is compiled from (module.sh), with the kit's own flags but for the processor's. The kit
# answers for x86-64 alone: this archive is tested, by `make board`.
set -eu
[ $# -eq 3 ] || { echo "usage: tools/board.sh MODULE TARGET DIR" >&2; exit 2; }
root=$(cd "$(dirname "$0")/.." && pwd)
. "$root/board/targets.sh"
board "$2"
bin=$(dirname "$(dirname "$(readlink -f "$(command -v rt)")")")/toolchain/bin
mkdir -p "$3"
# As text, before any pass; it mustn't depend on the size of a pointer.
"$bin/clang" --target=x86_64-unknown-linux-gnu -S -emit-llvm -Xclang -disable-llvm-passes -x ir "$1" -o "$3/module.ll"
awk -f "$root/tools/board.awk" "$3/module.ll" >&2 || { echo "board.sh: the module isn't fit for 32 bits" >&2; exit 1; }
# The board's triple and layout in place of x86-64's, and no processor of that kind at any function.
# shellcheck disable=SC2086
"$bin/clang" $for_module -S -emit-llvm -x c /dev/null -o - | grep '^target ' >"$3/board.ll"
[ "$(wc -l <"$3/board.ll")" -eq 2 ] || { echo "board.sh: no triple and layout of $2" >&2; exit 1; }
sed -e '/^target /d' -e '/^attributes /s/ "target-cpu"="x86-64"//' -e '/^attributes /s/ "probe-stack"="inline-asm" "stack-probe-size"="[0-9]*"//' \
    "$3/module.ll" >>"$3/board.ll"
# shellcheck disable=SC2086
"$bin/clang" $for_module --no-default-config -Werror -O2 -ffunction-sections -fdata-sections \
    -mllvm -trap-unreachable -mllvm -no-trap-after-noreturn -mllvm -disable-machine-licm \
    -mllvm -disable-postra-machine-licm -mllvm -sink-common-insts=false -c -x ir "$3/board.ll" -o "$3/hawsermole.o"
rm -f "$3/libhawsermole.a"
"$bin/llvm-ar" rcs "$3/libhawsermole.a" "$3/hawsermole.o"
