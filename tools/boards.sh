#!/bin/sh
# Installs what compiles firmware for boards and emulates them; does nothing where all is there. No C library is
# among it: the firmware here has none.
set -eu
have() {
    for tool in arm-none-eabi-gcc arm-none-eabi-g++ riscv64-unknown-elf-gcc riscv64-unknown-elf-g++ \
        qemu-system-arm qemu-system-riscv32; do
        command -v "$tool" >/dev/null || return 1
    done
}
if have; then
    exit 0
fi
echo "boards.sh: installing compilers for boards and their emulators" >&2
apt-get update -qq
DEBIAN_FRONTEND=noninteractive apt-get install -y -qq --no-install-recommends \
    gcc-arm-none-eabi gcc-riscv64-unknown-elf qemu-system-arm qemu-system-misc >/dev/null
have || {
    echo "boards.sh: something is still missing" >&2
    exit 1
}
