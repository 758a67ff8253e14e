# The boards, for tools/board.sh and try.sh: `board TARGET` sets what each of them needs to know.
#   for_module    what the kit's clang compiles the module for
#   compiler      Debian's compiler for its firmware, without gcc or g++ at the end; for_firmware: its flags
#   boot, script  of this folder
#   machine       what Debian's emulators have of it, and in words
# No access is unaligned, on no board: a Cortex-M0+ and many RISC-V cores have none, and on a Cortex-M4 they fault in
# memory of the kind that battery-backed memory is often given.
board() {
    cortex_m4="-mcpu=cortex-m4 -mthumb -mno-unaligned-access"
    compiler=arm-none-eabi-
    boot=boot_arm.c
    script=arm.ld
    case $1 in
    thumbv7em-none-eabi)
        for_module="--target=thumbv7em-none-eabi $cortex_m4 -mfloat-abi=soft -meabi gnu"
        for_firmware="$cortex_m4 -mfloat-abi=soft"
        machine="qemu-system-arm -M mps2-an386"
        words="Cortex-M4, soft float, on the emulated mps2-an386"
        ;;
    thumbv7em-none-eabihf)
        for_module="--target=thumbv7em-none-eabihf $cortex_m4 -mfloat-abi=hard -mfpu=fpv4-sp-d16 -meabi gnu"
        for_firmware="$cortex_m4 -mfloat-abi=hard -mfpu=fpv4-sp-d16"
        machine="qemu-system-arm -M mps2-an386"
        words="Cortex-M4, hard float, on the emulated mps2-an386"
        ;;
    thumbv6m-none-eabi)
        for_module="--target=thumbv6m-none-eabi -mcpu=cortex-m0plus -mthumb -meabi gnu"
        for_firmware="-mcpu=cortex-m0plus -mthumb"
        machine="qemu-system-arm -M microbit"
        words="Cortex-M0+, on the emulated microbit, a Cortex-M0 with the same instructions"
        ;;
    riscv32imac-unknown-none-elf)
        for_module="--target=riscv32-unknown-none-elf -march=rv32imac -mabi=ilp32"
        compiler=riscv64-unknown-elf-
        for_firmware="-march=rv32imac -misa-spec=2.2 -mabi=ilp32"
        boot=boot_riscv.c
        script=riscv.ld
        machine="qemu-system-riscv32 -M virt -cpu sifive-e31 -bios none"
        words="RISC-V rv32imac, on the emulated virt with a SiFive E31"
        ;;
    *)
        echo "no board $1" >&2
        exit 2
        ;;
    esac
}
