# What compiles a test program for each target, and what runs it. Sourced with $work, the folder for programs.

machine() { # TARGET: what compiles for it and what runs a program
    case $1 in
    thumbv6m) machine="arm -mcpu=cortex-m0plus" rom=256K ram=16K records=24 run="qemu-system-arm -M microbit" ;;
    thumbv7m) machine="arm -mcpu=cortex-m3" rom=4M ram=4M records=97 run="qemu-system-arm -M mps2-an385" ;;
    thumbv7em) machine="arm -mcpu=cortex-m4" rom=4M ram=4M records=97 run="qemu-system-arm -M mps2-an386" ;;
    riscv32) machine=riscv records=97 run="qemu-system-riscv32 -M virt -bios none" ;;
    aarch64) machine=linux records=97 gcc="aarch64-linux-gnu-gcc -static" run=qemu-aarch64-static ;;
    x86_64) machine=linux records=97 gcc="${CC:-cc}" run= ;;
    esac
    case $machine in
    arm*)
        gcc="arm-none-eabi-gcc ${machine#arm} -mthumb -nostartfiles --specs=nano.specs --specs=nosys.specs -Wl,--gc-sections"
        gcc="$gcc -T firmware/board/cortex_m.ld -Wl,--defsym=ROM=$rom,--defsym=RAM=$ram,--no-warn-rwx-segments,-z,noexecstack"
        gcc="$gcc firmware/board/start.c firmware/tests/cortex_m.c" ;;
    riscv)
        gcc="riscv64-unknown-elf-gcc -march=rv32imac -misa-spec=2.2 -mabi=ilp32 -ffreestanding -nostdlib -T firmware/tests/riscv32.ld"
        gcc="$gcc firmware/tests/riscv32.c -Wl,--no-warn-rwx-segments" ;;
    linux) gcc="$gcc firmware/tests/linux.c" ;;
    esac
    [ "$machine" = linux ] || run="$run -nographic -monitor none -serial none -semihosting-config enable=on,target=native -kernel"
}

program() { # FOLDER NAME SOURCE [WORD...]: compiles SOURCE with the archives of FOLDER
    $gcc -std=gnu11 -O2 -Wall -Wextra "${@:4}" -Ifirmware/tests -I"$1/include" "$3" -DRECORDS=$records "$1"/lib{tongsorrel,lent,host}.a \
        $([ "$machine" != riscv ] || echo -lgcc) -o "$work/$2"
}
