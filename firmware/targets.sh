# The compiler's words for each target, and the bits of an address. x86_64 is there for tests: the same way, for this machine.
target_words() {
    case $1 in
    thumbv6m) words='--target=thumbv6m-none-eabi -mcpu=cortex-m0plus' bits=32 ;;
    thumbv7m) words='--target=thumbv7m-none-eabi -mcpu=cortex-m3' bits=32 ;;
    thumbv7em) words='--target=thumbv7em-none-eabi -mcpu=cortex-m4' bits=32 ;;
    riscv32) words='--target=riscv32-unknown-elf -march=rv32imac -mabi=ilp32' bits=32 ;;
    aarch64) words='--target=aarch64-unknown-linux-gnu -mllvm -aarch64-load-store-renaming=false -fPIC' bits=64 ;;
    x86_64) words='--target=x86_64-unknown-linux-gnu -march=x86-64 -fPIC' bits=64 ;;
    *) fail "no target $1: thumbv6m, thumbv7m, thumbv7em, riscv32 or aarch64" ;;
    esac
}
