# Where the kit's tools are, and the flags that rattle compiles with on every target.
export PYTHONDONTWRITEBYTECODE=1 # no folders of Python among the sources
kit=$(cd "$(dirname "$(readlink -f "$(command -v rt)")")/.." && pwd)
tools=$kit/toolchain/bin
common="-mllvm -no-trap-after-noreturn -ffunction-sections -fdata-sections -mllvm -trap-unreachable -mllvm -no-x86-call-frame-opt"
common="$common -mllvm -disable-machine-licm -mllvm -disable-postra-machine-licm -mllvm -sink-common-insts=false --no-default-config"
common="$common -no-canonical-prefixes -fintegrated-cc1 -fno-crash-diagnostics -Werror"
fail() {
    echo "firmware/$(basename "$0"): $*" >&2
    exit 1
}
