# What the scripts of this folder share: the boards, and what each needs. Sourced in the repository's
# root by a script that sets `name`, the word that stands before its lines.
boards='aarch64-linux-gnu arm-linux-gnueabihf riscv64-linux-gnu'
# The module to build from, and the folder of what is built: those of the proved library, if not set.
module=${CVR_MODULE:-target/boards/module.ll}
built=${CVR_BUILT:-target/boards}

# stop TEXT: ends the script
stop() {
    echo "$name: $1" >&2
    exit 3
}

# The folder of the toolchain's programs for this machine.
toolchain() {
    echo "$(dirname "$(dirname "$(readlink -f "$(command -v rt)")")")/toolchain"
}

# Debian's packages: of the compiler, and of the C library for whole programs.
compiler_package() {
    echo "gcc-$1"
}
library_package() {
    case $1 in
    aarch64-linux-gnu) echo libc6-dev-arm64-cross ;;
    arm-linux-gnueabihf) echo libc6-dev-armhf-cross ;;
    riscv64-linux-gnu) echo libc6-dev-riscv64-cross ;;
    esac
}

# The processor that Debian's compiler of the same name builds for.
processor() {
    case $1 in
    aarch64-linux-gnu) echo -march=armv8-a ;;
    arm-linux-gnueabihf) echo -march=armv7-a -mthumb -mfpu=vfpv3-d16 -mfloat-abi=hard ;;
    riscv64-linux-gnu) echo -march=rv64gc -mabi=lp64d ;;
    esac
}

# C that the processor needs beside the entry points.
helper() {
    case $1 in arm-*) echo boards/divide.c ;; esac
}

# The program that runs the board's programs here.
runner() {
    echo "qemu-${1%%-*}"
}
