#!/bin/sh
# Builds big.elf and little.elf beside this script: examples/monitor/build.sh
# Needs Debian's gcc-mips-linux-gnu and gcc-mipsel-linux-gnu (12.2 made the files that stand here).
set -eu
cd -- "$(dirname -- "$0")"
build() {
    "$1-gcc" "$2" -march=mips32 -mabi=32 -msoft-float -mno-abicalls -fno-pic -G0 -ffreestanding -nostdlib -static \
        -fno-jump-tables -mno-branch-likely -O1 -fno-ivopts -Wall -Wextra \
        -Wl,--build-id=none,-z,max-page-size=16 -T monitor.ld -o "$3" monitor.c
}
build mips-linux-gnu -EB big.elf
build mipsel-linux-gnu -EL little.elf
