#!/bin/sh
# Builds big.elf and little.elf beside this script: examples/sensor/build.sh
# Needs Debian's gcc-mips-linux-gnu and gcc-mipsel-linux-gnu (12.2 made the files that stand here).
set -eu
cd -- "$(dirname -- "$0")"
build() {
    "$1-gcc" -march=mips32 -mabi=32 "$2" -msoft-float -mno-abicalls -fno-pic -G0 -mno-branch-likely -O2 -Wall -Wextra \
        -ffreestanding -nostdlib -static -T sensor.ld -Wl,-z,max-page-size=16 -Wl,--build-id=none -o "$3" sensor.c
}
build mips-linux-gnu -EB big.elf
build mipsel-linux-gnu -EL little.elf
