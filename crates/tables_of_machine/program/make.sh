#!/bin/sh
# Makes `../data/crash`, a small executable, with Debian's package gcc-riscv64-unknown-elf, and `../data/core`, its core file as Linux
# lays it out.
set -e
cd "$(dirname "$0")"
riscv64-unknown-elf-gcc -march=rv32im -mabi=ilp32 -O1 -g -nostdlib -ffreestanding -fdebug-prefix-map="$PWD"=. \
    -Wl,-z,max-page-size=4096 -Wl,-z,noexecstack -o ../data/crash crash.c
pc=0x$(riscv64-unknown-elf-objdump -d ../data/crash | sed -n 's/^ *\([0-9a-f]*\):.*sw.*,0(zero).*/\1/p')
counters=0x$(riscv64-unknown-elf-nm ../data/crash | sed -n 's/ b counters//p')
python3 core.py "$pc" "$counters"
