#!/usr/bin/env bash
# Prints how many kilobytes of a module are loaded and encoded a second, for modules of 1/4, 1/2 and 1 megabyte of plain instructions, and
# beside it, in the same run, how fast `wasm-validate` of Debian's package wabt reads and validates the same file. A rate that stays
# as the size doubles is a time that grows linearly. Run it anywhere in the repository:
#
#   bench/load.sh
source "$(dirname "${BASH_SOURCE[0]}")/common.sh" bench wasm-validate
build

for size in 262144 524288 1048000; do
  python3 - "$size" "$work/module.wasm" <<'MODULE'
import sys

def number(n):
    out = bytearray()
    while n > 127:
        out.append(128 + n % 128)
        n //= 128
    out.append(n)
    return bytes(out)

def section(name, content):
    return bytes([name]) + number(len(content)) + content

# functions of about 1,000 bytes: local.get 0, i64.const 77777, i64.add, local.set 0, over and over
size = int(sys.argv[1])
step = bytes([0x20, 0x00, 0x42]) + bytes([0xD1, 0xDF, 0x04]) + bytes([0x7C, 0x21, 0x00])
body = bytes([0x00]) + step * 111 + bytes([0x0B])
entry = number(len(body)) + body
count = (size - 2048) // (len(entry) + 1)
module = b"\0asm\1\0\0\0"
module += section(1, b"\x01\x60\x01\x7e\x00")
module += section(3, number(count) + b"\x00" * count)
module += section(10, number(count) + entry * count)
open(sys.argv[2], "wb").write(module)
MODULE
  bytes=$(stat -c %s "$work/module.wasm")
  line=$("$program" load "$work/module.wasm")
  start=$(date +%s%N)
  for _ in 1 2 3 4 5; do wasm-validate "$work/module.wasm"; done
  end=$(date +%s%N)
  echo "$line wasm-validate $((bytes * 5 * 1000000 / (end - start))) kB/s"
done
