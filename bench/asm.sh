#!/usr/bin/env bash
# Prints how long a text of about 900 kilobytes of plain functions takes to be assembled, and a text of half that size, and beside each, in the
# same run, how long `wat2wasm` of Debian's package wabt takes for the same file, its start, reading and writing included. Each time is the
# least of seven runs in turn. A time that doubles as the text does is one that grows linearly. Run it anywhere in the repository:
#
#   bench/asm.sh
source "$(dirname "${BASH_SOURCE[0]}")/common.sh" bench wat2wasm
build

for size in 450000 900000; do
  python3 - "$size" "$work/module.wat" <<'TEXT'
import sys

# functions of about 600 bytes, half of them in folded form and half in flat form
size = int(sys.argv[1])
parts = ["(module"]
length = len(parts[0])
while length < size - 1000:
    number = len(parts)
    folded = f" (local.set $n (i64.add (local.get $n) (i64.const {number})))\n"
    flat = f"  local.get $n i64.const 0x{number:x} i64.xor local.set $n\n"
    parts.append(f"\n (func $f{number} (param $n i64) (result i64)\n" + (folded + flat) * 5 + "  local.get $n)")
    length += len(parts[-1])
parts.append(")\n")
open(sys.argv[2], "w").write("".join(parts))
TEXT
  for _ in 1 2 3 4 5 6 7; do
    "$program" assemble "$work/module.wat" >>"$work/lines$size"
    start=$(date +%s%N)
    wat2wasm "$work/module.wat" -o "$work/module.wasm"
    end=$(date +%s%N)
    echo $(((end - start) / 1000000)) >>"$work/times$size"
  done
  # BYTES bytes N functions assembled in T ms
  echo "$(sort -n -k 7 "$work/lines$size" | head -n 1) wat2wasm $(sort -n "$work/times$size" | head -n 1) ms"
done
