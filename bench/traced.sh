#!/usr/bin/env bash
# Builds a program that tells AFL++ (Debian's afl++) which ways it takes, for bench/fuzz.sh, of the LLVM module of a program: the file that the kit's `rattle build` gives to the
# clang of its toolchain, as text or as bits. Run it anywhere in the repository:
#
#   bench/traced.sh MODULE PROGRAM
set -euo pipefail
if (($# != 2)); then
  echo "usage: bench/traced.sh MODULE PROGRAM" >&2
  exit 2
fi
kit=$(dirname "$(dirname "$(realpath "$(command -v "${RT:-rt}")")")")
work=$(mktemp -d)
trap 'rm -rf "$work"' EXIT
"$kit/toolchain/bin/clang" --target=x86_64-unknown-linux-gnu --sysroot="$kit/toolchain" -march=x86-64-v2 -mllvm -trap-unreachable --no-default-config -fintegrated-cc1 -fPIE -O2 \
  -fsanitize-coverage=trace-pc-guard -c -x ir "$1" -o "$work/program.o"
"$kit/bin/rattle-link" --target x86_64-unknown-linux-gnu --toolchain "$kit/toolchain" -o "$2" "$work/program.o" "$kit"/c/lib{os,libc}_c.a /usr/lib/afl/afl-compiler-rt.o >"$work/log" 2>&1 || {
  cat "$work/log" >&2
  exit 1
}
