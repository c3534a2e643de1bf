#!/usr/bin/env bash
# Prints the microseconds that a debugger's session takes for a million turns of a countdown, and those of one turn back after them,
# and below them the load of the machine. It fails where going back takes a tenth of the run or more. Run it anywhere in the repository:
#
#   bench/debug.sh
source "$(dirname "${BASH_SOURCE[0]}")/common.sh" bench wat2wasm

if (($# > 0)); then
  usage
fi
build

countdown 1000000 >"$work/countdown.wat"
wat2wasm "$work/countdown.wat" -o "$work/countdown.wasm"

line=$("$program" debug "$work/countdown.wasm" run 1000000)
read -r turns _ forward _ _ back _ <<<"$line"
printf '%s turns %d us, back %d us\n' "$turns" $((forward / 1000)) $((back / 1000))
uptime | sed 's/.*load/load/'
if ((back * 10 >= forward)); then
  echo "$script: going back takes a tenth of the run or more" >&2
  exit 1
fi
