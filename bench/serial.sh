#!/usr/bin/env bash
# Prints how long calls of the example contract over 10,000 keys take one after another, with their block: for 8,192 and for 65,535 calls the
# microseconds, the calls a second, and how many percent of the time the digests take, each of the fastest of three runs. Below it stands how
# many times as long the second number takes, in hundredths, which is to be at most 1000: then the time is nearly that of the calls alone. Run it
# anywhere in the repository:
#
#   bench/serial.sh
source "$(dirname "${BASH_SOURCE[0]}")/common.sh" bench

if (($# > 0)); then
  usage
fi

# The fastest of three runs of so many calls.
fastest() {
  for _ in 1 2 3; do
    "$program" serial "$1"
  done | sort -n -k 4 | head -n 1
}

build
few=$(fastest 8192)
many=$(fastest 65535)
echo "$few"
echo "$many"
micros() { echo "$1" | sed 's/.* microseconds \([0-9]*\) .*/\1/'; }
echo "times as long, in hundredths: $(($(micros "$many") * 100 / $(micros "$few")))"
uptime | sed 's/.*load/load/'
