#!/usr/bin/env bash
# Prints how many numbers a second 1, 2 and 4 threads draw from one intake, and beside it, in the same run, from one counter
# under a mutex. Run it anywhere in the repository:
#
#   bench/intake.sh [DRAWS]
#
# DRAWS, 4,000,000 if left out and at most 4,294,967,295, is how many numbers the threads of a run draw together.
source "$(dirname "${BASH_SOURCE[0]}")/common.sh" bench
draws=${1:-4000000}

if ! [[ $draws =~ ^[0-9]{1,10}$ ]] || ((10#$draws > 4294967295)); then
  usage "[DRAWS]"
fi

build
for threads in 1 2 4; do
  "$program" draw "$threads" "$draws"
done
