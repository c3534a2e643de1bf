#!/usr/bin/env bash
# Prints how many calls a second are validated by the program with one worker, and by the library for C (embed/), each as a whole process, as a table that can be pasted
# into docs/BENCHMARKS.md; and how long a call across the border takes that has nothing to do. Each number is the best of nine runs, one of each column in turn. It fails
# where one of the two does not accept the block. Run it anywhere in the repository, once `rt ci` has passed:
#
#   bench/library.sh [--quick]
#
# With --quick it measures short lists, once, which says nothing of speed.
source "$(dirname "${BASH_SOURCE[0]}")/common.sh" wblock gcc make python3
source bench/loads.sh

take_program
[[ -n $quick ]] || runs=9
make -s -C embed out/libfoshqarel.a >"$work/log" 2>&1 || fail "make: $(cat "$work/log")"
gcc -O2 -Wall -Wextra -Werror -I embed -o "$work/library" bench/library.c embed/out/libfoshqarel.a
load_world
fuel=18446744073709551615

# How many microseconds a command takes that accepts: `spent`.
spend() {
  local begun=${EPOCHREALTIME/[.,]/}
  "$@" >"$work/said" || fail "$*: status $?"
  spent=$((${EPOCHREALTIME/[.,]/} - begun))
  grep -qx accept "$work/said" || fail "$*: $(cat "$work/said")"
}

machine
echo "Best of $runs, whole processes: thousands of calls a second, and nanoseconds a call."
echo
echo "| what | the program, one worker | the library | library / program |"
echo "|---|---|---|---|"
for length in 100 1000; do
  count=60000
  if [[ -n $quick ]]; then count=2000; fi
  python3 bench/loads.py calls $length 15 $count >"$work/calls"
  "$wblock" mine "$work/world" "$work/calls" "$work/block" "$work/next" --fuel $fuel >"$work/log" || fail "mine: status $?"
  best=(0 0)
  for ((run = 0; run < runs; run++)); do
    spend "$wblock" validate "$work/world" "$work/calls" "$work/block" --fuel $fuel --workers 1
    if ((best[0] == 0 || spent < best[0])); then best[0]=$spent; fi
    spend "$work/library" verify "$work/world" "$work/calls" "$work/block" $fuel
    if ((best[1] == 0 || spent < best[1])); then best[1]=$spent; fi
  done
  rates=($((count * 1000000 / best[0])) $((count * 1000000 / best[1])))
  echo "| $(grouped $count) calls of $(grouped $length) instructions, 15 of 100 on one cell |$(rate_cells)$(times_cell "${rates[1]}" "${rates[0]}")"
done
least=
for ((run = 0; run < runs; run++)); do
  found=$("$work/library" calls $((quick ? 1000 : 10000000))) || fail "calls: status $?"
  if [[ -z $least ]] || awk "BEGIN { exit !($found < $least) }"; then least=$found; fi
done
echo "| a text of no calls is read | | $least | |"
took
