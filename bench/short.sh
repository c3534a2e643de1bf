#!/usr/bin/env bash
# Prints how many calls a second of short lists are run one after another ("serial"), mined by 2 and by 4 workers and validated by 4, and the same by workers over one
# book and over cells that they share ("book" and "board", as `--boosted` takes them), with their block and its digests, as a table that can be pasted into
# docs/BENCHMARKS.md. 15 of 100 calls use one cell, and then all. Each number is the best of 200 runs, one of each column in turn. Run it anywhere in the repository:
#
#   bench/short.sh [--quick]
#
# With --quick it measures once, which says nothing of speed.
source "$(dirname "${BASH_SOURCE[0]}")/common.sh" bench python3

source bench/loads.sh
if [[ -z $quick ]]; then runs=200; fi

build wblock
load_world
machine
echo "Short lists: thousands of calls a second, best of $runs. The last five columns are against serial; all but the first of them are of 4 workers."
echo
echo "| on one cell | calls | instructions a call | serial | mined by 2 | mined | validated | book | board | by 2 | mined | validated | book | board |"
echo "|---|---|---|---|---|---|---|---|---|---|---|---|---|---|"
for shared in 15 100; do
  for length in 298 1999 3997; do
    for count in 60 120 240 480; do
      python3 bench/loads.py calls $length $shared $count >"$work/calls"
      columns=("block serial 1 $work/world $work/calls" "block mine 2 $work/world $work/calls")
      for words in mine validate book board; do columns+=("block $words 4 $work/world $work/calls"); done
      measure "${columns[@]}"
      for after in "${afters[@]}"; do
        [[ $after == "${afters[0]}" && $after != several ]] || fail "$count calls of $length: the world after is not that of the calls one after another"
      done
      cells=
      for number in 1 2 3 4 5; do cells+=$(times_cell "${rates[number]}" "${rates[0]}"); done
      echo "| $shared of 100 | $count | $length |$(rate_cells)$cells"
    done
  done
done
took
