#!/usr/bin/env bash
# Prints how many calls a second are run one after another ("serial"), and mined by 1, 2 and 4 workers, without their block, as a table that can be
# pasted into docs/BENCHMARKS.md: calls of 7, 100, 1,000 and 10,000 instructions, of which none, 15 and 100 of 100 use one cell; a block
# of two groups, which read a counter and then add to it; and chains, where each tenth call uses one cell. Each number is the best of five runs, one of each column in
# turn. It fails where the calls do not leave the cells that they leave one after another. Run it anywhere in the repository:
#
#   bench/mine.sh [--quick]
#
# With --quick it measures few rows, once, which says nothing of speed.
source "$(dirname "${BASH_SOURCE[0]}")/common.sh" bench python3
source bench/loads.sh

build wblock
load_world
machine
echo "Mining without blocks: thousands of calls a second, best of $runs. The last column is 4 workers against serial."
echo
echo "| calls | on one cell | serial | 1 worker | 2 workers | 4 workers | 4 / serial |"
echo "|---|---|---|---|---|---|---|"
while IFS='|' read -r name shared words <&3; do
  # shellcheck disable=SC2086 # words
  python3 bench/loads.py $words >"$work/calls"
  measure "mine 0 $work/world $work/calls" "mine 1 $work/world $work/calls" "mine 2 $work/world $work/calls" "mine 4 $work/world $work/calls"
  for after in "${afters[@]}"; do
    [[ $after == "${afters[0]}" && $after != several ]] || fail "$name, $shared: the cells after are not those of the calls one after another"
  done
  echo "| $name | $shared |$(rate_cells)$(times_cell "${rates[3]}" "${rates[0]}")"
done 3< <(load_rows)
took
