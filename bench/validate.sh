#!/usr/bin/env bash
# Prints how many calls a second are run one after another ("serial"), mined, and validated, by 1, 2 and 4 workers, with their block and its digests, as a table
# that can be pasted into docs/BENCHMARKS.md, for the loads of bench/mine.sh. What is validated is the block of the calls one after another. Each number is
# the best of five runs, one of each column in turn. It fails where a block that is made is not accepted, or leaves another world than the calls
# one after another; and where that is so of a block that the program `wblock` mines of the calls with 4 workers. Run it anywhere in the repository:
#
#   bench/validate.sh [--quick]
#
# With --quick it measures few rows, once, which says nothing of speed.
source "$(dirname "${BASH_SOURCE[0]}")/common.sh" bench python3
source bench/loads.sh

build wblock
load_world
machine
echo "With blocks: thousands of calls a second, best of $runs. The last two columns are 4 workers against serial."
echo
block_head "calls | on one cell"
while IFS='|' read -r name shared words <&3; do
  # shellcheck disable=SC2086 # words
  python3 bench/loads.py $words >"$work/calls"
  measure_blocks "$work/world" "$work/calls"
  for after in "${afters[@]}"; do
    [[ $after == "${afters[0]}" && $after != several ]] || fail "$name, $shared: the world after is not that of the calls one after another"
  done
  echo "| $name | $shared |$(block_cells)"
  check_block "$work/world" "$work/calls" 4
  if grep -q ' trapped ' "$work/checked"; then fail "$name, $shared: a call trapped"; fi
done 3< <(load_rows)
took
