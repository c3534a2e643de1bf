#!/usr/bin/env bash
# Prints how many calls a second of the contracts of "Adding Concurrency to Smart Contracts" (Dickerson, Gazzillo, Herlihy, Koskinen, PODC 2017) are run one
# after another ("serial"), mined and validated by 1, 2 and 4 workers, with their block and its digests, as a table that can be pasted into docs/BENCHMARKS.md: a
# ballot, a simple auction, a registry of documents, and the three mixed, in blocks of 1,000 to 65,535 calls of which 15 of 100 conflict, and in blocks of
# 10,000 of which 0 to 100 of 100 do. The contracts, and what conflicts, stand in bench/contracts/.
# Each number is the best of five runs, one of each column in turn; what is validated is the block of the calls one after another. It fails where a block that is made
# is not accepted; and where a block that the program `wblock` mines with 1 or 4 workers is not, or leaves another world than its calls one
# after another in its order. Run it anywhere in the repository:
#
#   bench/contracts.sh [--quick]
#
# With --quick it measures few rows of few calls, once, which says nothing of speed.
source "$(dirname "${BASH_SOURCE[0]}")/common.sh" bench python3

runs=5
blocks=("1000 15" "10000 15" "65535 15" "10000 0" "10000 50" "10000 100")
case $* in
  "") ;;
  --quick) runs=1 blocks=("200 15" "200 100") ;;
  *) usage "[--quick]" ;;
esac
most=18446744073709551615

# The world that the block of so many calls of a contract begins with, in the file `world`, by one worker: each call that prepares it has to return.
prepare() {
  local contract=$1 count=$2 names name modules=()
  names=$contract
  if [[ $contract == mixed ]]; then names="ballot auction registry"; fi
  for name in $names; do
    "$wblock" asm "bench/contracts/$name.wat" "$work/$name.wasm" >"$work/log" || fail "asm $name: $(cat "$work/log")"
    modules+=("$work/$name.wasm")
  done
  "$wblock" deploy "$work/bare" "${modules[@]}" --force >"$work/log" || fail "deploy $contract: $(cat "$work/log")"
  python3 bench/contracts/calls.py setup "$contract" "$count" 0 >"$work/setup"
  "$wblock" mine "$work/bare" "$work/setup" "$work/setup.block" "$work/world" --fuel $most --workers 1 >"$work/log" || fail "setup of $contract: status $?"
  if grep -E ' call |^left' "$work/log" | grep -qv ' returned'; then fail "setup of $contract: $(grep -Ev ' returned' "$work/log" | head -n 1)"; fi
}

# The mean of the instructions of a call, of the block that was checked last.
mean() {
  awk -v count="$1" '$1 == "fuel" { printf "%d", $2 / count }' "$work/checked"
}

build wblock
machine
echo "Thousands of calls a second, best of $runs. The last two columns are 4 workers against serial."
echo
block_head "contract | calls | conflicts | instructions a call"
for contract in ballot auction registry mixed; do
  for block in "${blocks[@]}"; do
    read -r count conflicts <<<"$block"
    prepare "$contract" "$count"
    python3 bench/contracts/calls.py block "$contract" "$count" "$conflicts" >"$work/calls"
    check_block "$work/world" "$work/calls" 1
    check_block "$work/world" "$work/calls" 4
    measure_blocks "$work/world" "$work/calls"
    for number in 4 5 6; do
      [[ ${afters[number]} == "${afters[0]}" && ${afters[number]} != several ]] || fail "$contract, $block: validating leaves another world than the calls one after another"
    done
    echo "| $contract | $count | $conflicts of 100 | $(mean "$count") |$(block_cells)"
  done
done
took
