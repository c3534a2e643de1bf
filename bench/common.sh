# What the scripts of this folder share. A script sources it with the name of its program and the tools that it needs:
#
#   source "$(dirname "${BASH_SOURCE[0]}")/common.sh" PROGRAM [TOOL..]
#
# It goes to the repository's top; sets `program`, which is `wblock`, or `bench`: the program `rows` with the word `bench`; `build` proves and builds it, and leaves it
# in its crate's out/ (the first time takes some minutes); `wblock`, the program that `build wblock` builds too, and `work`, a folder that is removed in the end. RT names
# the kit's command, `rt` if left out; RT=true takes the programs as they are there. A script that uses the program hard takes one as its first word in place of
# `wblock`, and builds none (`take_program`).
set -euo pipefail
shopt -s inherit_errexit
script=bench/$(basename "$0")
called_in=$PWD
cd "$(dirname "${BASH_SOURCE[0]}")/.."
wblock=$PWD/crates/wblock/out/wblock
work=$(mktemp -d)
trap 'rm -rf "$work"' EXIT
crate=wblock
program=$wblock
if [[ $1 == bench ]]; then
  crate=rows
  program=$work/bench
  printf '#!/bin/sh\nexec %q bench "$@"\n' "$PWD/crates/rows/out/rows" >"$program"
  chmod +x "$program"
fi

for tool in "${@:2}"; do
  if ! command -v "$tool" >/dev/null; then
    case $tool in
      wasm-ld) package=lld ;;
      clang | csmith | gcc | python3) package=$tool ;;
      node) package=nodejs ;;
      *) package=wabt ;;
    esac
    echo "$script: $tool is missing: apt-get install $package" >&2
    exit 2
  fi
done

# Says what is not as it has to be, and ends the script.
fail() {
  echo "$script: $*" >&2
  exit 1
}

# Builds the script's program, and the programs of these crates. With no words `rows` plays nothing.
build() {
  local name
  for name in "$crate" "$@"; do
    if ! (cd "crates/$name" && "${RT:-rt}" run) >"$work/log" 2>&1; then
      cat "$work/log" >&2
      exit 1
    fi
    [[ -x crates/$name/out/$name ]] || fail "there is no program crates/$name/out/$name"
  done
}

# Takes the program that the first word names as `wblock`, if it names one, else that which the gate left; `rest` are the others.
take_program() {
  if (($# > 0)) && ! [[ $1 =~ ^[0-9]+$ ]]; then
    wblock=$(cd "$called_in" && realpath -m -- "$1")
    shift
  fi
  rest=("$@")
  if ! [[ -f $wblock && -x $wblock ]]; then
    echo "$script: there is no program $wblock" >&2
    exit 2
  fi
}

# Keeps these files and folders of `work`, says what is not as it has to be, and ends the script: the files in one word, and the sentence.
keep() {
  local kept name
  kept=$(mktemp -d)
  for name in $1; do cp -r "$work/$name" "$kept" 2>/dev/null || true; done
  shift
  fail "$*; its files are in $kept"
}

# Says how the script is called, and ends it.
usage() {
  echo "usage: $script $*" >&2
  exit 2
}

# What a table is headed by: the machine.
machine() {
  local model
  model=$(sed -n 's/^model name[^:]*: //p;T;q' /proc/cpuinfo)
  echo "A machine of $(nproc) processors${model:+ ($model)}."
}

# What stands below a table: how busy the machine was, and how long the script took.
took() {
  echo
  uptime | sed 's/.*load/load/'
  echo "$script: took $SECONDS seconds"
}

# Runs the program with the words of each argument in turn, and all of them as often as `runs` says. Leaves in `rates` the most calls a second of each, and in
# `afters` the digest of the world after the calls, or `several` where it was not the same in all runs. It ends the script where a call is left out.
measure() {
  local run number line
  rates=()
  afters=()
  for ((run = 0; run < runs; run++)); do
    number=0
    for words in "$@"; do
      # shellcheck disable=SC2086 # the words of one argument
      line=$("$program" $words) || fail "$words: status $?"
      [[ $line =~ left\ 0\ after\ ([0-9a-f]{64})\ a\ second\ ([0-9]+)$ ]] || fail "$words: $line"
      if ((run == 0)); then
        rates[number]=${BASH_REMATCH[2]}
        afters[number]=${BASH_REMATCH[1]}
      else
        if ((BASH_REMATCH[2] > rates[number])); then rates[number]=${BASH_REMATCH[2]}; fi
        if [[ ${afters[number]} != "${BASH_REMATCH[1]}" ]]; then afters[number]=several; fi
      fi
      number=$((number + 1))
    done
  done
}

# The cells of a table: the rates in thousands, each behind its bar.
rate_cells() {
  local rate
  for rate in "${rates[@]}"; do
    printf ' %d.%d |' $((rate / 1000)) $((rate % 1000 / 100))
  done
}

# The cell of a table with the first number as so many times the second.
times_cell() {
  printf ' %d.%02d |' $(($1 / $2)) $(($1 % $2 * 100 / $2))
}

# Measures how the calls run one after another, and are mined and validated by 1, 2 and 4 workers, all with their block.
measure_blocks() {
  local columns=("block serial 1 $1 $2") work workers
  for work in mine validate; do
    for workers in 1 2 4; do
      columns+=("block $work $workers $1 $2")
    done
  done
  measure "${columns[@]}"
}

# The head of a table of what `measure_blocks` finds, behind these columns.
block_head() {
  echo "| $1 | serial | mined by 1 | by 2 | by 4 | validated by 1 | by 2 | by 4 | mined by 4 / serial | validated by 4 / serial |"
  echo "|$(sed 's/[^|]*/---/g' <<<"$1")|---|---|---|---|---|---|---|---|---|"
}

# The cells of a row of this table.
block_cells() {
  rate_cells
  times_cell "${rates[3]}" "${rates[0]}"
  times_cell "${rates[6]}" "${rates[0]}"
}

# Mines the calls over the world by the program itself, with so many workers. It ends the script where the block is not accepted, where it has not each call once,
# where one is out of fuel or was rejected, and where its calls, one after another in its order, leave another world.
check_block() {
  local world=$1 calls=$2 workers=$3 fuel=18446744073709551615 runs=1 rates afters after said
  "$wblock" mine "$world" "$calls" "$work/checked.block" "$work/checked.world" --fuel $fuel --workers "$workers" >"$work/checked" || fail "mine: status $?"
  after=$(sha256sum <"$work/checked.world")
  after=${after%% *}
  grep -qx "after $after" "$work/checked" || fail "mine: the world written is not the one that is printed"
  said=$("$wblock" validate "$world" "$calls" "$work/checked.block" --fuel $fuel --workers "$workers") || fail "validate: $said"
  [[ $said == "accept"$'\n'"after $after" ]] || fail "validate: $said"
  if grep -Eq '^left|^[0-9]+ call [0-9]+ (out-of-fuel|rejected)' "$work/checked"; then fail "mine: a call is left out, or ends as none should"; fi
  awk 'NR == FNR { if ($2 == "call") order[++count] = $3; next } { line[FNR - 1] = $0 } END { for (i = 1; i <= count; i++) print line[order[i]] }' \
    "$work/checked" "$calls" >"$work/checked.calls"
  cmp -s <(sort "$calls") <(sort "$work/checked.calls") || fail "mine: the block's calls are not those given"
  measure "block serial 1 $world $work/checked.calls"
  [[ ${afters[0]} == "$after" ]] || fail "the calls one after another in the block's order leave another world"
}

# A module whose `run` counts down from a number, 8 instructions a round.
countdown() {
  cat <<MODULE
(module
  (func (export "run") (local i64)
    i64.const $1
    local.set 0
    loop
      local.get 0
      i64.const 1
      i64.sub
      local.tee 0
      i64.eqz
      i32.eqz
      br_if 0
    end))
MODULE
}
