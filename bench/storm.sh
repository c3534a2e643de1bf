#!/usr/bin/env bash
# A test of load: for as many minutes as asked, random lists of calls over few cells are mined by 64 or 4 workers in turn, in the order of the list and with
# `--boosted`, and validated by 64 workers and by one, in both ways. Three contracts of one module stand in the world; some calls ask other contracts, and these ask
# others, down to the last level and past it, and levels trap and are undone. Some lists have 3,000 calls, which workers run beside the cells where the calls do not wait
# for one another; some have more calls than the block has fuel for.
# Each block has to be accepted, with the world that the miner wrote; and its calls, one after another in its order, have to come to the same receipts and to leave the
# same world, both mined by one worker and, where the gate built the program `rows`, by the serial executor. A block in the order of the list has to be that of one
# worker. It prints a line a minute and how many blocks and calls there were, and fails at the first difference, whose files it then keeps. Run it anywhere in the repository:
#
#   bench/storm.sh [PROGRAM] MINUTES [SEED]
source "$(dirname "${BASH_SOURCE[0]}")/common.sh" bench python3

take_program "$@"
set -- "${rest[@]}"
[[ $# -ge 1 && $# -le 2 && $1 =~ ^[1-9][0-9]{0,3}$ && ${2:-0} =~ ^[0-9]{1,9}$ ]] || usage "[PROGRAM] MINUTES [SEED]"
minutes=$1
seed=${2:-1}

cat >"$work/storm.wat" <<'MODULE'
(module
 (import "boost" "get" (func $get (param i64) (result i64)))
 (import "boost" "put" (func $put (param i64) (param i64)))
 (import "boost" "has" (func $has (param i64) (result i32)))
 (import "boost" "del" (func $del (param i64) (result i32)))
 (import "boost" "add" (func $add (param i64) (param i64)))
 (import "boost" "total" (func $total (param i64) (result i64)))
 (import "boost" "ask" (func $ask (param i32) (param i32) (param i64) (result i32)))
 (import "boost" "answer" (func $answer (result i64)))
 (func $wait (param $rounds i64)
  (if (i32.eqz (i64.eqz (local.get $rounds)))
   (then
    (loop $round
     (local.set $rounds (i64.sub (local.get $rounds) (i64.const 1)))
     (br_if $round (i32.eqz (i64.eqz (local.get $rounds))))))))
 ;; a level: the lowest byte of the path says what it does with which cell, and whom it asks for the rest of the path
 (func $step (export "step") (param $path i64) (result i64)
  (local $does i64) (local $key i64) (local $rest i64) (local $status i64)
  (local.set $does (i64.and (local.get $path) (i64.const 7)))
  (local.set $key (i64.and (i64.shr_u (local.get $path) (i64.const 3)) (i64.const 7)))
  (local.set $rest (i64.shr_u (local.get $path) (i64.const 8)))
  (if (i64.lt_u (local.get $does) (i64.const 2))
   (then (call $put (local.get $key) (i64.add (call $get (local.get $key)) (i64.const 1))))
   (else
    (if (i64.lt_u (local.get $does) (i64.const 4))
     (then (call $add (local.get $key) (local.get $path)))
     (else
      (if (i64.eq (local.get $does) (i64.const 4))
       (then (drop (call $del (local.get $key))))
       (else (drop (call $has (local.get $key)))))))))
  (if (i32.eqz (i64.eqz (local.get $rest)))
   (then
    (local.set $status (i64.extend_i32_u
     (call $ask (i32.and (i32.wrap_i64 (i64.shr_u (local.get $path) (i64.const 6))) (i32.const 3)) (i32.const 0) (local.get $rest))))
    (if (i64.eqz (i64.and (local.get $does) (i64.const 1)))
     (then (call $put (local.get $key) (i64.add (call $answer) (local.get $status)))))))
  (if (i64.eq (local.get $does) (i64.const 5))
   (then (if (i64.eqz (local.get $status)) (then unreachable))))
  (if (i64.eq (local.get $does) (i64.const 7))
   (then (drop (i64.div_u (local.get $key) (i64.sub (i64.const 10) (local.get $status))))))
  (i64.add (call $answer) (local.get $status)))
 (func (export "bump") (param $key i64) (param $rounds i64)
  (local $read i64)
  (local.set $read (call $get (local.get $key)))
  (call $wait (local.get $rounds))
  (call $put (local.get $key) (i64.add (local.get $read) (i64.const 1))))
 (func (export "move") (param $from i64) (param $to i64)
  (call $put (local.get $to) (call $get (local.get $from)))
  (drop (call $del (local.get $from))))
 (func (export "look") (param $key i64) (param $rounds i64)
  (call $wait (local.get $rounds))
  (if (call $has (local.get $key)) (then (drop (call $get (local.get $key))))))
 (func (export "add") (param $key i64) (param $rounds i64)
  (call $add (local.get $key) (local.get $rounds))
  (call $wait (local.get $rounds)))
 (func (export "total") (param $key i64) (param $to i64)
  (call $put (local.get $to) (call $total (local.get $key))))
 (func (export "fall") (param $key i64) (param $rounds i64)
  (call $add (local.get $key) (i64.const 1))
  (call $put (local.get $key) (i64.const 7))
  (call $wait (local.get $rounds))
  unreachable))
MODULE
"$wblock" asm "$work/storm.wat" "$work/storm.wasm" >"$work/log" || fail "asm: $(cat "$work/log")"
"$wblock" deploy "$work/before" "$work/storm.wasm" "$work/storm.wasm" "$work/storm.wasm" >"$work/log" || fail "deploy: $(cat "$work/log")"

# What a block is kept as where it fails.
lost() {
  keep "before calls block next mined ordered again again.block one said" "block $blocks of seed $seed (${way:-in the order of the list} by $miners, fuel $fuel): $*"
}

# The receipts of what `mine` printed, without positions and calls.
receipts() {
  sed -n 's/^[0-9]* call [0-9]* //p' "$1"
}

end=$((SECONDS + 60 * minutes))
told=$SECONDS
blocks=0
calls=0
levels=0
while ((SECONDS < end)); do
  blocks=$((blocks + 1))
  fuel=$(python3 - "$seed" "$blocks" "$work/calls" <<'CALLS'
import random, sys
draw = random.Random(f"{sys.argv[1]} {sys.argv[2]}")
cells = draw.choice([1, 2, 3, 5, 8, 40, 400])
longest = draw.choice([1, 10, 100, 400])
names = draw.choice([["bump"], ["add", "look"], ["bump", "move", "look", "add", "total", "fall"], ["add", "add", "add", "total", "fall"], ["move", "bump", "look"],
                     ["step"], ["step", "step", "step", "bump", "add", "fall"]])
contracts = draw.choice([1, 3])
needs = 0
with open(sys.argv[3], "w") as calls:
    for _ in range(draw.choice([1, 64, 300, 1000, 3000])):
        name, limit = draw.choice(names), draw.choice([12, 60, 500, 5000])
        if name == "step":
            path = draw.getrandbits(8 * draw.randint(1, 7))
            if cells < 8:
                path &= ~0x20202020202020
            values = f"i64:{path}"
        else:
            values = f"i64:{draw.randrange(cells)} i64:{draw.randrange(cells) if name in ('move', 'total') else draw.randrange(longest)}"
        calls.write(f"{draw.randrange(contracts)} {limit} {name} {values}\n")
        needs += limit
print(draw.choice([needs, needs, needs * 2 // 3]))
CALLS
)
  calls=$((calls + $(wc -l <"$work/calls")))
  miners=$((blocks % 4 < 2 ? 64 : 4))
  way=
  if ((blocks % 2)); then way=--boosted; fi
  "$wblock" mine "$work/before" "$work/calls" "$work/block" "$work/next" --fuel "$fuel" --workers $miners --tries 16 $way >"$work/mined" 2>/dev/null || lost "mine: status $?"
  for workers in "64" "1" "64 --boosted"; do
    # shellcheck disable=SC2086 # the words of a command
    "$wblock" validate "$work/before" "$work/calls" "$work/block" --fuel "$fuel" --workers $workers >"$work/said" || lost "validate by $workers: $(cat "$work/said")"
    [[ $(head -n 1 "$work/said") == accept && $(tail -n 1 "$work/said") == "$(grep '^after' "$work/mined")" ]] || lost "validate by $workers: $(cat "$work/said")"
  done
  awk 'NR == FNR { if ($2 == "call") order[++count] = $3; next } { line[FNR - 1] = $0 } END { for (i = 1; i <= count; i++) print line[order[i]] }' \
    "$work/mined" "$work/calls" >"$work/ordered"
  awk 'NR == FNR { if ($1 == "left") order[++count] = $2; next } { line[FNR - 1] = $0 } END { for (i = 1; i <= count; i++) print line[order[i]] }' \
    "$work/mined" "$work/calls" >"$work/left"
  cmp -s <(sort "$work/calls") <(sort "$work/ordered" "$work/left") || lost "the block's calls and those left out are not those given"
  "$wblock" mine "$work/before" "$work/ordered" "$work/again.block" "$work/again" --fuel "$fuel" --workers 1 >"$work/one" 2>/dev/null || lost "mine by one worker: status $?"
  cmp -s "$work/next" "$work/again" || lost "one worker leaves another world"
  cmp -s <(receipts "$work/mined") <(receipts "$work/one") || lost "one worker has other receipts"
  if [[ -z $way ]]; then
    "$wblock" mine "$work/before" "$work/calls" "$work/again.block" "$work/again" --fuel "$fuel" --workers 1 >"$work/one" 2>/dev/null || lost "mine by one worker: status $?"
    cmp -s "$work/block" "$work/again.block" && cmp -s "$work/mined" "$work/one" || lost "one worker has another block"
  fi
  if [[ -x crates/rows/out/rows ]]; then
    serial=$("$program" block serial 1 "$work/before" "$work/ordered") || lost "serial: status $?"
    [[ $serial =~ after\ ([0-9a-f]{64}) && "after ${BASH_REMATCH[1]}" == "$(grep '^after' "$work/mined")" ]] || lost "serial: $serial"
  fi
  levels=$((levels + $(awk '$(NF - 1) == "asks" { sum += $NF } END { print sum + 0 }' "$work/mined")))
  mv "$work/next" "$work/before"
  if ((SECONDS - told >= 60)); then
    told=$SECONDS
    echo "$blocks blocks, $calls calls, $levels levels"
  fi
done
echo "seed $seed: $blocks blocks of $calls calls with $levels levels in $minutes minutes: no difference$([[ -x crates/rows/out/rows ]] || echo " (without the serial executor, which was not built)")"
took
