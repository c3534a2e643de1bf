#!/usr/bin/env bash
# Runs random programs in C, as many as asked: csmith (Debian's csmith and libcsmith-dev) writes them, clang compiles each without LLVM's passes and at the levels 1, 2, 3
# and s, and each eight programs are the contracts of one world, whose `run` gives the checksum of all variables in the end. The program mines a block of one call of each
# by 4 workers, and accepts it; and what each call returned, or how it trapped, has to be what V8 (node) gives of the module. Left out are modules that pass a limit of
# docs/REFERENCE.md, section 9, or that clang takes more than five minutes for, and calls that use up 50,000,000 units of fuel. It prints a line a minute and how many there
# were, and fails at the first difference, whose world it then keeps. Words behind the seed go to csmith: clang takes a tenth of the time for its programs of
# `--max-funcs 4 --max-block-depth 2 --max-block-size 3`. Run it anywhere in the repository:
#
#   bench/csmith.sh [PROGRAM] PROGRAMS [SEED [WORD ..]]
source "$(dirname "${BASH_SOURCE[0]}")/common.sh" wblock csmith clang wasm-ld node

take_program "$@"
set -- "${rest[@]}"
[[ $# -ge 1 && $1 =~ ^[1-9][0-9]{0,5}$ && ${2:-0} =~ ^[0-9]{1,9}$ ]] || usage "[PROGRAM] PROGRAMS [SEED [WORD ..]]"
most=$1
seed=${2:-1}
wanted=("${@:3}")
[[ -f /usr/include/csmith/safe_math.h ]] || fail "safe_math.h is missing: apt-get install libcsmith-dev"

# Compiles one of the world's programs at a level: its place and the level. (With -O0 itself most have too many locals.)
cat >"$work/compile" <<'COMPILE'
#!/bin/sh
case $2 in
  0) level="-O1 -Xclang -disable-llvm-passes" ;;
  *) level=-O$2 ;;
esac
timeout 300 clang -w $level --target=wasm32 -mcpu=mvp -msign-ext -ffreestanding -fno-builtin -nostdlib -I bench/c -isystem /usr/include/csmith -Wl,--no-entry \
  -Wl,--stack-first -Wl,-z,stack-size=65536 -Wl,--strip-all -o "$BATCH/$1.$2.wasm" "$BATCH/$1.c" || [ $? = 124 ]
COMPILE
chmod +x "$work/compile"
export BATCH=$work/batch

# What V8 gives of modules, in the words of `mine`: each file's line.
cat >"$work/v8.js" <<'V8'
const fs = require("fs");
const traps = [["unreachable", 1], ["divide by zero", 2], ["remainder by zero", 2], ["divide result unrepresentable", 3], ["memory access out of bounds", 4],
  ["table index is out of bounds", 5], ["table access out of bounds", 5], ["null function", "6 or 7"], ["function signature mismatch", "6 or 7"], ["Maximum call stack size", 8]];
for (const file of process.argv.slice(2)) {
  const instance = new WebAssembly.Instance(new WebAssembly.Module(fs.readFileSync(file)));
  try {
    console.log(`returned i32:${instance.exports.run()}`);
  } catch (error) {
    const trap = traps.find(([words]) => error.message.includes(words));
    console.log(`trapped ${trap ? trap[1] : error.message}`);
  }
}
V8

told=$SECONDS
programs=0
compared=0
trapped=0
limited=0
uncompiled=0
endless=0
fuel=0
while ((programs < most)); do
  rm -rf "$BATCH"
  mkdir "$BATCH"
  count=$((most - programs < 8 ? most - programs : 8))
  for ((place = 0; place < count; place++)); do
    # (it writes a file where it runs)
    (cd "$BATCH" && timeout 300 csmith --seed $((seed * 1000000 + programs + place)) --no-argc --no-float "${wanted[@]}" >"$place.c") || fail "csmith ends with status $? at program $((programs + place)) of seed $seed"
  done
  for ((place = 0; place < count; place++)); do
    for level in 0 1 2 3 s; do echo "$place $level"; done
  done | xargs -P "$(nproc)" -L 1 "$work/compile" || keep batch "clang does not compile a program of those from $programs on of seed $seed"
  modules=()
  made=("$BATCH"/*.wasm)
  uncompiled=$((uncompiled + 5 * count - ${#made[@]}))
  for module in "${made[@]}"; do
    status=0
    "$wblock" check "$module" >"$BATCH/said" 2>&1 || status=$?
    if ((status == 0)); then
      modules+=("$module")
    elif ((status == 1)) && grep -q '^refused load 3 ' "$BATCH/said"; then
      limited=$((limited + 1))
    else
      keep batch "$(basename "$module") of the programs from $programs on of seed $seed: status $status: $(cat "$BATCH/said")"
    fi
  done
  for ((call = 0; call < ${#modules[@]}; call++)); do echo "$call 50000000 run"; done >"$BATCH/calls"
  {
    "$wblock" deploy "$BATCH/world" "${modules[@]}" && "$wblock" mine "$BATCH/world" "$BATCH/calls" "$BATCH/block" "$BATCH/next" --fuel 18446744073709551615 --workers 4 &&
      "$wblock" validate "$BATCH/world" "$BATCH/calls" "$BATCH/block" --fuel 18446744073709551615 --workers 4
  } >"$BATCH/mined" 2>"$BATCH/said" || keep batch "the world of the programs from $programs on of seed $seed: status $?: $(tail -n 1 "$BATCH/mined")"
  grep -qx accept "$BATCH/mined" || keep batch "the block of the programs from $programs on of seed $seed: $(tail -n 1 "$BATCH/mined")"
  ended=()
  : >"$BATCH/given"
  while read -r _ _ call receipt; do
    if [[ $receipt == out-of-fuel* ]]; then
      endless=$((endless + 1))
    else
      ended+=("${modules[call]}")
      echo "${receipt% fuel *}" >>"$BATCH/given"
    fi
  done < <(grep ' call ' "$BATCH/mined")
  ((${#ended[@]} + $(grep -c ' out-of-fuel ' "$BATCH/mined" || true) == ${#modules[@]})) || keep batch "a call of the programs from $programs on of seed $seed has no receipt"
  # (which of its two traps of an indirect call is at hand, V8 does not say)
  timeout 600 node "$work/v8.js" "${ended[@]}" >"$BATCH/wanted" 2>"$BATCH/said" || keep batch "V8 ends with status $? over the programs from $programs on of seed $seed"
  if ! cmp -s <(sed 's/^trapped [67]$/trapped 6 or 7/' "$BATCH/given") "$BATCH/wanted"; then
    at=$(paste -d '|' <(sed 's/^trapped [67]$/trapped 6 or 7/' "$BATCH/given") "$BATCH/wanted" | awk -F '|' '$1 != $2 { print NR - 1, $0; exit }')
    keep batch "$(basename "${ended[${at%% *}]}") of the programs from $programs on of seed $seed: the machine and V8 give ${at#* }"
  fi
  programs=$((programs + count))
  compared=$((compared + ${#ended[@]}))
  trapped=$((trapped + $(grep -c '^trapped' "$BATCH/given" || true)))
  fuel=$((fuel + $(awk '$1 == "fuel" { print $2 }' "$BATCH/mined")))
  if ((SECONDS - told >= 60)); then
    told=$SECONDS
    echo "$programs programs, $compared modules compared"
  fi
done
echo "seed $seed: $programs programs, $compared modules give what V8 gives, $trapped of them a trap, in $((fuel / 1000000)) million instructions; left out are $limited past a limit, $endless out of fuel and $uncompiled that clang did not compile in five minutes"
took
