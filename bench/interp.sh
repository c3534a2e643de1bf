#!/usr/bin/env bash
# Prints how many charged instructions a second the machine executes, and beside it, in the same run, how many `wasm-interp` of
# Debian's package wabt does of the same module, as a table that can be pasted into docs/BENCHMARKS.md. Three modules are of about ten million instructions each: a
# countdown, stores that fill a memory, and Fibonacci's numbers by recursion. Four are the C files of bench/c, compiled by clang, of about a hundred million
# together: compression, hashing, sorting and parsing; the row 'C' is all four, by the sums of their instructions and of their least times. Each is run ROUNDS times on both in
# turn, and the fastest run counts. The time of the machine is that of the run alone; that of `wasm-interp` is that of its whole process, less the one of an empty
# module. The last column is the first rate by the second.
#
# What the machine, `wasm-interp`, and, if there is `node`, its WebAssembly (V8) give for a C file has to be what a native build of it prints. Run it
# anywhere in the repository:
#
#   bench/interp.sh [ROUNDS|--quick]
#
# ROUNDS is 5 if left out. With --quick each is run once, and the C files do less, which says nothing of speed.
source "$(dirname "${BASH_SOURCE[0]}")/common.sh" bench wat2wasm wasm-interp clang wasm-ld
rounds=${1:-5}

# how often the files do their work, for about 25 million instructions each
declare -A repeats=([compress]=3 [hash]=9 [sort]=3 [parse]=7)
if [[ $rounds == --quick ]]; then
  rounds=1
  for name in "${!repeats[@]}"; do repeats[$name]=1; done
fi
if (($# > 1)) || ! [[ $rounds =~ ^[1-9][0-9]{0,2}$ ]]; then
  usage "[ROUNDS|--quick]"
fi
build

cat >"$work/empty.wat" <<'MODULE'
(module (func (export "run")))
MODULE

countdown 1250000 >"$work/countdown.wat"

# 14 of 16 pages are filled 8 times, 8 bytes by each store
cat >"$work/fill.wat" <<'MODULE'
(module
  (memory 16)
  (func (export "run") (local i32 i32)
    (local.set 1 (i32.const 8))
    (loop
      (local.set 0 (i32.const 0))
      (loop
        (i64.store (local.get 0) (i64.const 81985529216486895))
        (br_if 0 (i32.lt_u (local.tee 0 (i32.add (local.get 0) (i32.const 8))) (i32.const 917504))))
      (br_if 0 (local.tee 1 (i32.sub (local.get 1) (i32.const 1)))))))
MODULE

# 1,028,457 calls
cat >"$work/fibonacci.wat" <<'MODULE'
(module
  (func $fibonacci (param i32) (result i32)
    (if (result i32) (i32.lt_u (local.get 0) (i32.const 2))
      (then (local.get 0))
      (else (i32.add
        (call $fibonacci (i32.sub (local.get 0) (i32.const 1)))
        (call $fibonacci (i32.sub (local.get 0) (i32.const 2)))))))
  (func (export "run") (result i32) (call $fibonacci (i32.const 28))))
MODULE

# What each has to give: what wasm-interp prints behind the export's name, of a C file by its native build.
declare -A wanted=([empty]="" [countdown]="" [fill]="" [fibonacci]=i32:317811)
for name in empty countdown fill fibonacci; do
  wat2wasm "$work/$name.wat" -o "$work/$name.wasm"
done
for name in "${!repeats[@]}"; do
  options=(-O2 -ffreestanding -fno-builtin "-DROUNDS=${repeats[$name]}" "bench/c/$name.c")
  clang "${options[@]}" -DNATIVE -o "$work/$name"
  clang "${options[@]}" --target=wasm32 -mcpu=mvp -nostdlib -Wl,--no-entry -Wl,--export=run -Wl,--strip-all -o "$work/$name.wasm"
  wanted[$name]=i32:$("$work/$name")
  [[ ${wanted[$name]} != i32:0 ]] || fail "$name: the native build gives 0"
done

# In V8 the same.
if command -v node >/dev/null; then
  for name in "${!repeats[@]}"; do
    given=$(node -e 'const bytes = require("fs").readFileSync(process.argv[1]);
      console.log("i32:" + (new WebAssembly.Instance(new WebAssembly.Module(bytes)).exports.run() >>> 0));' "$work/$name.wasm")
    [[ $given == "${wanted[$name]}" ]] || fail "$name: V8 gives $given, the native build ${wanted[$name]}"
  done
  compared="a native build, wasm-interp and V8"
else
  compared="a native build and wasm-interp (there is no node)"
fi

# The nanoseconds of a process of wasm-interp, which has to print what is wanted.
process_time() {
  local start end
  start=$(date +%s%N)
  wasm-interp "$work/$1.wasm" --run-all-exports >"$work/$1.out"
  end=$(date +%s%N)
  [[ $(<"$work/$1.out") == "run() =>${wanted[$1]:+ ${wanted[$1]}}" ]] || fail "$1: wasm-interp: $(<"$work/$1.out")"
  echo $((end - start))
}

# The lesser of two numbers, of which the first may be missing.
least() {
  if [[ -z $1 ]] || (($2 < $1)); then echo "$2"; else echo "$1"; fi
}

# The row of so many instructions, the machine's rate, and the nanoseconds of wasm-interp.
row() {
  local rate=$(($3 > 0 ? $2 * 1000000000 / $3 : 0))
  ((rate > 0)) || fail "$1: too short to be measured"
  echo "| $1 | $2 | $(($4 / 1000000)) | $((rate / 1000000)) |$(times_cell "$4" "$rate")"
}

empty=
for ((round = 0; round < rounds; round++)); do
  time=$(process_time empty)
  empty=$(least "$empty" "$time")
done

machine
echo "Millions of charged instructions a second, best of $rounds. What the C files give is that of $compared."
echo
echo "| module | instructions | machine | wasm-interp | machine / wasm-interp |"
echo "|---|---|---|---|---|"
all_used=0
all_machine=0
all_interp=0
for name in countdown fill fibonacci compress hash sort parse; do
  best=0
  interp=
  for ((round = 0; round < rounds; round++)); do
    line=$("$program" run "$work/$name.wasm" run 10000000000) || fail "$name: status $?"
    read -r rate _ _ used outcome <<<"$line"
    case $outcome in
      "Returned(None)") given= ;;
      "Returned(Some(I32("*")))")
        given=${outcome#*I32(}
        given=${given%%)*}
        given=i32:$((given & 0xffffffff))
        ;;
      *) fail "$name: $line" ;;
    esac
    [[ $given == "${wanted[$name]}" ]] || fail "$name: the machine gives $given, wanted is ${wanted[$name]}"
    if ((rate > best)); then best=$rate; fi
    time=$(process_time "$name")
    interp=$(least "$interp" "$time")
  done
  row "$name" "$used" $((interp - empty)) "$best"
  if [[ -n ${repeats[$name]:-} ]]; then
    all_used=$((all_used + used))
    all_machine=$((all_machine + used * 1000000 / (best / 1000)))
    all_interp=$((all_interp + interp - empty))
  fi
done
row C "$all_used" "$all_interp" $((all_used * 1000000 / (all_machine / 1000)))
took
