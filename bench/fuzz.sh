#!/usr/bin/env bash
# Gives the program random files, changed from good ones, for as many minutes a reader as asked: to the loader (`wblock check`), the assembler (`wblock asm`), the reader of
# calls and those of worlds and of blocks (`wblock validate`), and that of words (`wblock debug`, a word a line of the file). The good ones are those of the examples and of
# the rows of tests (seeds.py). What the program answers is its own affair; it must end with one of its statuses, 0 to 4, by no signal, within ten seconds of processor time
# (and ten minutes of the clock: there may be other work on the machine). The files are made by a loop of Python, and where AFL++ (Debian's afl++) is installed by that,
# too, for as long again. It prints what each reader got, and fails, keeping the file, at the first that ends the program otherwise. Run it anywhere in the repository:
#
#   bench/fuzz.sh [PROGRAM] MINUTES [SEED [module|text|calls|world|block|words ..]]
#
# A program that traced.sh built tells AFL++ which ways it takes. To another it gives files blindly, or by its qemu mode where `afl-qemu-trace` is there (Debian has none).
source "$(dirname "${BASH_SOURCE[0]}")/common.sh" wblock python3

take_program "$@"
set -- "${rest[@]}"
how="[PROGRAM] MINUTES [SEED [module|text|calls|world|block|words ..]]"
[[ $# -ge 1 && $1 =~ ^[1-9][0-9]{0,3}$ && ${2:-0} =~ ^[0-9]{1,9}$ ]] || usage "$how"
minutes=$1
seed=${2:-1}
shift $(($# > 1 ? 2 : 1))
(($# > 0)) || set -- module text calls world block words
for reader in "$@"; do
  [[ $reader =~ ^(module|text|calls|world|block|words)$ ]] || usage "$how"
done

good=$work/good
mkdir "$good"
for name in examples/*/contract.wat; do
  "$wblock" asm "$name" "$good/$(basename "$(dirname "$name")").wasm" >"$work/log" || fail "asm $name: $(cat "$work/log")"
done
"$wblock" deploy "$good/world" "$good/token.wasm" >"$work/log" || fail "deploy: $(cat "$work/log")"
"$wblock" mine "$good/world" examples/token/1.calls "$good/block" "$good/next" --fuel 1000 --workers 1 >"$work/log" 2>&1 || fail "mine: status $?"

# The files that a reader's begin from, each in the folder that is named.
begin() {
  mkdir "$2"
  case $1 in
    module) cp "$good"/*.wasm "$2" ;;
    text) for name in examples/*/contract.wat; do cp "$name" "$2/$(basename "$(dirname "$name")").wat"; done ;;
    calls) for name in examples/*/*.calls; do cp "$name" "$2/$(basename "$(dirname "$name")").$(basename "$name")"; done ;;
    world) cp "$good/world" "$good/next" "$2" ;;
    block) cp "$good/block" "$2" ;;
    words) printf '%s\n' step:3 stack locals back:2 break:0:7 cont globals bytes:0:8 place "--block=$good/block" --fuel=1000 >"$2/words" ;;
  esac
  bench/seeds.py "$1" "$2"
}

# The words by which the program reads a file, `@@` in its place.
words() {
  case $1 in
    module) echo "$wblock check @@" ;;
    text) echo "$wblock asm @@ $work/out.wasm" ;;
    calls) echo "$wblock validate $good/world @@ $good/block --fuel 1000" ;;
    world) echo "$wblock validate @@ examples/token/1.calls $good/block --fuel 1000" ;;
    block) echo "$wblock validate $good/world examples/token/1.calls @@ --fuel 1000" ;;
    words) echo "$work/worded @@ $wblock debug $good/world examples/token/1.calls 2" ;;
  esac
}

# Runs the words that stand behind a file, and those of its lines.
cat >"$work/worded" <<'WORDED'
#!/bin/bash
mapfile -t words < <(tr -d '\0' <"$1")
exec "${@:2}" "${words[@]}"
WORDED
chmod +x "$work/worded"

# Runs the words that it is given, with ten seconds of processor time; what takes longer is ended by a signal.
cat >"$work/limited" <<'LIMITED'
#!/bin/sh
ulimit -t 10
exec "$@"
LIMITED
chmod +x "$work/limited"

# How many files AFL++ gave the program.
runs_of() {
  find "$1" -name plot_data -exec tail -n 1 {} + | cut -d, -f12 | tr -d ' '
}

# By AFL++: a file that ends the program by a signal, or lets it run on, is kept by it.
by_afl() {
  local reader=$1 from=$2 out=$work/afl.$1 mode=(-n -t 600000) limited=("$work/limited") how=blind found
  if [[ $reader != words ]] && grep -q __AFL_SHM_ID "$wblock"; then
    mode=(-t 60000) limited=() how=told
  elif [[ $reader != words ]] && command -v afl-qemu-trace >/dev/null; then
    mode=(-Q -t 60000) limited=() how="in qemu"
  fi
  # (it runs each some times before it changes one)
  mkdir "$out.from"
  find "$from" -type f | sort | sed -n 1,500p | xargs -d '\n' cp -t "$out.from"
  # shellcheck disable=SC2046 # the words of one command
  AFL_SKIP_CPUFREQ=1 AFL_I_DONT_CARE_ABOUT_MISSING_CRASHES=1 AFL_NO_UI=1 AFL_NO_AFFINITY=1 \
    timeout -s INT $((60 * minutes)) afl-fuzz "${mode[@]}" -s "$seed" -i "$out.from" -o "$out" -- "${limited[@]}" $(words "$reader") >"$work/log" 2>&1 || (($? == 124)) || fail "afl-fuzz: $(tail -n 3 "$work/log")"
  found=$(find "$out" \( -path '*/crashes/*' -o -path '*/hangs/*' \) -type f ! -name README.txt -print -quit)
  if [[ -n $found ]]; then
    cp "$found" "$work/found"
    keep found "$reader: the program ends badly, or runs on"
  fi
  echo "$reader: $minutes minutes of AFL++ ($how), no file of $(runs_of "$out") ends the program by a signal or lets it run on"
}

# By a loop of Python: bytes changed, cut out, put in, doubled, and numbers at the edges of their ranges.
by_python() {
  # shellcheck disable=SC2046 # the words of one command
  python3 - "$1" "$2" "$minutes" "$seed" "$work/found" "$work/limited" $(words "$1") <<'LOOP' || keep found "$1: the program ends badly"
import os, random, subprocess, sys, time
reader, folder, minutes, seed, case, *words = sys.argv[1:]
seeds = [open(os.path.join(folder, name), "rb").read() for name in sorted(os.listdir(folder))]
draw, count, end = random.Random(f"{reader} {seed}"), 0, time.monotonic() + 60 * int(minutes)
edges = [b"\0", b"\x7f", b"\x80", b"\xff", b"\xff\xff\xff\xff\x0f", b"\xff\xff\xff\xff", b"\0\0\0\x80", b"\xff" * 8, b"(", b")", b"\r\n", b"i64:"]
while time.monotonic() < end:
    data = bytearray(draw.choice(seeds))
    for _ in range(draw.choice([1, 1, 2, 4, 32])):
        at = draw.randrange(len(data) + 1)
        to = min(len(data), at + draw.choice([1, 2, 4, 8, 100]))
        match draw.randrange(5):
            case 0: data[at:to] = bytes(draw.randrange(256) for _ in range(to - at))
            case 1: del data[at:to]
            case 2: data[at:at] = draw.choice(edges)
            case 3: data[at:at] = data[at:to] * draw.choice([1, 2, 50])
            case 4 if at < len(data): data[at] ^= 1 << draw.randrange(8)
    with open(case, "wb") as file:
        file.write(data)
    try:
        status = subprocess.run([case if word == "@@" else word for word in words], capture_output=True, timeout=600).returncode
    except subprocess.TimeoutExpired:
        status = "none within ten minutes"
    count += 1
    if status not in range(5):
        sys.exit(f"{reader}: status {status}, file {count} of seed {seed}")
print(f"{reader}: {count} files by the loop in {minutes} minutes (seed {seed}), from {len(seeds)} good ones, each ends with a status of 0 to 4")
LOOP
}

for reader in "$@"; do
  begin "$reader" "$work/from.$reader"
  by_python "$reader" "$work/from.$reader"
  if command -v afl-fuzz >/dev/null; then by_afl "$reader" "$work/from.$reader"; fi
done
took
