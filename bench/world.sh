#!/usr/bin/env bash
# Prints how long the commands over a world of so many cells (1,000,000 if left out) take and how much memory, beside `sha256sum` of the same file, as a table
# that can be pasted into docs/BENCHMARKS.md: `chain` of no line, which reads the world alone; `call`, which reads the world and runs one call; `mine` of 1,000 calls, by one worker and by four; `validate` of
# their block; and a block of a session (`chain`). The world has two contracts; half of its cells are of maps, and half are counters. Each number is the best of five runs, one of each row in turn.
# It fails where the digest of the world is not that of `sha256sum`, or where the block is not accepted. Run it anywhere in the repository:
#
#   bench/world.sh [PROGRAM] [CELLS]
#
# PROGRAM is taken in place of `wblock`, and then none is built.
source "$(dirname "${BASH_SOURCE[0]}")/common.sh" wblock python3

if (($# > 0)) && ! [[ $1 =~ ^[0-9]+$ ]]; then
  take_program "$@"
  set -- "${rest[@]}"
else
  build
fi
[[ $# -le 1 && ${1:-1000000} =~ ^[1-9][0-9]{0,7}$ ]] || usage "[PROGRAM] [CELLS]"

python3 bench/loads.py contract >"$work/contract.wat"
python3 bench/loads.py calls 7 0 1000 >"$work/calls"
"$wblock" asm "$work/contract.wat" "$work/contract.wasm" >"$work/log"
machine
python3 - "$work" "${1:-1000000}" <<'WORLD' || exit 1
import struct, sys
work, cells = sys.argv[1], int(sys.argv[2])
contract = open(f"{work}/contract.wasm", "rb").read()

def cells_of(count):
    """The count, and each cell: half of them of either contract, by rising keys."""
    half = count // 2
    keys = [(0, key) for key in range(half)] + [(1, key) for key in range(count - half)]
    return struct.pack("<Q", count) + b"".join(struct.pack("<IQQ", number, key, key % 1000 + 1) for number, key in keys)

with open(f"{work}/world", "wb") as file:
    file.write(b"WBWD" + struct.pack("<II", 1, 2) + 2 * (struct.pack("<I", len(contract)) + contract) + cells_of(cells // 2) + cells_of(cells - cells // 2))
WORLD
# (a program of its own, since the memory of a child is at least that of the program which starts it)
python3 - "$wblock" "$work" "${1:-1000000}" <<'RUNS' || exit 1
import os, subprocess, sys, time
program, work, cells = sys.argv[1], sys.argv[2], int(sys.argv[3])
size = os.path.getsize(f"{work}/world")

def run(words):
    """How long a command takes, the most memory that it had, and what it printed."""
    start = time.perf_counter()
    child = subprocess.Popen(words, cwd=work, stdin=subprocess.DEVNULL, stdout=subprocess.PIPE)
    out = child.stdout.read()
    _, status, used = os.wait4(child.pid, 0)
    child.returncode = os.waitstatus_to_exitcode(status)
    if child.returncode != 0:
        sys.exit(f"bench/world.sh: {' '.join(words)} ends with status {child.returncode}")
    return time.perf_counter() - start, used.ru_maxrss * 1024, out.decode()

fuel = ["--fuel", "20000000"]
rows = {
    "`sha256sum`": ["sha256sum", "world"],
    "`chain` of no line": [program, "chain", "world"],
    "`call`": [program, "call", "world", "0", "1000", "bump7", "i64:7"],
    "`mine --workers 1`": [program, "mine", "world", "calls", "block", "next", *fuel, "--workers", "1"],
    "`mine --workers 4`": [program, "mine", "world", "calls", "block", "next", *fuel, "--workers", "4"],
    "`validate`": [program, "validate", "world", "calls", "block", *fuel],
}
best = {name: (float("inf"), 0) for name in rows}
for _ in range(5):
    for name, words in rows.items():
        took, memory, told = run(words)
        best[name] = (min(best[name][0], took), max(best[name][1], memory))
        if name == "`sha256sum`":
            digest = told.split()[0]
        elif "mine" in name and f"before {digest}\n" not in told:
            sys.exit("bench/world.sh: the digest of the world is not that of its file")
        elif "validate" in name and not told.startswith("accept\n"):
            sys.exit("bench/world.sh: the block is not accepted")

def session():
    """How long each of five blocks took in one session, and the most memory that it had."""
    child = subprocess.Popen([program, "chain", "world"], cwd=work, stdin=subprocess.PIPE, stdout=subprocess.PIPE)
    took = []
    for line in [b"digest\n"] + 5 * [f"mine calls block {' '.join(fuel)}\n".encode()]:
        start = time.perf_counter()
        child.stdin.write(line)
        child.stdin.flush()
        while not (told := child.stdout.readline()).startswith(b"status"):
            pass
        if told != b"status 0\n":
            sys.exit(f"bench/world.sh: a line of the session is answered {told}")
        took.append(time.perf_counter() - start)
    child.stdin.close()
    _, status, used = os.wait4(child.pid, 0)
    child.returncode = os.waitstatus_to_exitcode(status)
    return min(took[1:]), used.ru_maxrss * 1024

best["a block in `chain`"] = session()
print(f"\nA world of {cells:,} cells, {size:,} bytes: best of 5.\n")
print("| | ms | MB/s | times `sha256sum` | bytes of memory for each byte of the file |\n|---|---|---|---|---|")
for name, (took, memory) in best.items():
    print(f"| {name} | {took * 1000:.0f} | {size / took / 1e6:.0f} | {took / best['`sha256sum`'][0]:.1f} | {memory / size:.1f} |")
RUNS
