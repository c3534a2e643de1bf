#!/usr/bin/env bash
# Prints how long the program takes to mine a block of 65,535 calls that use one counter, and to validate it, and the most memory that each takes,
# for calls that come in 2, 256 and 65,535 groups of equal size, which read the counter and add to it in turn. One worker mines, so that the groups
# are those of the block; one and four validate. Behind that stands how many times as much as mining it takes, which is to be at most 3 times the
# time and 4 times the memory. Run it anywhere in the repository:
#
#   bench/crowd.sh [GROUPS..]
#
# With words it measures each of these numbers of groups instead.
source "$(dirname "${BASH_SOURCE[0]}")/common.sh" wblock python3

if (($# == 0)); then
  set -- 2 256 65535
fi
for groups in "$@"; do
  if ! [[ $groups =~ ^[1-9][0-9]{0,4}$ ]]; then
    usage "[GROUPS..]"
  fi
done

build
cat >"$work/counter.wat" <<'MODULE'
(module
  (import "boost" "add" (func $add (param i64) (param i64)))
  (import "boost" "total" (func $total (param i64) (result i64)))
  (func (export "add")
    i64.const 7
    i64.const 1
    call $add)
  (func (export "read")
    i64.const 7
    call $total
    drop))
MODULE
"$program" asm "$work/counter.wat" "$work/counter.wasm" >/dev/null
"$program" deploy "$work/world" "$work/counter.wasm" >/dev/null
for groups in "$@"; do
  python3 - "$program" "$work" "$groups" <<'MEASURE'
import os, sys, time

program, work, groups = sys.argv[1], sys.argv[2], int(sys.argv[3])
COUNT, FUEL = 65535, str(100 * 65535)
with open(f"{work}/calls", "w") as calls:
    for number in range(COUNT):
        calls.write(f"0 100 {('read', 'add')[number * groups // COUNT % 2]}\n")

def measured(*words):
    """The seconds that the program takes with these words, and the most megabytes that it holds at once."""
    start = time.monotonic()
    child = os.fork()
    if child == 0:
        os.dup2(os.open("/dev/null", os.O_WRONLY), 1)
        os.execv(program, [program, *words])
    _, status, usage = os.wait4(child, 0)
    if status != 0:
        sys.exit(f"bench/crowd.sh: status {status} of {words[0]}")
    return time.monotonic() - start, usage.ru_maxrss / 1024

paths = [f"{work}/world", f"{work}/calls", f"{work}/block"]
seconds, megabytes = measured("mine", *paths, f"{work}/next", "--fuel", FUEL, "--workers", "1")
print(f"groups {groups} mine     by 1: {seconds:6.2f} s {megabytes:6.0f} MB")
for workers in "1", "4":
    again, most = measured("validate", *paths, "--fuel", FUEL, "--workers", workers)
    print(f"groups {groups} validate by {workers}: {again:6.2f} s {most:6.0f} MB, {again / seconds:.1f} times the time, {most / megabytes:.1f} times the memory")
MEASURE
done
uptime | sed 's/.*load/load/'
