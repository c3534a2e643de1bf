#!/usr/bin/env bash
# Prints how many calls a second of a function of one instruction are run one after another, with their block and its digests: in a module of nothing else, and
# in eight that have a long list each, of which the function uses nothing. A call should pay for none of them. The last row is a function that sets one of 200,000
# globals, which copies all of them. The table can be pasted into docs/BENCHMARKS.md; each number is the best of five runs, one of each module in turn. It fails
# where a call to one of the eight takes more than twice as long as one to the module of nothing else. Run it anywhere in the repository:
#
#   bench/instances.sh [--quick]
#
# With --quick it measures once, which says nothing of speed.
source "$(dirname "${BASH_SOURCE[0]}")/common.sh" bench python3

runs=5
case $* in
  "") ;;
  --quick) runs=1 ;;
  *) usage "[--quick]" ;;
esac

# Writes the module that has the list of this name.
module() {
  python3 - "$1" <<'END'
import sys

PAGE = 65_536
DIGITS = "0123456789abcdefghijklmnopqrstuvwxyz"


def leb(n):
    return bytes([n]) if n < 128 else bytes([n % 128 + 128]) + leb(n // 128)


def sleb(n):
    return bytes([n]) if n < 64 else bytes([n % 128 + 128]) + sleb(n // 128)


def section(number, body):
    return bytes([number]) + leb(len(body)) + body


def listed(number, items):
    return (number, leb(len(items)) + b"".join(items))


def data(at, text):
    return b"\0\x41" + sleb(at) + b"\x0b" + leb(len(text)) + text


def name(k):
    return "".join(DIGITS[k // n % 36] for n in (46_656, 1_296, 36, 1)).encode()


kind = sys.argv[1]
memory, table = (5, b"\1\0" + leb(1_024)), (4, b"\1\x70\0" + leb(65_536))
names, body = [b"f"], b"\0\1\x0b"
lists = []
if kind == "memory":
    lists = [memory]
elif kind == "table":
    lists = [table]
elif kind == "exports":
    names = [name(k) for k in range(139_999)] + names
elif kind == "elements":
    lists = [table, listed(9, [b"\0\x41\0\x0b" + leb(65_536) + bytes(65_536)] * 15)]
elif kind == "data":
    lists = [memory, listed(11, [data(0, b"a" * 1_000_000)])]
elif kind == "segments":
    lists = [memory, listed(11, [data(k * PAGE, b"a") for k in range(1_024)])]
elif kind == "more_segments":
    lists = [memory, listed(11, [data(k * 4_096, b"a") for k in range(16_384)])]
elif kind in ("globals", "set"):
    lists = [listed(6, [b"\x7f\1\x41\0\x0b"] * 200_000)]
    if kind == "set":
        body = b"\0\x41\1\x24\0\x0b"
elif kind != "plain":
    sys.exit(f"no module {kind}")
exports = listed(7, [leb(len(n)) + n + b"\0\0" for n in names])
parts = sorted([(1, b"\1\x60\0\0"), (3, b"\1\0"), exports, listed(10, [leb(len(body)) + body]), *lists])
sys.stdout.buffer.write(b"\0asm\1\0\0\0" + b"".join(section(*part) for part in parts))
END
}

# So many calls, each with so much fuel.
calls() {
  local number
  for ((number = 0; number < $1; number++)); do echo "0 $2 f"; done
}

kinds=(plain memory table exports elements data globals segments more_segments set)
titles=(
  "nothing else" "a memory of 1,024 pages" "a table of 65,536 elements" "140,000 exports, of which the last is called" "983,040 elements in 15 segments"
  "1,000,000 bytes of data in one segment" "200,000 globals" "1,024 segments of one byte, one a page" "16,384 segments of one byte" "200,000 globals, of which one is set"
)

build wblock
calls 65535 1 >"$work/calls"
calls 1000 2 >"$work/calls.set"
columns=()
sizes=()
for kind in "${kinds[@]}"; do
  module "$kind" >"$work/$kind.wasm"
  sizes+=("$(wc -c <"$work/$kind.wasm")")
  "$wblock" deploy "$work/$kind" "$work/$kind.wasm" --force >"$work/log" || fail "deploy $kind: $(cat "$work/log")"
  list=$work/calls
  if [[ $kind == set ]]; then list=$work/calls.set; fi
  columns+=("block serial 1 $work/$kind $list")
done
measure "${columns[@]}"

machine
echo "Calls a second, best of $runs. The first nine rows are 65,535 calls with one unit of fuel, the last 1,000 with two."
echo
echo "| a module with | bytes | calls a second | of those to the first |"
echo "|---|---|---|---|"
for number in "${!kinds[@]}"; do
  echo "| ${titles[number]} | ${sizes[number]} | ${rates[number]} |$(times_cell "${rates[number]}" "${rates[0]}")"
done
took
for number in 1 2 3 4 5 6 7 8; do
  if ((rates[number] * 2 < rates[0])); then fail "a call to a module with ${titles[number]} takes more than twice as long as one to a module of nothing else"; fi
done
