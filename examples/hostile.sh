#!/usr/bin/env bash
# Gives the program what a stranger may send to stop it: calls that never end, with limits of fuel above the block's, among so many others that the miner
# tries some of them first; and blocks that name such calls and were never mined, which the validator's workers might run ahead of its judgement, and the
# debugger before the call that it is asked for; and worlds that name more cells than they have. It answers each rightly in two seconds, of which it needs some hundredths; one that hangs is a row that failed.
#
#   examples/hostile.sh [PROGRAM]     PROGRAM: crates/wblock/out/wblock of this repository if it is not given
#
# It needs the shell, coreutils and python3, which makes the blocks by the formats of docs/REFERENCE.md, section 6. The status is 0 where all passed, 1
# where one failed, 2 where there is no program.
# shellcheck source=SCRIPTDIR/checks.sh
. "$(dirname "${BASH_SOURCE[0]}")/checks.sh" "$@"

# Whether the miner leaves out these calls alone, in so many seconds: $1 the seconds, $2 the calls that are left out, $3 how many are in the block, and the words.
mines() {
    { timeout -s KILL "$1" "$program" mine world calls b n "${@:4}" >out 2>err; } 2>/dev/null
    [ $? = 0 ] && [ "$(grep '^left ' out | tr '\n' ' ')" = "$2" ] && [ "$(grep -c '^[0-9]* call ' out)" = "$3" ]
}

# Whether the program is done within so many seconds: $1 the seconds, and the words.
ends() { { timeout -s KILL "$1" "$program" "${@:2}" >out 2>err; } 2>/dev/null; }

# Whether a file is refused at once as no world, with 500 MB of memory: $1 the file.
is_no_world() {
    { (ulimit -v 500000 && timeout -s KILL 2 "$program" call "$1" 0 1000 f >out 2>err); } 2>/dev/null
    [ $? = 1 ] && grep -q '^refused world 1 ' out
}

# Whether a block is rejected: $1 the line, $2 the block, $3 the calls, and the words.
is_rejected() {
    { timeout -s KILL 2 "$program" validate world "$3" "$2" "${@:4}" >out 2>err; } 2>/dev/null
    [ $? = 1 ] && [ "$(cat out)" = "$1" ]
}

# Whether the debugger, asked for a call of a block, prints one line: $1 the status, $2 the line, $3 the call, and the words behind its command.
shows() {
    { timeout -s KILL 2 "$program" debug world calls "$3" place --block block "${@:4}" >out 2>err; } 2>/dev/null
    [ $? = "$1" ] && [ "$(cat out)" = "$2" ]
}

# Whether a command that never ends says this on a terminal at once: $1 what, and the words.
says_on_a_terminal() {
    python3 - "$1" "$program" "${@:2}" <<'END'
import os, pty, select, subprocess, sys, time
wanted, said, (ours, theirs) = sys.argv[1].encode(), b"", pty.openpty()
child = subprocess.Popen(sys.argv[2:], stdin=subprocess.DEVNULL, stdout=subprocess.DEVNULL, stderr=theirs)
os.close(theirs)
end = time.monotonic() + 2
while wanted not in said and select.select([ours], [], [], max(0, end - time.monotonic()))[0]:
    try:
        said += os.read(ours, 4096)
    except OSError:
        break
child.kill()
child.wait()
sys.exit(wanted not in said)
END
}

# 16 calls that are spread over a list, rising: $1 how many calls the list has.
spread_over() { for number in {0..15}; do echo $((number * ($1 / 16 + 7) % $1)); done | sort -n; }

# Writes a list of calls: $1 how many, $2 the limit of those that never end, and their numbers.
list_calls() {
    python3 - "$@" <<'END'
import sys
count, limit, endless = int(sys.argv[1]), sys.argv[2], set(map(int, sys.argv[3:]))
for call in range(count):
    print(f"0 {limit} forever" if call in endless else f"0 1 bump i64:{call} i64:1")
END
}

# Writes a block that was never mined, with each call of the list at its own number, or call 0 at each: $1 the world, $2 the calls, $3 the positions,
# $4 `each` or `same`.
forge() {
    python3 - "$@" <<'END'
import hashlib, struct, sys
u32 = lambda n: struct.pack("<I", n)
u64 = lambda n: struct.pack("<Q", n)
world, calls, count, which = open(sys.argv[1], "rb").read(), [], int(sys.argv[3]), sys.argv[4]
for line in open(sys.argv[2]):
    contract, limit, entry, *values = line.split()
    values = [v.split(":") for v in values]
    values = [b"\x7f" + u32(int(n) % 2**32) if kind == "i32" else b"\x7e" + u64(int(n) % 2**64) for kind, n in values]
    entry = entry.encode()
    calls.append(u32(int(contract)) + u32(len(entry)) + entry + u32(len(values)) + b"".join(values) + u64(int(limit)))
listed = b"WBCL" + u32(1) + u32(len(calls)) + b"".join(calls)
digest = lambda data: hashlib.sha256(data).digest()
# each returned, with 5,000 units of fuel, at no level, and asked for no lock
positions = [u32(at if which == "each" else 0) + u64(5000) + u32(0) + b"\0\0" + u32(0) for at in range(count)]
block = b"WBLK" + u32(2) + digest(world) + digest(listed) + u32(count) + b"".join(positions) + u64(5000 * count) + digest(b"")
sys.stdout.buffer.write(block)
END
}

# Writes a module of 100,000 data segments of one byte: $1 `falling`, `same` or `mixed`, the order of their addresses.
segments() {
    python3 - "$1" <<'END'
import sys
count = 100_000
def leb(n):
    return bytes([n]) if n < 128 else bytes([n % 128 + 128]) + leb(n // 128)
def sleb(n):
    return bytes([n]) if n < 64 else bytes([n % 128 + 128]) + sleb(n // 128)
section = lambda number, body: bytes([number]) + leb(len(body)) + body
at = {"falling": lambda k: count - 1 - k, "same": lambda k: 0, "mixed": lambda k: k * 7919 % count}[sys.argv[1]]
data = leb(count) + b"".join(b"\0\x41" + sleb(2 * at(k)) + b"\x0b\1a" for k in range(count))
parts = [(1, b"\1\x60\0\0"), (3, b"\1\0"), (5, b"\1\0\x40"), (7, b"\1\1f\0\0"), (10, b"\1\3\0\1\x0b"), (11, data)]
sys.stdout.buffer.write(b"\0asm\1\0\0\0" + b"".join(section(*part) for part in parts))
END
}

# Writes a module that has long lists: $1 `table`, of 65,536 elements and no segment; `elements`, 983,040 of them in 15 segments; `globals`, 200,000 that may be
# set; or `exports`, 140,000, of which the last is called.
lists() {
    python3 - "$1" <<'END'
import sys
def leb(n):
    return bytes([n]) if n < 128 else bytes([n % 128 + 128]) + leb(n // 128)
section = lambda number, body: bytes([number]) + leb(len(body)) + body
digits = "0123456789abcdefghijklmnopqrstuvwxyz"
name = lambda k: "".join(digits[k // n % 36] for n in (46656, 1296, 36, 1)).encode()
names = [b"f"]
table = [(4, b"\1\x70\0" + leb(65_536))]
lists = {"table": table, "elements": table + [(9, leb(15) + (b"\0\x41\0\x0b" + leb(65_536) + bytes(65_536)) * 15)],
         "globals": [(6, leb(200_000) + b"\x7f\1\x41\0\x0b" * 200_000)], "exports": []}[sys.argv[1]]
if sys.argv[1] == "exports":
    names = [name(k) for k in range(139_999)] + names
exports = leb(len(names)) + b"".join(leb(len(n)) + n + b"\0\0" for n in names)
parts = sorted([(1, b"\1\x60\0\0"), (3, b"\1\0"), (7, exports), (10, b"\1\3\0\1\x0b")] + lists)
sys.stdout.buffer.write(b"\0asm\1\0\0\0" + b"".join(section(*part) for part in parts))
END
}

cat >text <<'END'
(module
 (import "boost" "add" (func $add (param i64) (param i64)))
 (func (export "forever") (loop (br 0)))
 (func (export "bump") (param i64) (param i64)
  (call $add (local.get 0) (local.get 1))))
END
cp "$here/numbers/cell.wat" other
if ! "$program" asm text module >out 2>err || ! "$program" deploy world module >out 2>err || ! "$program" asm other module >out 2>err ||
    ! "$program" deploy other.world module >out 2>err; then
    give_up "no worlds are made"
fi

# the miner: a call that never ends, with the highest limit; then many of them, spread over the list; then all
endless=18446744073709551615
for workers in 1 4; do
    for count in 511 512 2000 65535; do
        for first in 0 1 $((count / 2)) $((count - 1)); do
            list_calls $count $endless "$first" >calls
            is "$count calls, $first never ends, $workers workers" mines 2 "left $first " $((count - 1)) --fuel 65535 --workers $workers
        done
        mapfile -t spread < <(spread_over $count)
        list_calls $count $endless "${spread[@]}" >calls
        is "$count calls, 16 never end, $workers workers" mines 2 "$(printf 'left %s ' "${spread[@]}")" $((count - 16)) --fuel 65535 --workers $workers
    done
    list_calls 512 $endless {0..511} >calls
    is "512 calls, none ends, $workers workers" mines 2 "$(printf 'left %s ' {0..511})" 0 --fuel 1000 --workers $workers
done

# the miner: limits within the block's fuel, of which one call has all. It takes about a second, and 16 more where each of the others is tried to its end
mapfile -t spread < <(spread_over 512)
list_calls 512 50000000 "${spread[@]}" >calls
is "512 calls, 16 of which may use all fuel" ends 8 mine world calls b n --fuel 50000000 --workers 1

# the validator: a block that names such a call, of this world and these calls, of another world, and of other calls
for count in 511 512 65535; do
    for first in 0 100 $((count - 1)); do
        list_calls $count $endless "$first" >calls
        list_calls $count $endless $(((first + 1) % count)) >calls.other
        forge world calls $count each >block
        for workers in 1 2 4; do
            name="a block of $count, $first never ends, $workers workers"
            is "$name" is_rejected "reject 5" block calls --fuel 1000 --workers $workers
            is "$name, of other calls" is_rejected "reject 3" block calls.other --fuel 1000 --workers $workers
        done
    done
    forge other.world calls $count each >block
    for workers in 1 2 4; do
        is "a block of $count of another world, $workers workers" is_rejected "reject 2" block calls --fuel 1000 --workers $workers
    done
done

# the validator: a block that names one long call again and again
list_calls 1 100000000 0 >calls
for count in 2048 65535; do
    forge world calls $count same >block
    for workers in 1 2 4; do
        is "a block of one call $count times, $workers workers" is_rejected "reject 4 1" block calls --fuel 200000000 --workers $workers
    done
done

# the debugger: a call that never ends stands before the one that is asked for. The fuel that is given bounds what runs; if none is given, the least that the
# block needs does, which may be any number of 64 bits
list_calls 512 $endless 0 >calls
forge world calls 512 each >block
is "calls of which 64 bits do not tell the fuel" shows 1 "reject 5" 511
is "a call before it never ends" shows 1 "reject 5" 511 --fuel 1000
is "it never ends itself" shows 1 "reject 5" 0 --fuel 1000
list_calls 512 9223372036854775808 0 >calls
forge world calls 512 each >block
is "a call before it may use 2^63 of fuel" shows 1 "reject 5" 511 --fuel 1000
is "one unit of fuel too few" shows 1 "reject 5" 511 --fuel 9223372036854776318
is "no call before it" shows 0 "0 at 1 0" 0 --fuel 9223372036854776319
is "what is about to run is said on a terminal" says_on_a_terminal "earlier calls run with up to 9223372036854776318 of fuel; --fuel N bounds it" \
    debug world calls 511 place --block block
list_calls 512 100000 0 >calls
forge world calls 512 each >block
is "a call before it uses 100,000 of fuel" shows 0 "0 at 2 0" 511 --fuel 100511
is "so it does where no fuel is given" shows 0 "0 at 2 0" 511

# data segments: what they lie over is found once, when the module is deployed, and no call pays for them
for order in falling same mixed; do
    segments $order >module
    is "100,000 data segments, $order, are deployed" ends 10 deploy segments.$order module
done
for ((number = 0; number < 65535; number++)); do echo "0 1 f"; done >calls
is "65,535 calls over 100,000 data segments" ends 10 mine segments.mixed calls b n --fuel 65535 --workers 1

# other lists of a module: no call pays for them either
for list in table elements globals exports; do
    lists $list >module
    is "a module with a long list is deployed: $list" ends 10 deploy lists.$list module
    is "65,535 calls to a module with a long list: $list" ends 10 mine lists.$list calls b n --fuel 65535 --workers 1
done

# worlds that name more cells than they have bytes for: they are refused before a list is made, which would not fit into this memory
for count in 100000000 18446744073709551615; do
    python3 -c "open('forged', 'wb').write(open('world', 'rb').read()[:-16] + int($count).to_bytes(8, 'little') + bytes(28))"
    is "a world that names $count cells" is_no_world forged
done

told
