#!/usr/bin/env python3
"""A proposer that lies: it puts forged blocks and what is no block into the log, and writes over what stands there.

    lie.py NAME FOLDER --fuel N [--program wblock] [--etcd URL] [--nodes a,b,c]

It takes the calls of one block from standard input. Each lie takes a position, and is told once that is final: by the refusal, or with status 1 where most nodes went
on by it. Last it proposes the right block, which has to be accepted: so the lies were refused for what they are.
"""

import sys

from log import arguments, base, entry_of, key_of
from member import WORDS, Fault, started, status_of
from propose import back, catch_up, mine, propose, wait_final


def lies(member, name, calls):
    """What is put into the log, each with its name: all over the present world, in which the calls have a right block."""
    block, _ = mine(member, calls)
    later, _ = mine(member, calls)
    first = "".join(call + "\n" for call in calls[:1]).encode()
    flipped = lambda at: block[:at] + bytes([block[at] ^ 1]) + block[at + 1:]
    return [
        ("its digest of the world after is another", entry_of(name, calls, flipped(len(block) - 1))),
        ("its sum of fuel is another", entry_of(name, calls, flipped(len(block) - 40))),
        ("a receipt in it is another", entry_of(name, calls, flipped(80))),
        ("it is of other calls", entry_of(name, calls[1:], block)),
        ("it is of calls in another order", entry_of(name, calls[::-1], block)),
        ("it is for another world", entry_of(name, calls, later)),
        ("it is cut short", entry_of(name, calls, block[:-1])),
        ("it is no block", entry_of(name, calls, b"no block")),
        ("its calls are no calls", entry_of(name, ["0 much open"], block)),
        ("an empty line stands among its calls", entry_of(name, calls[:2] + [""] + calls[2:], block)),
        ("the entry has no empty line", first),
        ("the entry has no byte", b""),
        ("the entry is no text", bytes(range(255, 0, -1)) * 100),
    ]


def main(given):
    log, member = started(given)
    calls, entries = sys.stdin.read().splitlines(), log.entries(member.position)
    catch_up(log, member, entries)
    forged = lies(member, given.name, calls)
    member = back(member)
    for what, entry in forged:
        before = member.digest()
        log.offer(member.position + 1, entry)
        if next(entries) != entry:
            raise Fault("another proposer was first")
        # (this member asks the program, too, and stays on the world that the nodes have to stay on)
        verdict = member.take(entry)
        if member.digest() != before:
            raise Fault(f"position {member.position} was accepted: {what}")
        wait_final(log, member, given.nodes)
        print(f"position {member.position} is refused, {verdict}: {what}", flush=True)
    log.offer(1, b"a second entry of a position")
    if log.ask("kv/range", {"key": base(key_of(1))})["kvs"][0]["version"] != "1":
        raise Fault("a second entry was taken at a position")
    log.ask("kv/put", {"key": base(key_of(1)), "value": base("written over")})
    log.ask("kv/deleterange", {"key": base(key_of(2))})
    member, _, _ = propose(log, member, entries, given.name, calls)
    wait_final(log, member, given.nodes)
    print(f"position {member.position} is right, and final", flush=True)


if __name__ == "__main__":
    sys.exit(status_of(main, arguments(__doc__, *WORDS)))
