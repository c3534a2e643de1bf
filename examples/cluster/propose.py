#!/usr/bin/env python3
"""A proposer: takes calls from standard input, one a line, mines them in blocks, and puts them into the log. An empty line ends a block.

    propose.py NAME FOLDER --fuel N [--program wblock] [--etcd URL] [--nodes a,b,c]

It keeps a world as a node does (member.py), and several may be at work at once: who comes second at a position follows the block of the first one, and mines its
own again for the next position. Each block is told once it is final: more than half of the nodes came to its digest.
"""

import itertools
import sys
import time

from log import arguments, entry_of, majority
from member import WORDS, Fault, Member, started, status_of


def mine(member, calls):
    """A block over the present world, which the session goes on from, and the calls that have no room in it."""
    answer = member.chain.ask(f"mine - - --fuel {member.fuel}", calls)
    if answer.status != 0:
        raise ValueError("; ".join(answer.lines + answer.said))
    return bytes.fromhex(answer.value("block")), [calls[int(line[5:])] for line in answer.lines if line.startswith("left ")]


def back(member):
    """The member as it was before it mined: it goes on from its file."""
    member.chain.close()
    return Member(member.program, member.fuel)


def catch_up(log, member, entries):
    """Takes the entries that are there."""
    while log.has(member.position + 1):
        member.take(next(entries))
    member.save()


def propose(log, member, entries, name, calls):
    """Puts a block of these calls behind the last entry. Gives the member, the calls that are left, and how often it was tried."""
    for tries in itertools.count(1):
        catch_up(log, member, entries)
        block, left = mine(member, calls)
        ours = entry_of(name, calls, block)
        log.offer(member.position + 1, ours)
        entry = next(entries)
        if entry == ours:
            member.position += 1
            member.save()
            return member, left, tries
        member = back(member)
        member.take(entry)


def wait_final(log, member, nodes):
    """Waits until most nodes came to the digest of this member, at its position."""
    until = time.monotonic() + log.patience
    while (most := majority(told := log.told(member.position, nodes), nodes)) is None:
        if time.monotonic() > until:
            raise Fault(f"position {member.position} is not final: of {len(nodes)} nodes these told what they came to: {','.join(told) or 'none'}")
        time.sleep(0.02)
    if most != member.digest():
        raise Fault(f"at position {member.position} most nodes came to the world {most}, and this proposer to {member.digest()}")


def main(given):
    log, member = started(given)
    entries, calls = log.entries(member.position), []
    for line in itertools.chain(sys.stdin, ["\n"]):
        if line.strip():
            calls.append(line.rstrip("\n"))
        elif calls:
            member, left, tries = propose(log, member, entries, given.name, calls)
            wait_final(log, member, given.nodes)
            print(f"position {member.position} is final, by try {tries}: the world {member.digest()}", flush=True)
            for call in left:
                print(f"left out, since the block had no room: {call}", flush=True)
            calls = []


if __name__ == "__main__":
    sys.exit(status_of(main, arguments(__doc__, *WORDS)))
