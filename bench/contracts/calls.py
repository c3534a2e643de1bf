#!/usr/bin/env python3
"""Writes calls of the contracts of this folder as the program's files of calls have them.

    calls.py setup|block CONTRACT COUNT CONFLICTS

CONTRACT is ballot, auction, registry, or mixed: all three in one world, in this order, whose calls come in turn. `setup` writes the calls of the
block that comes first, which is to be mined by one worker, `block` the COUNT calls that are measured. CONFLICTS is how many of 100 of
these conflict with others:

- ballot: votes of one voter for proposal 0. Of those that conflict each second one is a second vote of the voter before.
- auction: withdrawals, each of another bidder's former bid. Those that conflict are bids of one more than the highest.
- registry: look-ups, each of another document. Those that conflict are transfers of documents to one owner.
"""
import sys

NAMES = ["ballot", "auction", "registry"]
LIMIT, LONG, BATCH = 10_000, 10_000_000, 1_000
ONE_OWNER = 1_000_000


def conflicts_at(number, conflicts):
    """Whether the call of this number is one of those that conflict, which are spread evenly."""
    return (number + 1) * conflicts // 100 > number * conflicts // 100


def batches(count):
    """So many numbers from 1 on, in parts: the first of a part, and how many it has."""
    return [(first, min(BATCH, count - first + 1)) for first in range(1, count + 1, BATCH)]


def setup(name, count):
    if name == "ballot":
        yield "open i64:9"
        for first, some in batches(count):
            yield f"admit i64:9 i64:{first} i64:{some}"
    elif name == "auction":
        # the last one leads, and has nothing to take back
        for first, some in batches(count + 1):
            yield f"enter i64:{first} i64:{some}"
    else:
        for first, some in batches(count):
            yield f"register i64:{first} i64:{some}"


def block(name, count, conflicts):
    second = None
    for number in range(count):
        mine = number + 1
        conflicting = conflicts_at(number, conflicts)
        if name == "ballot":
            if conflicting:
                # votes that conflict come in pairs
                mine, second = (second, None) if second else (mine, mine)
            yield f"vote i64:{mine} i64:0"
        elif name == "auction":
            yield f"bid_plus_one i64:{ONE_OWNER + mine}" if conflicting else f"withdraw i64:{mine}"
        else:
            yield f"transfer i64:{mine} i64:{mine} i64:{ONE_OWNER}" if conflicting else f"look_up i64:{mine}"


def lines(what, name, count, conflicts):
    """The calls of one contract, without its number and without limits."""
    return setup(name, count) if what == "setup" else block(name, count, conflicts)


def main():
    what, contract, count, conflicts = sys.argv[1], sys.argv[2], int(sys.argv[3]), int(sys.argv[4])
    if what not in ("setup", "block") or contract not in NAMES + ["mixed"]:
        sys.exit(__doc__)
    names = NAMES if contract == "mixed" else [contract]
    limit = LONG if what == "setup" else LIMIT
    shares = [(count + len(names) - 1 - place) // len(names) for place in range(len(names))]
    rows = [[f"{place} {limit} {call}" for call in lines(what, name, share, conflicts)] for place, (name, share) in enumerate(zip(names, shares))]
    for turn in range(max(map(len, rows))):
        for row in rows:
            if turn < len(row):
                print(row[turn])


main()
