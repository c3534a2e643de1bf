#!/usr/bin/env python3
"""Writes lists of calls for the exchange, the same for the same seed.

    load.py SEED ACCOUNTS CALLS FOLDER

FOLDER/begin.calls opens both coins, gives each account some of both and begins the market. FOLDER/load.calls has CALLS calls: of 100 some 60
transfers, 33 trades, 5 that add or remove shares and 2 that ask for a price. Some of each kind have to be refused. Accounts are not all alike: the
lower its number, the more often one acts.
"""
import random
import sys

FUEL = 2_000
BITS = 40
MOST = (1 << BITS) - 1
ISSUER = 1_000_000


def amount_of(dice, most):
    """An amount of any length."""
    return dice.randrange(1, 1 << dice.randrange(1, most.bit_length() + 1))


def begin(accounts):
    """The calls that begin the market, with the amounts that each account is given."""
    share = MOST // (accounts + 1)
    for coin in (0, 1):
        yield f"{coin} {FUEL} open i64:{ISSUER} i32:2 i32:{coin}"
        for account in range(1, accounts + 1):
            yield f"{coin} {FUEL} issue i64:{ISSUER} i64:{account} i64:{share}"
    yield f"2 9000 add_shares i64:1 i64:{share // 2} i64:{share // 4} i64:1"


def load(dice, accounts, calls):
    """Calls by chance."""
    share = MOST // (accounts + 1)
    holders = [1] * 20
    for _ in range(calls):
        kind, side = dice.random(), dice.randrange(2)
        account = min(int(dice.paretovariate(0.4)), accounts + 1) if dice.random() < 0.2 else dice.randrange(1, accounts + 1)
        if dice.random() < 0.01:
            account = dice.choice((0, 1 << 23))
        amount = amount_of(dice, share)
        if dice.random() < 0.01:
            amount = dice.choice((0, MOST + 1))
        limit = amount_of(dice, share) if dice.random() < 0.3 else 0
        if kind < 0.60:
            yield f"{side} {FUEL} transfer i64:{account} i64:{dice.randrange(1, accounts + 1)} i64:{amount}"
        elif kind < 0.83:
            yield f"2 {FUEL} sell i64:{account} i32:{side if dice.random() < 0.99 else 2} i64:{amount} i64:{limit}"
        elif kind < 0.93:
            yield f"2 {FUEL} buy i64:{account} i32:{side} i64:{amount} i64:{limit or MOST}"
        elif kind < 0.96:
            holders.append(account)
            yield f"2 {FUEL} add_shares i64:{account} i64:{amount} i64:{amount_of(dice, share)} i64:{limit}"
        elif kind < 0.98:
            if dice.random() < 0.9:
                account = dice.choice(holders)
            yield f"2 {FUEL} remove_shares i64:{account} i64:{amount_of(dice, share // 8)} i64:{limit} i64:0"
        else:
            yield f"2 {FUEL} quote i32:{side} i64:{amount}"


def main(words):
    try:
        seed, accounts, calls = map(int, words[:3])
        folder, = words[3:]
    except ValueError:
        sys.exit(__doc__.split("\n\n")[1])
    for name, lines in (("begin", begin(accounts)), ("load", load(random.Random(seed), accounts, calls))):
        with open(f"{folder}/{name}.calls", "w") as file:
            file.writelines(f"{line}\n" for line in lines)


if __name__ == "__main__":
    main(sys.argv[1:])
