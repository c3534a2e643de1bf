#!/usr/bin/env python3
"""Looks whether the exchange did in a chain of blocks what it has to, by what `show` tells.

    judge.py WBLOCK WORLD [CALLS BLOCK]...        the world after the last block, and the calls and the block of each, from the first on

It does all calls again by a second implementation, below, in Python's integers, which have no borders. Each receipt has to have its number. At the end
each balance and share has to be as it reckons, both sums the supplies, what the coins hold for the market what the market's cells say. x * y must
fall in no trade, and x * y / shares^2 in no call. It prints how many calls came to what. The status is 1 where something is not so.
"""
import collections
import json
import math
import subprocess
import sys

STATUSES = ("done", "no account", "no amount", "no side", "is open", "not issuer", "past supply", "short", "empty", "too small", "nothing", "beyond", "worse",
            "short of coin 0", "short of coin 1", "few shares")
ACCOUNTS, AMOUNTS, LOCKED = 1 << 23, 1 << 40, 1000


class Coin:
    def __init__(self):
        self.issuer, self.supply, self.balance = None, 0, collections.Counter()

    def pay(self, source, target, amount):
        if self.balance[source] < amount:
            return False
        self.balance[source] -= amount
        self.balance[target] += amount
        return True


class Market:
    """The three contracts; each entry a method that gives what the call has to return."""

    def __init__(self):
        self.coins, self.shares = (Coin(), Coin()), collections.Counter()

    def held(self, side):
        return self.coins[side].balance[0]

    def all(self):
        return sum(self.shares.values())

    def call(self, contract, entry, args):
        return getattr(self, f"of_{entry}")(*([self.coins[contract]] if contract < 2 else []), *args)

    def of_open(self, coin, issuer, _market, _place):
        if not 0 < issuer < ACCOUNTS:
            return -1
        if coin.issuer is not None:
            return -4
        coin.issuer = issuer
        return 0

    def of_issue(self, coin, actor, to, amount):
        if not (0 < actor < ACCOUNTS and 0 < to < ACCOUNTS):
            return -1
        if not 0 < amount < AMOUNTS:
            return -2
        if coin.issuer != actor:
            return -5
        if coin.supply + amount >= AMOUNTS:
            return -6
        coin.supply += amount
        coin.balance[to] += amount
        return amount

    def of_transfer(self, coin, source, target, amount):
        if not (0 < source < ACCOUNTS and 0 < target < ACCOUNTS):
            return -1
        if not 0 < amount < AMOUNTS:
            return -2
        return amount if coin.pay(source, target, amount) else -7

    def of_quote(self, side, amount):
        if side > 1:
            return -3
        if not 0 < amount < AMOUNTS:
            return -2
        return self.proceeds(side, amount) if self.all() else -8

    def proceeds(self, side, amount):
        """x * y stays as it was if 997 of 1,000 parts of the amount are counted: rounded down."""
        x, y = self.held(side), self.held(1 - side)
        return y - -(-x * y * 1000 // (x * 1000 + amount * 997))

    def refused(self, account, side, amount):
        return -1 if not 0 < account < ACCOUNTS else -3 if side > 1 else -2 if not 0 < amount < AMOUNTS else None if self.all() else -8

    def trade(self, account, side, paid, given):
        if not self.coins[side].pay(account, 0, paid):
            return False
        assert self.coins[1 - side].pay(0, account, given)
        return True

    def of_sell(self, account, side, amount, least):
        refused = self.refused(account, side, amount)
        if refused:
            return refused
        given = self.proceeds(side, amount)
        if given == 0:
            return -10
        if given < least:
            return -12
        return given if self.trade(account, side, amount, given) else -13 - side

    def of_buy(self, account, side, amount, most):
        refused = self.refused(account, side, amount)
        if refused:
            return refused
        if amount >= self.held(1 - side):
            return -11
        paid = self.held(side) * amount * 1000 // ((self.held(1 - side) - amount) * 997) + 1
        if paid > most or paid >= AMOUNTS:
            return -12
        return paid if self.trade(account, side, paid, amount) else -13 - side

    def of_add_shares(self, account, most_0, most_1, least):
        if not 0 < account < ACCOUNTS:
            return -1
        if not (0 < most_0 < AMOUNTS and 0 < most_1 < AMOUNTS):
            return -2
        x, y, shares = self.held(0), self.held(1), self.all()
        if shares == 0:
            paid, made = (most_0, most_1), math.isqrt(most_0 * most_1) - LOCKED
            if made <= 0:
                return -9
        else:
            paid = (most_0, most_0 * y // x)
            if paid[1] > most_1:
                paid = (most_1 * x // y, most_1)
            made = min(paid[0] * shares // x, paid[1] * shares // y)
            if made == 0 or 0 in paid:
                return -10
        if made < least:
            return -12
        for side in (0, 1):
            if self.coins[side].balance[account] < paid[side]:
                return -13 - side
        for side in (0, 1):
            self.coins[side].pay(account, 0, paid[side])
        self.shares[account] += made
        if shares == 0:
            self.shares[0] = LOCKED
        return made

    def of_remove_shares(self, account, shares, least_0, least_1):
        if not 0 < account < ACCOUNTS:
            return -1
        if not 0 < shares < AMOUNTS:
            return -2
        if self.shares[account] < shares:
            return -15
        given = [shares * self.held(side) // self.all() for side in (0, 1)]
        if 0 in given:
            return -10
        if given[0] < least_0 or given[1] < least_1:
            return -12
        for side in (0, 1):
            self.coins[side].pay(0, account, given[side])
        self.shares[account] -= shares
        return given[0]


def shown(wblock, *words):
    done = subprocess.run([wblock, "show", *words, "--json"], capture_output=True, text=True)
    if done.returncode:
        sys.exit(f"judge: show {' '.join(words)}: {done.stdout}{done.stderr}")
    return json.loads(done.stdout)


def faults_of_block(market, block, told):
    """Does a block's calls again."""
    for it in block["positions"]:
        call = it["called"]
        x, y, shares = market.held(0), market.held(1), market.all()
        wanted = market.call(call["contract"], call["entry"], [int(one["value"]) for one in call["args"]])
        came_to = int(it["value"]["value"]) if it["outcome"] == "returned" else it["outcome"]
        if came_to != wanted:
            yield f"position {it['position']}, {call['entry']}: came to {came_to}, and has to {wanted}"
            return
        if shares and market.held(0) * market.held(1) * shares**2 < x * y * market.all() ** 2:
            yield f"position {it['position']}, {call['entry']}: x * y / shares^2 fell"
        told[call["entry"], STATUSES[max(0, -wanted)]] += 1


def faults_of_world(market, world):
    """Compares cells: a cell that is not there is 0."""
    cells = collections.Counter({(cell["contract"], *divmod(int(cell["key"]), 1 << 56)): int(cell["value"]) for cell in world["cells"]["maps"]})
    supplies = {cell["contract"]: int(cell["value"]) for cell in world["cells"]["counters"]}
    rows = [cells, collections.Counter()]
    for number, coin in enumerate(market.coins):
        rows[1].update({(number, 1, account): balance for account, balance in coin.balance.items()})
        rows[1][2, 0, number] = market.held(number)
        total = sum(value for (contract, table, _), value in cells.items() if (contract, table) == (number, 1))
        if not total == supplies[number] == coin.supply:
            yield f"coin {number}: all balances are {total}, the supply {supplies[number]}, and has to be {coin.supply}"
    rows[1].update({(2, 1, account): shares for account, shares in market.shares.items()})
    rows[1][2, 0, 2] = market.all()
    for cell in sorted(set(cells) | set(rows[1])):
        if cell[:2] not in ((0, 0), (1, 0)) and rows[0][cell] != rows[1][cell]:
            yield f"cell {cell}: {rows[0][cell]}, and has to be {rows[1][cell]}"


def main(words):
    if len(words) < 4 or len(words) % 2:
        sys.exit(__doc__.split("\n\n")[1])
    wblock, world, *blocks = words
    market, told, faults = Market(), collections.Counter(), []
    for calls, block in zip(blocks[::2], blocks[1::2]):
        faults += faults_of_block(market, shown(wblock, block, "--calls", calls), told)
    faults += faults_of_world(market, shown(wblock, world))
    for (entry, status), count in sorted(told.items()):
        print(f"{entry} {status}: {count}")
    for fault in faults[:20]:
        print(f"fault: {fault}")
    print(f"{told.total()} calls, {len(faults)} faults")
    return 1 if faults else 0


if __name__ == "__main__":
    sys.exit(main(sys.argv[1:]))
