"""Worlds, calls and single changes of blocks that look random, and are the same for a seed each time."""
from dataclasses import replace
from random import Random

from plain import ADD, COUNTER, EXCL, MAP, READ, Call, World, with_turns


class Chances:
    """Numbers that look random. Of Python's generator `random()` alone is the same in all its versions."""

    def __init__(self, seed):
        self.random = Random(seed).random

    def below(self, bound):
        return int(self.random() * bound)

    def once_in(self, times):
        return self.below(times) == 0

    def one_of(self, items):
        return items[self.below(len(items))]

    def shuffled(self, count):
        numbers = list(range(count))
        for at in range(count - 1, 0, -1):
            other = self.below(at + 1)
            numbers[at], numbers[other] = numbers[other], numbers[at]
        return numbers


def random_cells(chance):
    cells = {}
    for key in range(chance.below(12)):
        cells[0, chance.below(2), key] = 1 + chance.below(100)
    return cells


def nested_cells(chance):
    """Cells of the contracts that ask, too."""
    cells = random_cells(chance)
    for key in range(chance.below(5)):
        cells[1 + chance.below(2), COUNTER, key] = 1 + chance.below(100)
    return cells


def random_call(chance, keys):
    """A call of the example contract over so many keys. At times it can't be started, or its limit is too low."""
    entry = "nope" if chance.once_in(20) else chance.one_of(["bump", "fail", "both", "peek", "set", "move"])
    contract = 3 if chance.once_in(20) else 0
    args = [("i64", chance.below(keys) - 1)]
    if chance.once_in(20):
        args.append(("i32", 5))
    elif entry != "peek" and not chance.once_in(20):
        args.append(("i64", chance.below(keys) - 1))
    fuel = chance.below(7) if chance.once_in(4) else 50 + chance.below(50)
    return Call(contract, fuel, entry, tuple(args))


def random_calls(chance, count, keys):
    return [random_call(chance, keys) for _ in range(count)]


ASKING = ["probe"] * 3 + ["both"] * 3 + ["spoil", "count", "store", "fall", "divide", "none"]
ASKED = [0, 0, 0, 10, 10, 10, 1, 12, 9, 2, 11, 3]


def nested_call(chance):
    """A call that asks, with levels in levels. At times its limit is too low."""
    argument = chance.below(4)
    for _ in range(chance.below(8)):
        contract = chance.below(8) if chance.once_in(15) else 1 + chance.below(2)
        export = chance.below(16) if chance.once_in(15) else chance.one_of(ASKED)
        argument = argument << 7 | contract | export << 3
    fuel = chance.below(200) if chance.once_in(4) else 2_000
    return Call(1 + chance.below(2), fuel, chance.one_of(ASKING), (("i64", argument),))


def nested_calls(chance, count):
    return [random_call(chance, 4) if chance.once_in(8) else nested_call(chance) for _ in range(count)]


def example_world(chance):
    return World(("EXAMPLE",), random_cells(chance))


def asking_world(chance):
    return World(("EXAMPLE", "PROBING", "PROBING"), nested_cells(chance))


# ----------------------------------------------------------------------------------------------------------------------------------------- changes


def of_place(change):
    """A change of what stands at one position."""

    def changed(block, chance):
        if not block.places:
            return block
        at = chance.below(len(block.places))
        places = list(block.places)
        places[at] = change(places[at], chance)
        return replace(block, places=tuple(places))

    return changed


def of_entry(change):
    """A change of one entry of a profile: to another, or to none."""

    def changed(place, chance):
        if not place.entries:
            return place
        at = chance.below(len(place.entries))
        other = change(*place.entries[at], chance)
        return replace(place, entries=place.entries[:at] + ((other,) if other else ()) + place.entries[at + 1 :])

    return of_place(changed)


def other_receipt(place, chance):
    receipt = place.receipt
    if chance.once_in(2):
        return replace(place, receipt=replace(receipt, used=receipt.used + 1))
    outcome = ("returned", None) if receipt.outcome[0] == "out of fuel" else ("out of fuel", None)
    return replace(place, receipt=replace(receipt, outcome=outcome))


def level_more(place, _chance):
    return replace(place, receipt=replace(place.receipt, asks=place.receipt.asks + 1))


def other_turn(lock, mode, turn, chance):
    return lock, mode, turn + 1 if chance.once_in(2) else max(turn - 1, 0)


def no_lock(_lock, _mode, _turn, _chance):
    return None


def other_mode(lock, mode, turn, chance):
    return lock, chance.one_of([it for it in (READ, ADD, EXCL) if it != mode]), turn


def lock_more(place, chance):
    lock = (0, chance.one_of([MAP, COUNTER]), chance.below(10))
    mode = chance.one_of([READ, EXCL])
    if any(it[0] == lock for it in place.entries):
        return place
    return replace(place, entries=tuple(sorted((*place.entries, (lock, mode, 0)))))


def swapped(block, chance):
    """Two positions change places."""
    if not block.places:
        return block
    places = list(block.places)
    one, other = chance.below(len(places)), chance.below(len(places))
    places[one], places[other] = places[other], places[one]
    return replace(block, places=tuple(places))


def numbers(block, chance):
    """The numbers alone of two positions change places."""
    if not block.places:
        return block
    places = list(block.places)
    one, other = chance.below(len(places)), chance.below(len(places))
    first, second = places[one].call, places[other].call
    places[one] = replace(places[one], call=second)
    places[other] = replace(places[other], call=first)
    return replace(block, places=tuple(places))


def twice(block, chance):
    """A position is there once more, behind the others."""
    return replace(block, places=(*block.places, chance.one_of(block.places))) if block.places else block


def left_out(block, chance):
    if not block.places:
        return block
    at = chance.below(len(block.places))
    return replace(block, places=block.places[:at] + block.places[at + 1 :])


def other_byte(data, chance):
    at = chance.below(len(data))
    return data[:at] + bytes([(data[at] + 1 + chance.below(255)) % 256]) + data[at + 1 :]


def digest(block, chance):
    which = chance.one_of(["before", "calls", "after"])
    return replace(block, **{which: other_byte(getattr(block, which), chance)})


def fuel(block, chance):
    return replace(block, fuel=block.fuel + chance.below(9))


def same(block, _chance):
    return block


def other_version(data, _chance):
    """The version alone is another."""
    return data[:4] + bytes([3 - data[4]]) + data[5:]


def cut(data, chance):
    return data[: chance.below(len(data))]


def whole(data, _chance):
    return data


# the name of a change, what it does to a block, and to its bytes
CHANGES = [
    ("a receipt", of_place(other_receipt), whole),
    ("a level more", of_place(level_more), whole),
    ("a turn", of_entry(other_turn), whole),
    ("a lock less", of_entry(no_lock), whole),
    ("a lock more", of_place(lock_more), whole),
    ("a mode", of_entry(other_mode), whole),
    ("two positions exchanged", swapped, whole),
    ("two numbers exchanged", numbers, whole),
    ("a digest", digest, whole),
    ("the fuel", fuel, whole),
    ("a position twice", twice, whole),
    ("a position less", left_out, whole),
    ("the version", same, other_version),
    ("cut", same, cut),
    ("a byte", same, other_byte),
]


def change(block, name, of_block, of_bytes, chance):
    """The bytes of a changed block. After a change of a profile or of the order the turns are those of the modes in half of the cases."""
    block = of_block(block, chance)
    if name != "a turn" and chance.once_in(2):
        block = replace(block, places=with_turns(block.places))
    return of_bytes(block.bytes(), chance)
