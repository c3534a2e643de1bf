#!/usr/bin/env python3
"""Writes the files of rows whose wanted bytes and verdicts are made by hand: `python3 crates/rows/oracle/make.py`. It prints what `stdout` has to say of them."""
from collections import Counter
from dataclasses import replace

from chances import CHANGES, Chances, asking_world, change, example_world, nested_calls, random_calls
import tables
from plain import EXCL, MAP, Block, Place, Receipt, World, bytes_named, call, calls_digest, first_fit, fitting, judge, run_all, seal
from rows import File, changed_pieces, hex_lines, verdict_pieces

told = Counter()


def world_pieces(world):
    pieces = [f"hex 5742574401000000{len(world.contracts):02x}000000"]
    for it in world.contracts:
        pieces += [f"hex {len(bytes_named(it)).to_bytes(4, 'little').hex()}", f"of {it}"]
    return pieces + hex_lines(world.cell_bytes())


def put_world(file, name, world):
    file.put(f"bytes {name}", world_pieces(world))


def put_verdict(file, words, block, verdict):
    """A verdict that comes without `--boosted` and with it."""
    told[verdict[0] if verdict else 0] += 1
    file.step(f"twice {'refused' if verdict else 'done'} {words}", ["is", *verdict_pieces(block, verdict)])


def fuel_for(calls, chance):
    """At times too little for all calls."""
    fuel = 1_000_000 if chance.once_in(2) else 0
    return fuel + sum(it.fuel for it in calls if not chance.once_in(4))


# ------------------------------------------------------------------------------------------------------------- random blocks, and single changes


def judged_block(file, row, name, world, calls, fuel, chance, more):
    """A block, as it is, with each change, and for another fuel. In half of the cases it is the one that is mined, and else one of a random order in either
    version. `more` are further changes, each with the name of what is changed."""
    workers = 1 + chance.below(4)
    is_mined = chance.once_in(2)
    order = first_fit(calls, fuel) if is_mined else fitting(calls, fuel, chance.shuffled(len(calls)))
    version = 2 if is_mined or chance.once_in(2) else 1
    block = seal(world, calls, order, version)
    data = block.bytes()
    put_world(file, f"W{name}", world)
    file.put(f"bytes B{name}", hex_lines(data))
    others = [(what, change(block, what, of_block, of_bytes, chance)) for what, of_block, of_bytes in CHANGES]
    others += [(what, other.bytes()) for what, other in more(block)]
    file.row(row)
    file.lines.append(f"file w of W{name}")
    file.calls(calls)
    file.lines.append(f"file b of B{name}")
    for number, (_, other) in enumerate(others):
        file.put(f"file b{number}", changed_pieces(f"B{name}", data, other))
    words = f"--fuel={fuel} --workers={workers}"
    if is_mined:
        file.step(f"run done mine w c m n {words}", ["any"])
        file.lines.append(f"after m is of B{name}")
        file.lines.append("# one worker over one book takes the list's order, too")
        file.step(f"run done mine w c m n --fuel={fuel} --workers=1 --boosted", ["any"])
        file.lines.append(f"after m is of B{name}")
    put_verdict(file, f"validate w c b {words}", block, judge(world, calls, fuel, data))
    for number, (what, other) in enumerate(others):
        file.lines.append(f"# {what}")
        put_verdict(file, f"validate w c b{number} {words}", block, judge(world, calls, fuel, other))
    for other in (max(fuel - chance.below(200), 0), fuel + chance.below(200)):
        verdict = judge(world, calls, other, data)
        put_verdict(file, f"validate w c b --fuel={other} --workers={workers}", block, verdict)
    return block


def random_blocks(seeds):
    file = File(
        "random_blocks.rows",
        [
            "Blocks of random calls of the example contract, as they are made, with one thing changed, and with more fuel or less, and the verdict on each. Written by",
            "`oracle/make.py`, with the verdicts that are found there by hand.",
        ],
    )
    for seed in range(seeds):
        chance = Chances(seed)
        world = example_world(chance)
        calls = random_calls(chance, 30 if seed % 10 == 9 else 1 + chance.below(10), 2 + chance.below(8))
        file.lines.append("")
        judged_block(file, f"random_blocks {seed}", f"R{seed}", world, calls, fuel_for(calls, chance), chance, lambda _: [])
    return file.write()


def other_levels(block):
    """Each of the first positions tells of a level more."""
    for at, place in enumerate(block.places[:8]):
        places = list(block.places)
        places[at] = replace(place, receipt=replace(place.receipt, asks=place.receipt.asks + 1))
        yield f"a level more at position {at}", replace(block, version=2, places=tuple(places))


def blocks_with_levels(seeds):
    file = File(
        "blocks_with_levels.rows",
        [
            "The same of calls that ask for exports of contracts, with levels in levels, and with a level more at each of the first positions. Written by",
            "`oracle/make.py`.",
        ],
    )
    levels = 0
    for seed in range(seeds):
        chance = Chances(1_000 + seed)
        world = asking_world(chance)
        calls = nested_calls(chance, 10)
        fuel = 9_000 if chance.once_in(3) else 1_000_000
        file.lines.append("")
        block = judged_block(file, f"blocks_with_levels {seed}", f"L{seed}", world, calls, fuel, chance, other_levels)
        levels += sum(it.receipt.asks for it in block.places)
    assert levels > 150, levels
    return file.write()


# ------------------------------------------------------------------------------------------------------------------------------------ forged blocks

AMPLE = 100_000_000
MOST = (1 << 64) - 1


def forged_places(numbers, last_turn=None):
    """Each says that its call took nothing and touched nothing; the last one, where a turn is given, that it took a lock in this turn."""
    places = [Place(number, Receipt(("returned", None)), ()) for number in numbers]
    if last_turn is not None:
        places[-1] = replace(places[-1], entries=(((0, MAP, numbers[-1]), EXCL, last_turn),))
    return places


def forged_blocks():
    """What is found of blocks that say of each position that nothing was touched. The first call of their list goes on for ever, but for its limit: whoever runs it
    never ends."""
    file = File(
        "forged_blocks.rows",
        [
            "Forged blocks of a list whose first call goes on for as long as its limit lets it. Where the order or the limits are rejected, or a reason before, nobody runs",
            "a call. Written by `oracle/make.py`.",
        ],
    )
    world = World(("SPINNER",))
    file.put("bytes WORLD_OF_SPINNER", world_pieces(world))
    rising, repeated = list(range(64)), [0] * 64
    rows = [
        ("64 positions, each of its own call", 64, MOST, rising, None, True, AMPLE, (5,)),
        ("64 positions of one call", 64, MOST, repeated, None, True, AMPLE, (4, 1)),
        ("a position of a call that there is not", 64, MOST, [*rising, 64], None, True, AMPLE, (4, 64)),
        ("another world, and each position of its own call", 64, MOST, rising, None, False, AMPLE, (2,)),
        ("another world, and positions of one call", 64, MOST, repeated, None, False, AMPLE, (2,)),
        ("limits of one more than the fuel", 64, AMPLE - 63 * 10_000 + 1, rising, None, True, AMPLE, (5,)),
        ("a call that is left out beside one whose limit is half of the fuel", 65, MOST // 2, rising, None, True, MOST, (6, 64)),
        ("65,535 positions of one call", 64, MOST, [0] * 65_535, None, True, AMPLE, (4, 1)),
        ("65,535 positions of one call over another world", 64, MOST, [0] * 65_535, None, False, AMPLE, (2,)),
        ("within the fuel, and calls that came to something else", 64, 1_000, rising, None, True, AMPLE, (8, 0)),
        ("within the fuel, and a turn that is another", 64, 1_000, rising, 1, True, AMPLE, (7, 63)),
    ]
    for what, count, limit, numbers, turn, is_of_world, fuel, verdict in rows:
        calls = [call(0, limit, "spin", 0, 0)] + [call(0, 10_000, "spin", 1, 1)] * (count - 1)
        before = world.digest() if is_of_world else bytes(32)
        places = forged_places(numbers, turn)
        block = Block(2, before, calls_digest(calls), tuple(places), 10_000 * len(numbers), bytes(32))
        data, size = block.bytes(), len(places[0].bytes(2))
        file.row("forged_blocks", what)
        file.lines.append("file w of WORLD_OF_SPINNER")
        file.put("file c", [f"line {calls[0].line()}", f"times {count - 1} line {calls[1].line()}"])
        if numbers[1] == 0:
            assert data == data[:76] + data[76 : 76 + size] * len(numbers) + data[-40:]
            middle = [f"times {len(numbers)} hex {data[76:76 + size].hex()}"]
            file.put("file b", [*hex_lines(data[:76]), *middle, *hex_lines(data[-40:])])
        else:
            file.put("file b", hex_lines(data))
        for workers in (1, 2, 4):
            put_verdict(file, f"validate w c b --fuel={fuel} --workers={workers}", block, verdict)
    return file.write()


# ------------------------------------------------------------------------------------------------------------------------------ each bit, each front

LISTS = {
    "two calls that add to one counter": [call(0, 100, "bump", 7, 5), call(0, 100, "bump", 7, -5)],
    "a reader that traps, and a writer of its cell": [call(0, 100, "peek", 1), call(0, 100, "set", 1, 9)],
    "calls that end in each way": [
        call(0, 100, "both", 7, 1),
        call(0, 100, "peek", 1),
        call(0, 2, "bump", 7, 2),
        call(0, 100, "nope", 7),
    ],
}

# Of the bits of the block of two bumps in version 1, by reasons: the magic, the version, the count of positions, and of each position the kind, the count
# of values, the count of entries, and 7 bits each of the lock's kind and of the mode; the digest before; the calls' digest; the numbers of the calls; the
# turns and one bit of each mode; of each position the fuel, the contract, the key and one bit of the lock's kind; the total fuel and the digest after.
BITS_OF_BUMPS = {
    1: 64 + 32 + 2 * (8 + 8 + 32 + 7 + 7),
    2: 256,
    3: 256,
    4: 2 * 32,
    7: 2 * (32 + 1),
    8: 2 * (64 + 32 + 64 + 1),
    9: 64 + 256,
}


def flipped_and_cut():
    file = File(
        "flipped_blocks.rows",
        [
            "Small blocks with each bit flipped, and each front of them: how often each verdict comes, one behind another. Written by `oracle/make.py`.",
        ],
    )
    world = World(("EXAMPLE",))
    number = 0
    for what, calls in LISTS.items():
        for version in (1, 2):
            block = seal(world, calls, range(len(calls)), version)
            data, runs, counts = block.bytes(), [], Counter()
            for at in range(len(data)):
                for bit in range(8):
                    other = data[:at] + bytes([data[at] ^ 1 << bit]) + data[at + 1 :]
                    verdict = judge(world, calls, 1_000, other)
                    counts[verdict[0]] += 1
                    line = verdict_pieces(block, verdict)[0][len("line ") :]
                    if runs and runs[-1][1] == line:
                        runs[-1][0] += 1
                    else:
                        runs.append([1, line])
            if number < 2:
                wanted = dict(BITS_OF_BUMPS)
                wanted[8] += 64 * (version - 1)
                assert counts == wanted, (counts, wanted)
            for verdict, count in counts.items():
                told[verdict] += count
            file.note(f"{what[0].upper()}{what[1:]}, in version {version}: {len(data)} bytes.")
            file.row(f"each_bit_is_flipped {number}")
            file.lines.append("file w of WORLD")
            file.calls(calls)
            file.put("file b", hex_lines(data))
            out = [f"line {count} {line}" for count, line in runs]
            file.step("flips b refused validate w c b --fuel=1000 --workers=2", ["is", *out])
            file.row(f"each_front_is_malformed {number}")
            file.lines.append("file w of WORLD")
            file.calls(calls)
            file.put("file b", hex_lines(data))
            file.step("fronts b refused validate w c b --fuel=1000 --workers=2", ["is", "line reject 1"])
            told[1] += len(data)
            number += 1
    return file.write()


# ------------------------------------------------------------------------------------------------------------------------- orders that run serially


def cell_lines(world, word="cell"):
    return [
        f"line {word} {('Map', 'Counter')[kind]} {contract}:{key} {value}" for (contract, kind, key), value in sorted(world.cells.items())
    ]


def serial_orders(seeds):
    file = File(
        "random_orders.rows",
        ["Random orders of random calls, run one after another in both versions: the bytes of their blocks. Written by `oracle/make.py`."],
    )
    words = {"EXAMPLE": "example", "PROBING": "probing"}
    for seed in range(2 * seeds):
        chance = Chances(2_000 + seed)
        is_nested = seed % 2 == 1
        world = asking_world(chance) if is_nested else example_world(chance)
        calls = nested_calls(chance, 8) if is_nested else random_calls(chance, 1 + chance.below(16), 2 + chance.below(6))
        order = fitting(calls, fuel_for(calls, chance), chance.shuffled(len(calls)))
        file.lines.append("")
        for version in (1, 2):
            block = seal(world, calls, order, version)
            if version == 1 and any(it.receipt.asks for it in block.places):
                continue
            data = block.bytes()
            file.row(f"random_orders {seed}")
            pieces = [f"line contract {words[it]}" for it in world.contracts] + cell_lines(world)
            pieces += [f"line call {it.line()}" for it in calls]
            pieces += [f"line version {version}", f"line order {' '.join(map(str, order))}".rstrip()]
            file.put("ask serial_block", pieces)
            file.put("out front", [f"line {len(data)} bytes", f"line block {data.hex()}"])
    return file.write()


# ------------------------------------------------------------------------------------------------------------------------------------------- tables


def put_judged(file, row, comment, source, version, edits, wanted):
    world, calls, block, data, verdict = tables.judged(source, version, edits)
    assert verdict == wanted, (row, comment, verdict, wanted)
    file.row(row, comment)
    file.put("file w", world_pieces(world))
    file.calls(calls)
    file.put("file b", hex_lines(data))
    put_verdict(file, "validate w c b --fuel=1000 --workers=4", block, verdict)


def judged_tables():
    file = File(
        "changed_blocks.rows",
        ["Blocks of few calls, as they are made and with single things changed, and the verdict on each. Written by `oracle/make.py` of `oracle/tables.py`."],
    )
    file.note("Blocks that are accepted, and the world after each.")
    for what, cells, calls, order, after in tables.ACCEPTED:
        for version in tables.BOTH:
            world = World(("EXAMPLE",), cells)
            block = seal(world, calls, order, version)
            assert judge(world, calls, 1_000, block.bytes()) is None and block.after == World(("EXAMPLE",), after).digest()
            assert calls or len(block.bytes()) == 116
            file.row("blocks_are_accepted", f"{what}, in version {version}")
            file.put("file w", world_pieces(world))
            file.calls(calls)
            file.put("file b", hex_lines(block.bytes()))
            put_verdict(file, "validate w c b --fuel=1000 --workers=2 --next=n", block, None)
            file.put("after n is", world_pieces(World(("EXAMPLE",), after)))
    file.note("Each field of the block of a reader that traps and a writer of its cell.")
    for at, byte, verdict in tables.FIELDS:
        for version in tables.BOTH:
            put_judged(file, "one_changed_byte", None, tables.PEEK_SET, version, [("at", at, byte)], verdict)
    file.note("Blocks with one thing changed or more.")
    for what, source, versions, edits, verdict in tables.CHANGED:
        for version in versions:
            put_judged(file, "changed_blocks", what, source, version, edits, verdict)
    file.note("A block is run by the rules of its own version.")
    for what, source, versions, edits, verdict in tables.VERSIONS:
        for version in versions:
            put_judged(file, "each_block_is_judged_by_its_version", what, source, version, edits, verdict)
    return file.write()


def mined_tables():
    file = File(
        "mined_blocks.rows",
        ["Calls that are mined, their block and the world after it. Written by `oracle/make.py` of `oracle/tables.py`."],
    )
    for what, contracts, cells, calls, (fuel, workers, tries), (order, left, after) in tables.MINED:
        world = World(contracts, cells)
        block = seal(world, calls, order, 2)
        assert order == first_fit(calls, fuel) and block.after == World(contracts, after).digest()
        file.row("calls_are_mined", what)
        file.put("file w", world_pieces(world))
        file.calls(calls)
        file.step(f"run done mine w c b n --fuel={fuel} --workers={workers} --tries={tries}", ["any"])
        file.put("after b is", hex_lines(block.bytes()))
        file.put("after n is", world_pieces(World(contracts, after)))
        file.put("after w is", world_pieces(world))
        put_verdict(file, f"validate w c b --fuel={fuel} --workers=2", block, None)
        told_left = [f"line left {number}" for number in left] + [f"line fuel {block.fuel}"]
        file.step(f"run done mine w c b n --fuel={fuel} --workers={workers} --tries={tries}", ["part", *told_left])
    file.note("Calls that meet where workers mine them, one after another in the order that they are then published in.")
    words = {"EXAMPLE": "example", "ASKING": "asking", "PROBING": "probing", "FIRST_MODULE": "first"}
    for (what, contracts, cells, calls, order, results, after), used, size in zip(tables.MET, tables.USED, tables.SIZES):
        world = World(contracts, cells)
        block = seal(world, calls, order, 2)
        places, next_world = run_all(world, calls, order, 2)
        assert next_world.cells == after and block.fuel == used and size in (None, len(block.bytes())), what
        out = []
        for place, result in zip(places, results):
            assert str(result) in place.receipt.line(), (what, place.receipt.line())
            out.append(f"line {place.receipt.line()}")
            out += [
                f"line lock {('Map', 'Counter')[kind]} {contract}:{key} {('Read', 'Add', 'Excl')[mode]}"
                for (contract, kind, key), mode, _ in place.entries
            ]
        file.row("calls_that_meet", what)
        pieces = [f"line contract {words[it]}" for it in contracts] + cell_lines(world) + [f"line call {it.line()}" for it in calls]
        file.put("ask serial", [*pieces, f"line order {' '.join(map(str, order))}"])
        file.put("out is", out + cell_lines(next_world))
        file.put("ask serial_block", [*pieces, f"line order {' '.join(map(str, order))}"])
        file.put("out front", [f"line {len(block.bytes())} bytes", f"line block {block.bytes().hex()}"])
    return file.write()


def main():
    for line in (judged_tables(), mined_tables(), forged_blocks(), flipped_and_cut(), serial_orders(20), random_blocks(200), blocks_with_levels(24)):
        print(line)
    assert all(told[reason] for reason in range(10)), told
    print("verdicts:", dict(sorted(told.items())), sum(told.values()))


if __name__ == "__main__":
    main()
