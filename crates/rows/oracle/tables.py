"""Blocks of few calls, as they are made and with single things changed, and calls that are mined: what is said of each stands here, and is what comes by hand, too."""
from plain import COUNTER, MAP, Call, World, call, judge, seal

PEEK_SET = (("EXAMPLE",), [call(0, 100, "peek", 1), call(0, 100, "set", 1, 9)], [0, 1])
NO_CALLS = (("EXAMPLE",), [], [])
TWO_BUMPS = [call(0, 100, "bump", 7, 1), call(0, 100, "bump", 8, 1)]
COUNTERS = (("EXAMPLE",), TWO_BUMPS, [0, 1])
COUNTERS_SWAPPED = (("EXAMPLE",), TWO_BUMPS, [1, 0])
GROWS = (("GROWER",), [call(0, 100, "g")], [0])

MALFORMED, WRONG_WORLD, WRONG_CALLS, BAD_ORDER, BAD_TURNS, DEVIATES, WRONG_END = 1, 2, 3, 4, 7, 8, 9
BOTH = (1, 2)

# What is accepted: the cells before, the calls, their order and the cells after.
MOVERS = [call(0, 100, "move", 1, 2), call(0, 100, "move", 2, 1)]
TENS = {(0, MAP, 1): 10, (0, MAP, 2): 20}
ACCEPTED = [
    ("no calls", {}, [], [], {}),
    ("calls of one wave", {}, [call(0, 100, "bump", 7, 5), call(0, 100, "bump", 7, -5)], [0, 1], {}),
    ("a trapped reader and a writer", {}, PEEK_SET[1], [0, 1], {(0, MAP, 1): 9}),
    ("two movers", TENS, MOVERS, [0, 1], {(0, MAP, 1): 10, (0, MAP, 2): 10}),
    ("two movers in the other order", TENS, MOVERS, [1, 0], {(0, MAP, 1): 20, (0, MAP, 2): 20}),
    ("two counters", {}, TWO_BUMPS, [0, 1], {(0, COUNTER, 7): 1, (0, COUNTER, 8): 1}),
    ("two counters in the other order", {}, TWO_BUMPS, [1, 0], {(0, COUNTER, 7): 1, (0, COUNTER, 8): 1}),
    (
        "a chain of waves",
        {(0, MAP, 1): 10},
        [call(0, 100, "move", 1, 2), call(0, 100, "move", 2, 3)],
        [0, 1],
        {(0, MAP, 1): 10, (0, MAP, 2): 10, (0, MAP, 3): 10},
    ),
    (
        "two writers, and a call that reads what the first one wrote",
        {},
        [call(0, 100, "set", 1, 1), call(0, 100, "set", 2, 2), call(0, 100, "move", 1, 3)],
        [0, 1, 2],
        {(0, MAP, 1): 1, (0, MAP, 2): 2, (0, MAP, 3): 1},
    ),
    (
        "what a trapped call did is taken back before the next one starts",
        {},
        [call(0, 100, "fail", 7, 5), call(0, 100, "both", 7, 1), call(0, 100, "fail", 7, 9), call(0, 100, "both", 7, 2)],
        [0, 1, 2, 3],
        {(0, COUNTER, 7): 3},
    ),
    (
        "a call without fuel, and one that is not known",
        {},
        [call(0, 4, "set", 1, 1), call(0, 100, "nope", 1, 1), call(0, 100, "set", 1, 2)],
        [0, 1, 2],
        {(0, MAP, 1): 2},
    ),
]

# Each field of the block of a reader and a writer: the place of a byte of the block of version 1, another byte, and the verdict.
FIELDS = [
    (0, 0x58, (MALFORMED,)),
    (4, 3, (MALFORMED,)),
    (8, 0, (WRONG_WORLD,)),
    (40, 0, (WRONG_CALLS,)),
    (72, 1, (MALFORMED,)),
    (76, 1, (BAD_ORDER, 1)),
    (76, 2, (BAD_ORDER, 0)),
    (80, 5, (DEVIATES, 0)),
    (88, 2, (MALFORMED,)),
    (89, 2, (DEVIATES, 0)),
    (94, 1, (BAD_TURNS, 1)),
    (98, 1, (BAD_TURNS, 1)),
    (99, 2, (BAD_TURNS, 1)),
    (107, 1, (DEVIATES, 0)),
    (107, 2, (DEVIATES, 0)),
    (108, 1, (BAD_TURNS, 0)),
    (116, 4, (DEVIATES, 1)),
    (125, 1, (MALFORMED,)),
    (143, 0, (BAD_TURNS, 1)),
    (143, 1, (DEVIATES, 1)),
    (144, 2, (BAD_TURNS, 1)),
    (148, 8, (WRONG_END,)),
    (156, 0, (WRONG_END,)),
    (187, 0, (WRONG_END,)),
]

# A block, its versions, what is changed in it, and the verdict. A change is a place and a byte, or the places of bytes that are cut out, from one to before
# another. Places are those of version 1, but where they are said to be the version's own.
CHANGED = [
    ("a block of no calls", NO_CALLS, BOTH, [], None),
    ("its version", NO_CALLS, (1,), [("own", 4, 2)], None),
    ("its version", NO_CALLS, (2,), [("own", 4, 1)], None),
    ("its version", NO_CALLS, (2,), [("own", 4, 3)], (MALFORMED,)),
    ("its last byte", NO_CALLS, BOTH, [("own cut", 115, 116)], (MALFORMED,)),
    ("the version of a block of two calls, which is then of the other format", PEEK_SET, (1,), [("at", 4, 1)], None),
    ("the same", PEEK_SET, (1,), [("at", 4, 2)], (MALFORMED,)),
    ("the same", PEEK_SET, (2,), [("at", 4, 1)], (MALFORMED,)),
    ("the same", PEEK_SET, (2,), [("at", 4, 2)], None),
    ("the same", COUNTERS, (1,), [("at", 4, 1)], None),
    ("the same", COUNTERS, (1,), [("at", 4, 2)], (MALFORMED,)),
    ("the same", COUNTERS, (2,), [("at", 4, 1)], (MALFORMED,)),
    ("the same", COUNTERS, (2,), [("at", 4, 2)], None),
    ("a level that no call entered: a byte of the count of either call", PEEK_SET, (2,), [("own", 88, 1)], (DEVIATES, 0)),
    ("the same", PEEK_SET, (2,), [("own", 91, 1)], (DEVIATES, 0)),
    ("the same", PEEK_SET, (2,), [("own", 128, 1)], (DEVIATES, 1)),
    ("the same", PEEK_SET, (2,), [("own", 131, 1)], (DEVIATES, 1)),
    ("the fuel of the first call and that of the block", PEEK_SET, BOTH, [("at", 80, 5), ("at", 148, 8)], (DEVIATES, 0)),
    ("the mode of the writer and its turn", PEEK_SET, BOTH, [("at", 143, 0), ("at", 144, 0)], (DEVIATES, 1)),
    ("a trapped reader without its entry", PEEK_SET, BOTH, [("at", 90, 0), ("cut", 94, 112)], (BAD_TURNS, 1)),
    (
        "a trapped reader without its entry, and the writer in the first turn",
        PEEK_SET,
        BOTH,
        [("at", 90, 0), ("cut", 94, 112), ("at", 144, 0)],
        (DEVIATES, 0),
    ),
    ("two counters exchanged", COUNTERS, BOTH, [("at", 76, 1), ("at", 112, 0)], (DEVIATES, 0)),
    ("two counters in the other order exchanged", COUNTERS_SWAPPED, BOTH, [("at", 76, 0), ("at", 112, 1)], (DEVIATES, 0)),
]

# A block is run by the rules of its own version: a memory of one page that is to grow by 256 grows in version 2 alone.
VERSIONS = [
    ("a memory that grows", GROWS, (1,), [], None),
    ("the same", GROWS, (2,), [], None),
    ("the value of the other version", GROWS, (1,), [("own", 91, 1), ("own", 92, 0), ("own", 93, 0), ("own", 94, 0)], (DEVIATES, 0)),
    ("the same", GROWS, (2,), [("own", 95, 0xFF), ("own", 96, 0xFF), ("own", 97, 0xFF), ("own", 98, 0xFF)], (DEVIATES, 0)),
    ("another version: what stands behind it is then of the other format", GROWS, (1,), [("own", 4, 1)], None),
    ("the same", GROWS, (1,), [("own", 4, 2)], (MALFORMED,)),
    ("the same", GROWS, (1,), [("own", 4, 3)], (MALFORMED,)),
    ("the same", GROWS, (2,), [("own", 4, 1)], (MALFORMED,)),
    ("the same", GROWS, (2,), [("own", 4, 2)], None),
    ("the same", GROWS, (2,), [("own", 4, 3)], (MALFORMED,)),
]


def placed(version, at):
    """Where the byte of a place of version 1 stands: in version 2 there are 4 bytes more before each outcome."""
    return at if version == 1 or at < 88 else at + 4 if at < 124 else at + 8


def edited(data, version, edits):
    kept = dict(enumerate(data))
    for how, at, other in edits:
        if not how.startswith("own"):
            at, other = placed(version, at), placed(version, other) if how == "cut" else other
        for place in range(at, other) if how.endswith("cut") else [at]:
            assert place in kept
            if how.endswith("cut"):
                del kept[place]
            else:
                kept[place] = other
    return bytes(kept[place] for place in sorted(kept))


def bump(key, number, fuel=100):
    return call(0, fuel, "bump", key, number)


def run(key, fuel=10, contract=0):
    return call(contract, fuel, "run", key)


def without_room(name, at):
    """40 calls of one round each by four workers, of which one goes on for as long as its limit lets it: the limit is above what any block has."""
    calls = [call(0, 10_000, "spin", key, 1) for key in range(40)]
    calls[at] = call(0, (1 << 64) - 1, "spin", at, 0)
    others = [number for number in range(40) if number != at]
    return name, ("SPINNER",), {}, calls, (500_000, 4, 3), (others, [at], {(0, MAP, key): 1 for key in others})


# Calls that are mined: the contracts, the cells, the calls, the fuel, the workers and the tries, and the order, the calls left out and the cells after.
MINED = [
    (
        "one worker commits each call",
        ("FIRST_MODULE",),
        {(0, COUNTER, 7): 3},
        [run(7), run(7, contract=9), run(7, fuel=6), run(7)],
        (100, 1, 1),
        ([0, 1, 2, 3], [], {(0, COUNTER, 7): 13}),
    ),
    (
        "a call without room is left out",
        ("FIRST_MODULE",),
        {},
        [run(7, 60), run(7, 50), run(8, 40), run(8, 1)],
        (100, 1, 3),
        ([0, 2], [1, 3], {(0, COUNTER, 7): 5, (0, COUNTER, 8): 5}),
    ),
    ("no calls, and many workers", ("FIRST_MODULE",), {(0, COUNTER, 7): 3}, [], (100, 64, 16), ([], [], {(0, COUNTER, 7): 3})),
    ("no calls change nothing", ("EXAMPLE",), {}, [], (0, 1, 1), ([], [], {})),
    (
        "limits count and not the fuel used",
        ("EXAMPLE",),
        {},
        [bump(7, 1, 60), bump(7, 1, 50), bump(7, 1, 40)],
        (100, 1, 3),
        ([0, 2], [1], {(0, COUNTER, 7): 2}),
    ),
    # 14 limits of 7 are within 100
    (
        "four workers over five counters",
        ("FIRST_MODULE",),
        {},
        [run(number % 5, 7) for number in range(20)],
        (100, 4, 3),
        (list(range(14)), list(range(14, 20)), {(0, COUNTER, key): 15 if key < 4 else 10 for key in range(5)}),
    ),
    (
        "64 workers over ten counters",
        ("FIRST_MODULE",),
        {},
        [run(number % 10, 7) for number in range(100)],
        (700, 64, 3),
        (list(range(100)), [], {(0, COUNTER, key): 50 for key in range(10)}),
    ),
    without_room("a call without end and without room does not run, the first one of 40", 0),
    without_room("a call without end and without room does not run, one of the last", 37),
]

ASK = ("ASKING", "PROBING")


def asks(entry, argument, contract=1):
    return call(contract, 1_000, entry, argument)


def tries(export, key):
    return Call(0, 1_000, "try", (("i32", export), ("i64", key)))


# Calls that workers mine who meet (`crates/tests_verdicts`), in the order that they are published in: what each comes to, with its locks, and the cells after.
MET = [
    ("two attempts are live at once", ("FIRST_MODULE",), {}, [run(7), run(8)], [0, 1], [5, 5], {(0, COUNTER, 7): 5, (0, COUNTER, 8): 5}),
    ("a refused call is tried again", ("FIRST_MODULE",), {}, [run(7), run(7)], [0, 1], [5, 10], {(0, COUNTER, 7): 10}),
    (
        "a call that was tried in vain runs alone",
        ("FIRST_MODULE",),
        {},
        [run(7), run(7), run(8)],
        [0, 2, 1],
        [5, 5, 10],
        {(0, COUNTER, 7): 10, (0, COUNTER, 8): 5},
    ),
    ("two bumps commute", ("EXAMPLE",), {}, [bump(7, 5), bump(7, -5)], [0, 1], [None, None], {}),
    (
        "a refused call is tried again after the other",
        ("EXAMPLE",),
        {},
        [call(0, 100, "both", 7, 1), bump(7, 2)],
        [1, 0],
        [None, 3],
        {(0, COUNTER, 7): 3},
    ),
    ("two movers that were refused run alone", ("EXAMPLE",), TENS, MOVERS, [0, 1], [None, None], {(0, MAP, 1): 10, (0, MAP, 2): 10}),
    (
        "a failed adder is overtaken",
        ("EXAMPLE",),
        {},
        [call(0, 100, "fail", 7, 5), bump(7, 3)],
        [1, 0],
        [None, "Unreachable"],
        {(0, COUNTER, 7): 3},
    ),
    (
        "a level that is dropped and one that is kept, on one counter",
        ASK,
        {},
        [tries(1, 7), tries(0, 7)],
        [0, 1],
        [0, 7],
        {(0, COUNTER, 7): 21},
    ),
    # `probe` of `fall` with 5, and `count` with 5
    (
        "a level is dropped while another call has added to its counter",
        ASK,
        {(1, COUNTER, 5): 3},
        [asks("probe", 657), asks("count", 5)],
        [0, 1],
        [1, 1],
        {(1, COUNTER, 5): 4},
    ),
    # `probe` of `fall` with 9, and `probe` of `spoil` of `store` with 63
    (
        "the locks of a dropped level are held to the end",
        ASK,
        {(1, COUNTER, 63): 4},
        [asks("probe", 1_169), asks("probe", 1_044_681)],
        [1, 0],
        [1, 1],
        {(1, COUNTER, 63): 4},
    ),
]

# The fuel that the calls of each use together, and how many bytes its block has, where that was written down.
USED = [14, 14, 21, 6, 8, 8, 7, 26, 34, 67]
SIZES = [None, None, None, None, None, None, None, 214, 232, 250]


def judged(source, version, edits):
    """The world, the calls and the block of a source, its bytes after some changes, and the verdict on these by four workers with 1,000 of fuel."""
    contracts, calls, order = source
    world = World(contracts)
    block = seal(world, calls, order, version)
    data = edited(block.bytes(), version, edits)
    return world, calls, block, data, judge(world, calls, 1_000, data)
