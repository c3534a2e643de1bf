#!/usr/bin/env python3
"""A user of the library in Python: the same commands as c/user.c, with the program's words, lines and statuses."""

import pathlib
import sys

import foshqarel


def read(name):
    return pathlib.Path(name).read_bytes()


def refusal_line(refused):
    """The program's line of a refusal."""
    words = {"block": ["reject", refused.number], "check": ["refused check", refused.number, refused.function, refused.place]}.get(
        refused.subject, [f"refused {refused.subject}", refused.number, refused.place]
    )
    if refused.subject in ("block",) and refused.place is not None:
        words.append(refused.place)
    if refused.subject in ("calls", "text") and refused.place is None:
        words.pop()
    return " ".join("-" if word is None else str(word) for word in words)


def receipt_text(receipt):
    ended = [
        "returned",
        f"returned i32:{receipt.value}",
        f"returned i64:{receipt.value}",
        f"trapped {receipt.code}",
        "out-of-fuel",
        f"rejected {receipt.code}",
    ][receipt.outcome]
    return f"{ended} fuel {receipt.fuel}" + (f" asks {receipt.asks}" if receipt.asks else "")


def lock_text(item):
    return f"{foshqarel.KINDS[item.kind]} {item.contract}:{item.key}"


def written(word, name, data):
    pathlib.Path(name).write_bytes(data)
    return [f"{word} {len(data)} bytes"]


def assemble(text, module):
    return written("assembled", module, foshqarel.assemble(read(text)))


def text(module, text):
    return written("text", text, foshqarel.text(read(module)))


def check(module):
    return [f"valid {foshqarel.check(read(module))} functions"]


def deploy(world, *modules):
    data, behind = foshqarel.new_world(), ""
    if "--onto" in modules:
        *modules, _, old = modules
        data = read(old)
        # the number of contracts stands behind the magic and the version
        behind = f" onto {int.from_bytes(data[8:12], 'little')}"
    for module in modules:
        data = foshqarel.extend(data, read(module))
    pathlib.Path(world).write_bytes(data)
    return [f"deployed {len(modules)} contracts{behind}"]


def mine(world, calls, block, next_world, fuel=0):
    before, listed = read(world), read(calls)
    made, after = foshqarel.mine(before, listed, fuel)
    pathlib.Path(block).write_bytes(made)
    pathlib.Path(next_world).write_bytes(after)
    receipts = foshqarel.receipts(made)
    taken = {receipt.call for receipt in receipts}
    return (
        [f"{position} call {receipt.call} {receipt_text(receipt)}" for position, receipt in enumerate(receipts)]
        + [f"left {call}" for call in range(foshqarel.calls(listed)) if call not in taken]
        + [f"fuel {sum(receipt.fuel for receipt in receipts)}"]
        + [f"before {foshqarel.digest(before).hex()}", f"after {foshqarel.digest(after).hex()}"]
    )


def validate(world, calls, block, next_world=None, fuel=0):
    after = foshqarel.verify(read(world), read(calls), fuel, read(block))
    if next_world:
        pathlib.Path(next_world).write_bytes(after)
    return ["accept", f"after {foshqarel.digest(after).hex()}"]


def call(world, *words):
    receipt, changes = foshqarel.call(read(world), (" ".join(words) + "\n").encode(), 0)
    lines = [receipt_text(receipt)] + [f"lock {lock_text(change)} {foshqarel.MODES[change.mode]}" for change in changes]
    for change in changes:
        before = change.before if change.presence & 1 else "-"
        later = change.later if change.presence & 2 else "-"
        if before != later:
            lines.append(f"{lock_text(change)} {before} -> {later}")
    return lines


def cells(world):
    data = read(world)
    found = foshqarel.cells(data)
    for cell in found:
        assert foshqarel.cell(data, cell.contract, cell.kind, cell.key) == cell.number
    return [f"{lock_text(cell)} {cell.number}" for cell in found]


COMMANDS = {"asm": assemble, "text": text, "check": check, "deploy": deploy, "mine": mine, "validate": validate, "call": call, "cells": cells}


def main(words):
    options = {}
    # `--fuel N` and what stands behind it, as `--workers N`, which a library without threads does not need
    if "--fuel" in words:
        at = words.index("--fuel")
        options = {"fuel": int(words[at + 1])}
        words = words[:at]
    if not words or words[0] not in COMMANDS:
        return 2
    try:
        for line in COMMANDS[words[0]](*words[1:], **options):
            print(line)
    except foshqarel.Refused as refused:
        print(refusal_line(refused))
        print(refused.sentence, file=sys.stderr)
        return 1
    except OSError:
        return 3
    except MemoryError:
        return 4
    return 0


if __name__ == "__main__":
    sys.exit(main(sys.argv[1:]))
