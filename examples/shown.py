#!/usr/bin/env python3
"""Reads what `wblock show FILE --json` prints by another reader of JSON, Python's, and writes from its members the lines of `wblock show FILE`, which have to
be those that the program prints. Reads the picture of each block by another reader of XML: it has a box a position with the words of its line, and a line for
each position that waits for another, as the modes in the JSON tell.

    examples/shown.py PROGRAM FOLDER

Each file of FOLDER whose name ends with .wasm, .world or .block is shown; a block once more with the calls of the same name, if they are its own. A file that is
refused has to be refused alike. The status is 0 where all agree, 1 where one differs or there is no file."""
import json
import pathlib
import subprocess
import sys
import tempfile
import xml.etree.ElementTree


def run(program, *words):
    """Returns the status of the program with these words, and what it printed."""
    ended = subprocess.run([program, *words], capture_output=True, check=False)
    return ended.returncode, ended.stdout.decode()


def func_type(of):
    return "".join(f" ({word} {' '.join(types)})" for word, types in (("param", of["params"]), ("result", of["results"])) if types)


def limits(of):
    return f" {of['min']}" + ("" if of["max"] is None else f" {of['max']}")


def global_type(of):
    return f"(mut {of['value']})" if of["mutable"] else of["value"]


def import_lines(module):
    what = {"func": func_type, "table": limits, "memory": limits, "global": lambda of: f" {global_type(of)}"}
    for number, it in enumerate(module["imports"]):
        yield f"import {number} \"{it['module']}\".\"{it['name']}\" {it['kind']}{what[it['kind']](it['type'])}"


def export_lines(module):
    for number, it in enumerate(module["exports"]):
        yield f"export {number} \"{it['name']}\" {it['kind']} {it['index']}" + (func_type(it["type"]) if it["kind"] == "func" else "")


def module_lines(module):
    yield f"module {module['bytes']} bytes"
    yield from import_lines(module)
    yield from export_lines(module)
    for it in module["functions"]:
        yield f"function {it['index']}{func_type(it['type'])} locals {it['locals']} instructions {it['instructions']}" + (f" name \"{it['name']}\"" if it["name"] is not None else "")
    for word, those in (("table", module["tables"]), ("memory", module["memories"])):
        yield from (word + limits(it) for it in those)
    for it in module["globals"]:
        yield f"global {it['index']} {global_type(it['type'])}"
    if module["start"] is not None:
        yield f"start {module['start']}"
    yield f"elements {module['elements']}"
    yield f"data {module['data']}"


def world_lines(world):
    cells = world["cells"]
    yield f"world {len(world['contracts'])} contracts {len(cells['maps']) + len(cells['counters'])} cells"
    yield f"digest {world['digest']}"
    for it in world["contracts"]:
        yield f"contract {it['number']} {it['bytes']} bytes"
        yield from import_lines(it)
        yield from export_lines(it)
    for word, those in (("map", cells["maps"]), ("counter", cells["counters"])):
        yield from (f"{word} {it['contract']}:{it['key']} {it['value']}" for it in those)


def value(of):
    return f" {of['type']}:{of['value']}"


def lock(of):
    return f"{of['kind']} {of['contract']}:{of['key']}"


def outcome(of):
    return of["outcome"] + ("" if of["code"] is None else f" {of['code']}")


def dash(of):
    return "-" if of is None else of


def position(of):
    line = f"{of['position']} call {of['call']} {outcome(of)}"
    line += "" if of["value"] is None else value(of["value"])
    return line + f" fuel {of['fuel']}" + (f" asks {of['asks']}" if of["asks"] else "")


def position_line(of):
    line = f"{position(of)} wave {dash(of['wave'])}"
    called = of["called"]
    if called is not None:
        line += f" of contract {called['contract']} {called['entry']}" + "".join(map(value, called["args"]))
    return line + ",".join(f" {lock(it)} {it['mode']} turn {it['turn']}" for it in of["locks"])


def block_lines(block):
    yield f"version {block['version']}"
    for word in ("before", "calls", "after", "fuel"):
        yield f"{word} {block[word]}"
    yield from map(position_line, block["positions"])
    figures = block["figures"]
    chain = figures["chain"] or {"positions": "-", "fuel": "-"}
    yield f"waves {dash(figures['waves'])}"
    yield f"chain {chain['positions']} fuel {chain['fuel']} of {figures['total_fuel']}"
    yield f"speed-up at most {dash(figures['speed_up'])}"
    for it in figures["shared"]:
        yield f"shared {lock(it)} by {it['positions']} positions"
    for it in figures["outcomes"]:
        yield f"{outcome(it)} {it['positions']}"


LINES = {"module": module_lines, "world": world_lines, "block": block_lines}


def differs(words, what, one, other):
    """Says where two texts begin to differ."""
    print(f"shown: show {' '.join(words)}: {what} differs")
    for a, b in zip(one + [""], other + [""]):
        if a != b:
            print(f"    {a[:200]}\n    {b[:200]}")
            break
    return False


def waits(positions):
    """Returns who waits for whom, as the picture's lines say it, by the modes in the block's order: at each lock positions that read it one after another go
    together, and so do those that add to it, and each waits for those that went together before it."""
    groups = {}
    for it in positions:
        for held in it["locks"]:
            at = groups.setdefault(lock(held), [])
            if at and at[-1][0] == held["mode"] != "excl":
                at[-1][1].append(it["position"])
            else:
                at.append((held["mode"], [it["position"]]))
    pairs = [pair for at in groups.values() for pair in zip(at, at[1:])]
    return {f"{second} waits for {first}" for (_, firsts), (_, seconds) in pairs for first in firsts for second in seconds}


def picture_agrees(program, words, block):
    """Returns whether the picture of a block has its positions and who waits for whom."""
    with tempfile.TemporaryDirectory() as folder:
        file = f"{folder}/block.svg"
        status, _ = run(program, "show", words[0], "--svg", file)
        if status != 0:
            return differs(words, "the picture's status", ["0"], [str(status)])
        root = xml.etree.ElementTree.parse(file).getroot()
    svg = "{http://www.w3.org/2000/svg}"
    titled = [(it, it.find(f"{svg}title")) for it in root.iter()]
    boxes = [title.text.splitlines()[0] for it, title in titled if title is not None and it.tag == f"{svg}g" and it.find(f"{svg}rect") is not None]
    lines = sorted(title.text for it, title in titled if title is not None and it.tag == f"{svg}path")
    drawn = sorted(boxes, key=lambda words: int(words.split()[0]))
    wanted = [position(it) for it in block["positions"]]
    if drawn != wanted:
        return differs(words, "the picture's boxes", wanted, drawn)
    wanted = sorted(waits(block["positions"]))
    return lines == wanted or differs(words, "the picture's lines", wanted, lines)


def agrees(program, *words):
    """Returns whether all forms of one file say the same."""
    status, text = run(program, "show", *words)
    json_status, printed = run(program, "show", *words, "--json")
    shown = None
    if status == json_status == 0:
        shown = json.loads(printed)
        printed = "".join(f"{line}\n" for line in LINES[shown["kind"]](shown))
    elif status == json_status == 1:
        refused = json.loads(printed)["refused"]
        printed = " ".join(["refused", refused["kind"], *(number or "-" for number in refused["numbers"])]) + "\n"
    if status != json_status or text != printed:
        return differs(words, f"status {status} and {json_status}, or the JSON", text.splitlines(), printed.splitlines())
    return shown is None or shown["kind"] != "block" or len(words) > 1 or picture_agrees(program, words, shown)


def main(program, folder):
    files = sorted(it for it in pathlib.Path(folder).rglob("*") if it.suffix in (".wasm", ".world", ".block"))
    shown = [(str(it),) for it in files]
    for it in files:
        calls = it.with_suffix(".calls")
        if it.suffix == ".block" and calls.exists():
            shown.append((str(it), "--calls", str(calls)))
    differing = [it for it in shown if not agrees(program, *it)]
    print(f"shown: {len(shown) - len(differing)} of {len(shown)} agree")
    return 0 if shown and not differing else 1


if __name__ == "__main__":
    if len(sys.argv) != 3:
        sys.exit("usage: examples/shown.py PROGRAM FOLDER")
    sys.exit(main(*sys.argv[1:]))
