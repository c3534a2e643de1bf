#!/usr/bin/env python3
"""Writes the bytes that the rows of tests give to readers, each once, as files to begin changes with.

    seeds.py READER FOLDER     READER: module, text, calls, world, block or words

The bytes of a row are sorted by how they begin. `words` are those behind the call in a `run` of `debug`, and those that a row asks for as commands: one a line.
"""
import hashlib
import os
import re
import sys

DATA = os.path.join(os.path.dirname(os.path.dirname(os.path.realpath(__file__))), "crates", "rows", "data")
BEGIN = {
    "module": re.compile(rb"\0as"),
    "text": re.compile(rb"\s*(;;.*\n\s*)?\("),
    "calls": re.compile(rb"\d+ \d+ \S"),
    "world": re.compile(rb"WBWD"),
    "block": re.compile(rb"WBLK"),
}
named = {}


def piece_of(word, rest):
    """The bytes of one piece, in the words of crates/rows/README.md; none where a name is not known."""
    words = rest.split()
    match word:
        case "text":
            return rest.encode()
        case "line":
            return rest.encode() + b"\n"
        case "hex":
            return bytes.fromhex("".join(words))
        case "of":
            return named[words[0]]
        case "changed":
            data = bytearray(named[words[0]])
            for at, new in zip(words[1::2], words[2::2]):
                new = bytes.fromhex(new)
                data[int(at) : int(at) + len(new)] = new
            return bytes(data)
        case "cutoff":
            return named[words[0]][: int(words[1])]
        case "slice":
            return named[words[0]][int(words[1]) : int(words[2])]
        case "times":
            count, inner, *_ = rest.split(" ", 2)
            return int(count) * piece_of(inner, rest[len(count) + len(inner) + 2 :])
    raise KeyError(word)


def lines_of(text):
    """Each line's first word, its second, and its pieces, those on the lines below it too."""
    entry = None
    for line in text.split("\n"):
        if line.startswith("#") or not line.strip():
            continue
        if line.startswith("  ") and entry:
            entry.append(line[2:])
        else:
            if entry:
                yield entry
            entry = [line]
    if entry:
        yield entry


def bytes_of(pieces):
    data = b""
    for piece in pieces:
        word, _, rest = piece.partition(" ")
        try:
            data += piece_of(word, rest)
        except (KeyError, ValueError, IndexError):
            return None
    return data


def found(reader):
    order = open(os.path.join(os.path.dirname(DATA), "args")).read().split()
    for name in order:
        if not os.path.exists(f"{DATA}/{name}"):
            continue
        for first, *more in lines_of(open(f"{DATA}/{name}").read()):
            what, _, rest = first.partition(" ")
            if what in ("bytes", "file", "ask"):
                name, _, piece = rest.partition(" ")
                data = bytes_of([it for it in [piece, *more] if it])
                if what == "bytes" and data is not None:
                    named[name] = data
                if data is None:
                    continue
                if reader == "words" and what == "ask" and name in ("command", "commands", "words"):
                    yield data
                elif reader in BEGIN and BEGIN[reader].match(data):
                    yield data
            elif reader == "words" and what in ("run", "twice", "usage"):
                words = rest.split()
                if "debug" in words[:3]:
                    yield "\n".join(words[words.index("debug") + 4 :]).encode()


if __name__ == "__main__":
    reader, folder = sys.argv[1:]
    for data in found(reader):
        # (AFL++ takes no file of more than a megabyte)
        if 0 < len(data) <= 100_000:
            with open(f"{folder}/{hashlib.sha256(data).hexdigest()[:16]}", "wb") as file:
                file.write(data)
