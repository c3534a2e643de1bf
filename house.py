#!/usr/bin/env python3
"""Looks whether the house is in order: the map, the doors, the documents, the layers, the sizes of crates, the links.

    house.py --map      writes the list of crates into docs/ARCHITECTURE.md, between its two marks
    house.py --check    says what is not as it has to be; the status is then 1
    house.py --sizes    how large each document is, and how long its sentences are

**The map** has a line for each crate of crates.txt, in its order and layers: the first sentence of the first comment of its src/lib.rt (or src/main.rt), up to
a colon, a semicolon or a bracket.

**The doors.** Each crate has a README.md of at most 40 lines.

**The documents** keep the limits below, in bytes and in words. A sentence ends at a dot, a question mark or an exclamation mark with a space behind it. What
stands in backticks is one word. Of headings, tables, code and what a script writes the words do not count.

**The layers** are those of crates.txt, the lowest first. A crate depends on crates of its own layer and of lower ones.

**The sizes.** A crate has at most 1,500 lines in src/ and 100 functions, but for those that are named below.

**The lemmas.** What a crate cites of another one's proofs stands in a module that proofs/Lib.antt of that crate opens (`pub mod`). What the toolchain makes for a type
(`TheSendSync` and its like) is no lemma.

**The links**: each path of this repository that a document, a README or a script names is there.

It reads files alone, and takes a second.
"""

import argparse
import pathlib
import re
import statistics
import sys

TOP = pathlib.Path(__file__).resolve().parent
MAP = TOP / "docs/ARCHITECTURE.md"
BEGIN, END = "<!-- map: written by house.py --map -->", "<!-- map: end -->"

# What all documents have together at most, in bytes.
ALL_BYTES = 204_800
# What each document has at most, in bytes.
LIMITS = {
    "README.md": 4_500,
    "CONTRIBUTING.md": 11_700,
    "CHANGELOG.md": 6_500,
    "docs/ARCHITECTURE.md": 23_000,
    "docs/BENCHMARKS.md": 12_000,
    "docs/DECISIONS.md": 28_000,
    "docs/DEFINITIONS.md": 18_600,
    "docs/GUIDE.md": 21_000,
    "docs/PROOFS.md": 7_500,
    "docs/REFERENCE.md": 61_000,
    "docs/STATUS.md": 9_500,
    "docs/WRONG_BODIES.md": 7_000,
}
# The median of the words of a document's sentences, and how many of them have more than 40.
MEDIAN, LONG = 17, 0
# Where the part of a document begins and ends that a script writes.
WRITTEN = {
    "docs/ARCHITECTURE.md": (BEGIN, END),
    "docs/WRONG_BODIES.md": ("<!-- counts: written by wrong-bodies.py --document -->", "<!-- counts: end -->"),
}

README_LINES = 40
# READMEs that are longer, and why.
LONG_READMES = {"rows": (101, "it has the words of rows, which authors of tests look up")}
# Crates that may lack a README.
NO_README = {}

# Crates that depend on one of a higher layer, and why.
UPWARD = {}

# How many lines of code and functions a crate has at most, and the crates that have more (docs/DECISIONS.md, 'Crates and copies', says why).
LINES, FUNCTIONS = 1_500, 100
LARGE = {"interp": (2_140, 109), "serial": (1_850, FUNCTIONS), "rows_texts": (LINES, 109), "tests_blocks": (1_900, FUNCTIONS), "tests_program": (1_600, 105), "tests_threads": (1_600, FUNCTIONS), "tests_verdicts": (2_400, 106)}


def layers():
    """The layers of crates.txt, each a name and its crates with what they depend on."""
    found = []
    for line in (TOP / "crates.txt").read_text().splitlines():
        if line.startswith("#"):
            found.append((line[1:].strip(), {}))
        elif ":" in line:
            head, _, words = line.partition(":")
            found[-1][1][head.split()[0]] = words.split()
    return found


# ---- The map ----


def sentence_of(name):
    """What a crate is, by the first comment of its code."""
    for file in ("lib.rt", "main.rt"):
        path = TOP / "crates" / name / "src" / file
        if path.is_file():
            words = []
            for line in path.read_text().splitlines():
                comment = re.match(r"//!? ?(.*)", line)
                if comment:
                    words.append(comment[1])
                elif words:
                    break
            text = " ".join(words)
            return re.split(r"[.:;](?:\s|$)| \(", text)[0].strip()
    return ""


def map_text():
    """The list of crates, as it has to be."""
    lines = []
    for layer, crates in layers():
        lines += ["", f"**{layer[0].upper()}{layer[1:]}**", ""]
        lines += [f"- `{name}`: {sentence_of(name)}" for name in crates]
    return "\n".join(lines[1:])


def with_map(text):
    """A document with the list between its marks."""
    head, mark, rest = text.partition(BEGIN)
    _, end, tail = rest.partition(END)
    if not mark or not end:
        sys.exit(f"house.py: {MAP.relative_to(TOP)} lacks the marks of the map")
    return f"{head}{BEGIN}\n\n{map_text()}\n\n{END}{tail}"


# ---- The documents ----


def documents():
    return ["README.md", "CONTRIBUTING.md", "CHANGELOG.md"] + sorted(f"docs/{path.name}" for path in (TOP / "docs").glob("*.md"))


def by_hand(name):
    """A document without what a script writes into it."""
    text = (TOP / name).read_text()
    if name in WRITTEN:
        begin, end = WRITTEN[name]
        head, _, rest = text.partition(begin)
        text = head + rest[rest.find(end):] if end in rest else head
    return text


def lengths(text):
    """How many words each sentence has."""
    text = re.sub(r"^```.*?^```", "", text, flags=re.S | re.M)
    text = re.sub(r"<!--.*?-->", "", text, flags=re.S)
    pieces, piece = [], []
    for line in text.splitlines() + [""]:
        line = line.strip()
        item = re.match(r"(?:[-*]|\d+\.) +(.*)", line)
        if not line or item or line[0] in "|#!":
            pieces.append(" ".join(piece))
            piece = [item[1]] if item else []
        else:
            piece.append(line)
    found = []
    for piece in pieces:
        piece = re.sub(r"`[^`]*`", "X", piece)
        found += [len(re.findall(r"\w[\w'’/.,-]*", it)) for it in re.split(r"(?<=[.!?])[\"*)]*\s+", piece)]
    return [it for it in found if it]


def figures(name):
    """The bytes of a document, the median of its sentences' words, and how many have more than 40."""
    words = lengths(by_hand(name)) or [0]
    return len((TOP / name).read_bytes()), statistics.median(words), sum(it > 40 for it in words)


def faults_of_documents():
    faults, together = [], 0
    for name in documents():
        size, median, long = figures(name)
        together += size
        if name not in LIMITS:
            faults.append(f"{name} has no limits in house.py")
            continue
        for what, value, most in (
            ("bytes", size, LIMITS[name]),
            ("words in the median of its sentences", median, MEDIAN),
            ("sentences of more than 40 words", long, LONG),
        ):
            if value > most:
                faults.append(f"{name} has {value} {what}, and may have {most}")
    if together > ALL_BYTES:
        faults.append(f"all documents have {together} bytes together, and may have {ALL_BYTES}")
    return faults + [f"house.py has limits for {name}, which is not there" for name in LIMITS if not (TOP / name).is_file()]


# ---- The doors and the layers ----


def faults_of_crates():
    faults, place = [], {}
    for number, (_, crates) in enumerate(layers()):
        place.update(dict.fromkeys(crates, number))
    for name in place:
        door = TOP / "crates" / name / "README.md"
        if not door.is_file():
            if name not in NO_README:
                faults.append(f"crates/{name} has no README.md")
            continue
        lines, most = door.read_text().count("\n"), LONG_READMES.get(name, (README_LINES,))[0]
        if lines > most:
            faults.append(f"crates/{name}/README.md has {lines} lines, and may have {most}")
    upward = {(name, below) for _, crates in layers() for name, words in crates.items() for below in words if place.get(below, -1) > place[name]}
    faults += [f"{name} depends on {below}, which is of a higher layer" for name, below in sorted(upward - set(UPWARD))]
    return faults + [f"house.py lets {name} depend on {below}, which it does not: take that out" for name, below in sorted(set(UPWARD) - upward)]


def faults_of_sizes():
    faults = []
    for name in (name for _, crates in layers() for name in crates):
        text = "".join(path.read_text() for path in (TOP / "crates" / name / "src").rglob("*.rt"))
        found = text.count("\n"), len(re.findall(r"^ *(?:pub(?:\([a-z]+\))? )?(?:const )?fn \w", text, re.M))
        for what, value, most in zip(("lines", "functions"), found, LARGE.get(name, (LINES, FUNCTIONS))):
            if value > most:
                faults.append(f"{name} has {value} {what}, and may have {most}")
        if name in LARGE and all(value <= usual for value, usual in zip(found, (LINES, FUNCTIONS))):
            faults.append(f"house.py lets {name} be large, which it is not: take that out")
    return faults


# ---- The lemmas ----


def lemmas_of(name):
    """The modules of proofs that a crate opens to those above it."""
    path = TOP / "crates" / name / "proofs/Lib.antt"
    return set(re.findall(r"^pub mod (\w+)", path.read_text(), re.M)) if path.is_file() else set()


def faults_of_lemmas():
    opened = {name: lemmas_of(name) for _, crates in layers() for name in crates}
    faults = set()
    for name in opened:
        for path in (TOP / "crates" / name).rglob("*.antt"):
            for other, module, rest in re.findall(r"Rattle\.(\w+)\.proofs\.(\w+)([\w.]*)", path.read_text()):
                if other != name and module not in opened.get(other, {module}) and not re.search(r"\.The[A-Z]", rest):
                    faults.add(f"{name} cites the proofs {module} of {other}, which its proofs/Lib.antt does not open")
    return sorted(faults)


# ---- The links ----


def faults_of_links():
    readers = [TOP / name for name in documents()] + list(TOP.glob("crates/*/README.md")) + list(TOP.glob("*/*.sh")) + [TOP / ".ci/run", TOP / "wrong-bodies.py"]
    readers += [path for path in (TOP / "kit/README.md", TOP / "examples/README.md", TOP / "embed/README.md") if path.is_file()]
    faults = []
    for reader in readers:
        for path in sorted(set(re.findall(r"\b(?:docs|crates|bench|examples|kit)/[\w./-]*\w", reader.read_text()))):
            made = re.search(r"NAME|FOLDER|/out\b|\.\.", path)
            if not made and path.startswith(("docs/", "crates/")) and not (TOP / path).exists() and not list(TOP.glob(f"{path}*")):
                faults.append(f"{reader.relative_to(TOP)} names {path}, which is not there")
    return faults


def main():
    parser = argparse.ArgumentParser(prog="house.py", description="Looks whether the house is in order.")
    choice = parser.add_mutually_exclusive_group(required=True)
    choice.add_argument("--map", action="store_true", help="write the list of crates into docs/ARCHITECTURE.md")
    choice.add_argument("--check", action="store_true", help="say what is not as it has to be")
    choice.add_argument("--sizes", action="store_true", help="how large the documents are, and how long their sentences")
    given = parser.parse_args()
    if given.map:
        MAP.write_text(with_map(MAP.read_text()))
        return 0
    if given.sizes:
        for name in documents():
            print("{:24} {:7} bytes, median {:4}, {:2} of more than 40 words".format(name, *figures(name)))
        print("{:24} {:7} bytes".format("together", sum(figures(name)[0] for name in documents())))
        return 0
    faults = [] if MAP.read_text() == with_map(MAP.read_text()) else ["the list of crates in docs/ARCHITECTURE.md is not as ./house.py --map writes it"]
    faults += faults_of_documents() + faults_of_crates() + faults_of_sizes() + faults_of_lemmas() + faults_of_links()
    for fault in faults:
        print(f"house.py: {fault}", file=sys.stderr)
    return 1 if faults else 0


if __name__ == "__main__":
    sys.exit(main())
