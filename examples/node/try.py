#!/usr/bin/env python3
"""Tries node.py with the built program: two nodes over the token's contract, one of which proposes blocks and lies, and the single commands beside them.

    try.py PROGRAM

Says what came otherwise than it has to; the status is then 1.
"""

import pathlib
import subprocess
import sys
import tempfile

from node import Chain, Node

TOKEN = pathlib.Path(__file__).resolve().parent.parent / "token"
FUEL = 2500
failed = 0


def check(what, came, wanted):
    """Counts what came otherwise."""
    global failed
    if came != wanted:
        failed += 1
        print(f"node: {what}: {came!r} in place of {wanted!r}")


def run(program, folder, *words):
    """Runs a single command, and gives its lines."""
    return subprocess.run([program, *words], cwd=folder, capture_output=True, text=True).stdout.splitlines()


def blocks(program, folder, lists):
    """Two nodes over blocks of these lists, and the single commands over files beside them."""
    proposer, follower = Node(program, str(folder / "a.world"), FUEL), Node(program, str(folder / "b.world"), FUEL)
    for number, calls in enumerate(lists):
        (folder / "calls").write_text("".join(call + "\n" for call in calls))
        block = proposer.propose(calls)
        run(program, folder, "mine", "0.world", "calls", "block", "0.world", "--fuel", str(FUEL))
        check(f"block {number}", block, (folder / "block").read_bytes())
        forged = block[:-1] + bytes([block[-1] ^ 1])
        check(f"forged block {number}", str(follower.follow(calls, forged)).split(";")[0], "reject 9")
        check(f"block {number} of other calls", str(follower.follow(calls[1:], block)).split(";")[0], "reject 3")
        check(f"block {number} is followed", follower.follow(calls, block), True)
        check(f"block {number} again", str(follower.follow(calls, block)).split(";")[0], "reject 2")
        check(f"digest {number}", proposer.digest(), follower.digest())
    for node in (proposer, follower):
        node.save()
        check("the end of input", node.chain.close(), 0)
    for name in ("a.world", "b.world"):
        check(name, (folder / name).read_bytes(), (folder / "0.world").read_bytes())


def lines(program, folder):
    """Single lines, good and bad, over a world that a script looks at."""
    chain = Chain(program, str(folder / "0.world"))
    before = chain.ask("digest").lines
    check("a call alone", chain.ask("call 0 200 supply").lines, run(program, folder, "call", "0.world", "0", "200", "supply"))
    check("the call changes nothing", chain.ask("digest").lines, before)
    check("no command", chain.ask("mint").status, 2)
    check("an empty line", chain.ask("").status, 2)
    check("ten megabytes", chain.ask("x" * 10_000_000).status, 2)
    check("a byte 0", chain.ask("save \0").status, 3)
    check("bad calls", chain.ask("mine - - --fuel 100", ["0 much open"]).lines, ["refused calls 1 1"])
    check("a file that is not there", chain.ask("validate absent absent --fuel 1").status, 3)
    chain.process.stdin.write(b"\xff\xfe\n")
    chain.process.stdin.flush()
    check("no UTF-8", chain.answer().status, 2)
    (folder / "0.world").rename(folder / "gone.world")
    check("a world that vanishes", chain.ask("digest").lines, before)
    check("a contract more", chain.ask(f"deploy {folder}/contract.wasm").lines, ["deployed 1 contracts onto 1"])
    check("its call", chain.ask("call 1 200 open i64:7").lines[0], "returned fuel 19")
    check("quit", chain.ask("quit").status, 0)
    check("the exit status", chain.close(), 0)
    none = Chain(program, str(folder / "absent.world"))
    check("no world", none.answer().status, 3)
    check("its exit status", none.close(), 3)


def main(program):
    program = str(pathlib.Path(program).resolve())
    with tempfile.TemporaryDirectory() as name:
        folder = pathlib.Path(name)
        run(program, folder, "asm", str(TOKEN / "contract.wat"), "contract.wasm")
        run(program, folder, "deploy", "0.world", "contract.wasm")
        for copy in ("a.world", "b.world"):
            (folder / copy).write_bytes((folder / "0.world").read_bytes())
        blocks(program, folder, [(TOKEN / f"{number}.calls").read_text().splitlines() for number in (1, 2)])
        lines(program, folder)
    if not failed:
        print("node: two nodes came to one world in 2 blocks, and each bad line was answered")
    return failed != 0


if __name__ == "__main__":
    if len(sys.argv) != 2:
        sys.exit(__doc__)
    sys.exit(main(sys.argv[1]))
