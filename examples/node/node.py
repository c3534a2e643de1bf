#!/usr/bin/env python3
"""A node of a ledger in some hundred lines: it drives `wblock chain WORLD` through a pipe.

    node.py PROGRAM WORLD FUEL      takes calls from standard input, one a line, and mines them in blocks: an empty line ends a block

`Chain` is the driver: one line, one answer. `Node` keeps a world with it, mines, validates the blocks of others, and saves. It needs Python alone.
"""

import os
import subprocess
import sys
import tempfile


class Ended(Exception):
    """The session ended: memory was refused, or its world, its input or its output failed."""


class Answer:
    """What came of a line: its status, the lines that the command prints, and what it says for people."""

    def __init__(self, status, lines, said):
        self.status, self.lines, self.said = status, lines, said

    def value(self, word):
        """What stands behind this word in the line that begins with it, or None."""
        for line in self.lines:
            if line.startswith(word + " "):
                return line[len(word) + 1:]
        return None


class Chain:
    """A session that keeps a world: `ask` sends a line, with the calls behind it, and reads the answer up to its line `status N`."""

    def __init__(self, program, world):
        self.process = subprocess.Popen([program, "chain", world, "--quiet"], stdin=subprocess.PIPE, stdout=subprocess.PIPE, stderr=subprocess.DEVNULL)

    def ask(self, line, calls=None):
        """The answer to a line. The calls are those of CALLS `-`."""
        text = line + "\n" + ("" if calls is None else "".join(call + "\n" for call in calls) + "\n")
        try:
            self.process.stdin.write(text.encode())
            self.process.stdin.flush()
        except BrokenPipeError:
            pass  # what the session said before it ended is read below
        return self.answer()

    def answer(self):
        """The next answer."""
        lines, said = [], []
        for line in self.process.stdout:
            line = line.decode().rstrip("\n")
            if line.startswith("# "):
                said.append(line[2:])
            elif line.startswith("status "):
                if line == "status 4":
                    raise Ended("; ".join(said))
                return Answer(int(line[7:]), lines, said)
            else:
                lines.append(line)
        raise Ended("the session ended in the midst of an answer")

    def close(self):
        """Ends the session by the end of its input, and gives its exit status."""
        self.process.stdin.close()
        self.process.stdout.close()
        return self.process.wait()


class Node:
    """Who keeps a world, goes on by blocks, and tells the digest that it came to."""

    def __init__(self, program, world, fuel):
        self.chain, self.world, self.fuel = Chain(program, world), world, fuel

    def propose(self, calls):
        """Mines these calls: the bytes of the block. The node has gone on then."""
        answer = self.chain.ask(f"mine - - --fuel {self.fuel}", calls)
        if answer.status != 0:
            raise ValueError("; ".join(answer.lines + answer.said))
        return bytes.fromhex(answer.value("block"))

    def follow(self, calls, block):
        """Validates the block of another node, and goes on where it is accepted: True, or why it is rejected."""
        with tempfile.NamedTemporaryFile(dir=os.path.dirname(os.path.abspath(self.world))) as file:
            file.write(block)
            file.flush()
            answer = self.chain.ask(f"validate - {file.name} --fuel {self.fuel}", calls)
        return True if answer.status == 0 else "; ".join(answer.lines + answer.said)

    def digest(self):
        """The digest of the world that it keeps."""
        return self.chain.ask("digest").value("digest")

    def save(self):
        """Writes the world that it keeps to its file, so that it goes on from there when it is started again."""
        answer = self.chain.ask(f"save {self.world}")
        if answer.status != 0:
            raise OSError("; ".join(answer.said))


def main(program, world, fuel):
    """Mines blocks of the calls on standard input."""
    node, calls = Node(program, world, int(fuel)), []
    for line in list(sys.stdin) + ["\n"]:
        if line.strip():
            calls.append(line.rstrip("\n"))
        elif calls:
            block = node.propose(calls)
            print(f"{len(calls)} calls, a block of {len(block)} bytes, the world {node.digest()}", flush=True)
            calls = []
    node.save()
    sys.exit(node.chain.close())


if __name__ == "__main__":
    if len(sys.argv) != 4:
        sys.exit(__doc__)
    main(*sys.argv[1:])
