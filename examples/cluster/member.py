#!/usr/bin/env python3
"""A node of a ledger on several machines: it follows the log in etcd, validates each block by itself, and tells the digest that it comes to.

    member.py NAME FOLDER --fuel N [--program wblock] [--etcd URL] [--nodes a,b,c]

FOLDER has its world, whose name is the position up to which it followed the log: `0.world` is the first world of the ledger, and each position has a world more,
which takes the place of the one before. A node that was killed goes on from there. A new one begins with `0.world`, or with the world of another node.

The fuel of a block is a rule of the ledger: all nodes have the same. The node ends with status 1 where most nodes came to another world, and with 3 where etcd, a
file or the program failed; whoever started it may start it again.
"""

import argparse
import fcntl
import os
import pathlib
import shutil
import signal
import sys

sys.path.append(str(pathlib.Path(__file__).resolve().parent.parent / "node"))
from log import Away, Log, arguments, majority, parts_of
from node import Ended, Node


class Fault(Exception):
    """What is not as it has to be, and takes someone to look at it."""


def worlds():
    """The positions of the worlds in this folder, rising."""
    return sorted(int(path.stem) for path in pathlib.Path().glob("*.world") if path.stem.isdecimal())


class Member(Node):
    """Who keeps the world of this folder and follows the log with it."""

    def __init__(self, program, fuel):
        if not worlds():
            raise OSError("there is no world: put there 0.world, the first of the ledger, or the N.world of another node")
        self.program, self.position = program, worlds()[-1]
        super().__init__(program, f"{self.position}.world", fuel)
        self.sound(self.chain.ask("digest"))

    def sound(self, answer):
        """An answer that is no refusal."""
        if answer.status != 0:
            raise OSError("; ".join([self.world] + answer.lines + answer.said))
        return answer

    def take(self, entry):
        """Validates the block of the next entry, and goes on by it where it is accepted; else the world stays. Gives the verdict, a line of the program."""
        _, calls, block = parts_of(entry)
        # strangers wrote these: they reach the program as files, never as lines of the session
        pathlib.Path("calls").write_bytes(calls)
        pathlib.Path("block").write_bytes(block)
        answer = self.chain.ask(f"validate calls block --fuel {self.fuel}")
        if answer.status > 1:
            raise OSError("; ".join(answer.said))
        self.position += 1
        return answer.lines[0]

    def save(self):
        """Writes the world under the name of its position, and removes those before."""
        self.world = f"{self.position}.world"
        super().save()
        for position in worlds()[:-1]:
            pathlib.Path(f"{position}.world").unlink()


def started(given):
    """The log and the member that the words of a command ask for. The command runs in its folder then."""
    signal.signal(signal.SIGINT, signal.SIG_DFL)
    os.chdir(given.folder)
    given.lock = open("lock", "w")  # held until the process ends, however it does
    try:
        fcntl.flock(given.lock, fcntl.LOCK_EX | fcntl.LOCK_NB)
    except BlockingIOError:
        raise OSError("another process works here") from None
    return Log(given.etcd, given.patience), Member(given.program, given.fuel)


def follow(given):
    """Follows the log for ever."""
    log, member = started(given)
    unsettled = {}
    for entry in log.entries(member.position):
        verdict, came = member.take(entry), member.digest()
        unsettled[member.position] = came
        log.publish(given.name, member.position, f"{came} {verdict}")
        # (the last positions stay unsettled until enough others have come to them)
        for position, digest in list(unsettled.items()):
            most = majority(log.told(position, given.nodes), given.nodes)
            if most is None:
                break
            if most != digest:
                raise Fault(f"at position {position} most nodes came to the world {most}, and this one to {digest}")
            del unsettled[position]
        member.save()
        print(f"position {member.position}, of {repr(parts_of(entry)[0][:32])[2:-1]}: {verdict}, the world {came}", flush=True)


def status_of(work, given):
    """Does the work of a command, and gives its status: what ends it is said in a line."""
    try:
        work(given)
        return 0
    except (Fault, ValueError) as fault:
        print(f"{given.name}: {fault}", file=sys.stderr)
        return 1
    except (Away, Ended) as fault:
        print(f"{given.name}: {fault}", file=sys.stderr)
        return 3
    except OSError as fault:
        print(f"{given.name}: in the folder {given.folder}: {fault}", file=sys.stderr)
        return 3


def program_of(word):
    """The program that a word names, wherever one stands."""
    path = shutil.which(word)
    if path is None:
        raise argparse.ArgumentTypeError(f"there is no program {word}")
    return os.path.abspath(path)


def fuel_of(word):
    """Fuel, which is a decimal number."""
    if not word.isdecimal():
        raise argparse.ArgumentTypeError(f"{word} is no decimal number")
    return int(word)


# The words of a node and of a proposer.
WORDS = (
    ("name", {"help": "its name"}),
    ("folder", {"help": "the folder of its world"}),
    ("--fuel", {"metavar": "N", "type": fuel_of, "required": True, "help": "the fuel of a block, the same of all"}),
    ("--program", {"metavar": "FILE", "type": program_of, "default": "wblock", "help": "the program wblock"}),
)

if __name__ == "__main__":
    sys.exit(status_of(follow, arguments(__doc__, *WORDS)))
