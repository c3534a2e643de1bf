#!/usr/bin/env python3
"""Writes what `mine.sh` and `validate.sh` measure: a contract as text, and calls of it as the program's files of calls have them.

    loads.py contract
    loads.py calls LENGTH SHARED COUNT
    loads.py chains LENGTH COUNT
    loads.py groups COUNT

`calls` are COUNT calls of LENGTH instructions, a number of ROUNDS below, of which SHARED of 100 use one cell, the first ones of each hundred. `chains` is the same
with each tenth call on one cell. Each other call uses a cell of its own. `groups` are COUNT calls on one counter in two groups: first those that
read it, then those that add to it.
"""
import sys

# the rounds of the loop by which a call has its length
ROUNDS = {"7": 0, "100": 10, "298": 32, "1000": 110, "1999": 221, "3997": 443, "10000": 1110}


def body(rounds):
    """Adds 1 to the map cell of the key: 7 instructions, the end among them, or 10, and 9 for each round of the loop between the read and the write."""
    if rounds == 0:
        return """
  (call $put (local.get $key) (i64.add (call $get (local.get $key)) (i64.const 1)))"""
    return f"""
  (local $read i64) (local $left i64)
  (local.set $read (call $get (local.get $key)))
  (local.set $left (i64.const {rounds}))
  (loop $round
   (local.set $left (i64.sub (local.get $left) (i64.const 1)))
   (br_if $round (i32.eqz (i64.eqz (local.get $left)))))
  (call $put (local.get $key) (i64.add (local.get $read) (i64.const 1)))"""


def contract():
    yield """(module
 (import "boost" "get" (func $get (param i64) (result i64)))
 (import "boost" "put" (func $put (param i64) (param i64)))
 (import "boost" "add" (func $add (param i64) (param i64)))
 (import "boost" "total" (func $total (param i64) (result i64)))"""
    for length, rounds in ROUNDS.items():
        yield f""" (func (export "bump{length}") (param $key i64){body(rounds)})"""
    yield """ (func (export "add") (call $add (i64.const 7) (i64.const 1)))
 (func (export "read") (drop (call $total (i64.const 7)))))"""


def bumps(length, count, shares):
    for number in range(count):
        yield f"0 20000 bump{length} i64:{0 if shares(number) else number + 1}"


def main():
    match sys.argv[1:]:
        case ["contract"]:
            lines = contract()
        case ["calls", length, shared, count] if length in ROUNDS:
            lines = bumps(length, int(count), lambda number: number % 100 < int(shared))
        case ["chains", length, count] if length in ROUNDS:
            lines = bumps(length, int(count), lambda number: number % 10 == 0)
        case ["groups", count]:
            readers = int(count) // 2
            lines = (f"0 100 {'read' if number < readers else 'add'}" for number in range(int(count)))
        case _:
            sys.exit(__doc__)
    for line in lines:
        print(line)


main()
