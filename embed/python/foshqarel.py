"""The library in Python, by ctypes over libfoshqarel.so: the functions of foshqarel.h over bytes, with buffers that grow to the size that the library tells.

The shared object is that of FOSHQAREL_SO, or libfoshqarel.so where the system looks for libraries. A refusal is raised as `Refused`, a lack of memory as MemoryError.
"""

import ctypes
import os
from ctypes import POINTER, byref, c_char, c_int64, c_size_t, c_uint32, c_uint64

DONE, REFUSED, SHORT, NO_MEMORY = range(4)
NOWHERE = 2**64 - 1
SUBJECTS = ["", "load", "check", "deploy", "assemble", "text", "world", "calls", "block"]
KINDS = ["map", "counter"]
MODES = ["read", "add", "excl"]


class Told(ctypes.Structure):
    _fields_ = [("size", c_uint64), ("next_size", c_uint64), ("place", c_uint64), ("function", c_uint64), ("subject", c_uint32), ("number", c_uint32)]


class Cell(ctypes.Structure):
    _fields_ = [("key", c_uint64), ("number", c_uint64), ("contract", c_uint32), ("kind", c_uint32)]


class Receipt(ctypes.Structure):
    _fields_ = [("fuel", c_uint64), ("value", c_int64), ("call", c_uint32), ("asks", c_uint32), ("outcome", c_uint32), ("code", c_uint32)]


class Change(ctypes.Structure):
    _fields_ = [
        ("key", c_uint64),
        ("before", c_uint64),
        ("later", c_uint64),
        ("contract", c_uint32),
        ("kind", c_uint32),
        ("mode", c_uint32),
        ("presence", c_uint32),
    ]


class Refused(Exception):
    """What was passed is refused: `subject` a word, `number`, `place` and `function` a number or None, `sentence`."""

    def __init__(self, told, sentence):
        super().__init__(sentence)
        self.subject = SUBJECTS[told.subject]
        self.number = told.number
        self.place = None if told.place == NOWHERE else told.place
        self.function = None if told.function == NOWHERE else told.function
        self.sentence = sentence


_library = ctypes.CDLL(os.environ.get("FOSHQAREL_SO", "libfoshqarel.so"))

# Bytes that are passed, and a list that is written to: a pointer and how many.
_in = [ctypes.c_char_p, c_size_t]
_out = [POINTER(c_char), c_size_t]
_told = [POINTER(Told)]


def _declared(name, *parameters):
    function = getattr(_library, f"foshqarel_{name}")
    function.argtypes = [one for parameter in parameters for one in parameter]
    function.restype = c_uint32
    return function


_check = _declared("check", _in, _out, _told)
_assemble = _declared("assemble", _in, _out, _told)
_text = _declared("text", _in, _out, _told)
_world_new = _declared("world_new", _out, _told)
_world_extend = _declared("world_extend", _in, _in, _out, _told)
_world_digest = _declared("world_digest", _in, _out, _told)
_world_cell = _declared("world_cell", _in, [POINTER(Cell)], _out, _told)
_world_cells = _declared("world_cells", _in, [c_uint64], [POINTER(Cell), c_size_t], _out, _told)
_calls = _declared("calls", _in, _out, _told)
_mine = _declared("mine", _in, _in, [c_uint64], _out, _out, _told)
_verify = _declared("verify", _in, _in, [c_uint64], _in, _out, _told)
_receipts = _declared("receipts", _in, [c_uint64], [POINTER(Receipt), c_size_t], _out, _told)
_call = _declared("call", _in, _in, [c_uint32], [POINTER(Receipt)], [POINTER(Change), c_size_t], _out, _told)


def _slice(data):
    return (bytes(data), len(data))


def _buffer(room):
    # never a null pointer, also where it holds nothing
    return (ctypes.create_string_buffer(room + 1), room)


def _grown(call, room=0):
    """Calls with a buffer and what is told, until the buffer is large enough: what is told then, and the buffer."""
    while True:
        out, told = _buffer(room), Told()
        status = call(out, byref(told))
        if status == DONE:
            return told, out[0].raw
        if status == REFUSED:
            raise Refused(told, out[0].raw[: told.size].decode())
        if status == NO_MEMORY:
            raise MemoryError
        room = told.size


def _given(call, room=0):
    told, out = _grown(call, room)
    return out[: told.size]


def _listed(kind, call):
    """All items: first how many they are, then they."""
    told, _ = _grown(lambda out, told: call((kind * 1)(), 0, out, told))
    items = (kind * (told.size + 1))()
    _grown(lambda out, to: call(items, told.size, out, to))
    return list(items)[: told.size]


def check(module):
    """How many functions a valid module defines."""
    return _grown(lambda out, told: _check(*_slice(module), *out, told))[0].size


def assemble(text):
    """The module that a text names, in its shortest spelling."""
    return _given(lambda out, told: _assemble(*_slice(text), *out, told))


def text(module):
    """A text that names a valid module."""
    return _given(lambda out, told: _text(*_slice(module), *out, told))


def new_world():
    """The world of no contracts and no cells."""
    return _given(lambda out, told: _world_new(*out, told))


def extend(world, module):
    """A world with the contract that a module is behind its own."""
    return _given(lambda out, told: _world_extend(*_slice(world), *_slice(module), *out, told))


def digest(world):
    """SHA-256 of a world."""
    return _given(lambda out, told: _world_digest(*_slice(world), *out, told), 32)


def cells(world):
    """The cells of a world."""
    return _listed(Cell, lambda items, room, out, told: _world_cells(*_slice(world), 0, items, room, *out, told))


def cell(world, contract, kind, key):
    """What a cell holds, or None where it is absent. Kind 0 is a map, 1 a counter."""
    asked = Cell(key=key, contract=contract, kind=kind)
    told, _ = _grown(lambda out, told: _world_cell(*_slice(world), byref(asked), *out, told))
    return asked.number if told.size else None


def calls(text):
    """How many calls a text spells."""
    return _grown(lambda out, told: _calls(*_slice(text), *out, told))[0].size


def mine(world, calls, fuel):
    """The block of the calls of a text over a world, in the list's order, with this fuel; and the world after it."""
    block, next_world, told = _buffer(65536), _buffer(len(world) + 4096), Told()
    while True:
        status = _mine(*_slice(world), *_slice(calls), fuel, *block, *next_world, byref(told))
        if status == DONE:
            return block[0].raw[: told.size], next_world[0].raw[: told.next_size]
        if status == REFUSED:
            raise Refused(told, block[0].raw[: told.size].decode())
        if status == NO_MEMORY:
            raise MemoryError
        block, next_world = _buffer(max(told.size, block[1])), _buffer(max(told.next_size, next_world[1]))


def verify(world, calls, fuel, block):
    """The world after a block of the calls of a text over a world, where the block is accepted."""
    return _given(lambda out, told: _verify(*_slice(world), *_slice(calls), fuel, *_slice(block), *out, told), len(world) + 4096)


def receipts(block):
    """The receipts of a block, in its order. It is not verified."""
    return _listed(Receipt, lambda items, room, out, told: _receipts(*_slice(block), 0, items, room, *out, told))


def call(world, calls, number):
    """What the call of this number of a text comes to alone over a world: its receipt, and the cells that it asked for."""
    receipt = Receipt()
    changes = _listed(Change, lambda items, room, out, told: _call(*_slice(world), *_slice(calls), number, byref(receipt), items, room, *out, told))
    return receipt, changes
