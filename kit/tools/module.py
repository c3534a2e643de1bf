"""Reading of modules in the binary format of WebAssembly, for the tools beside this file. It needs no more than Python."""
import os
import re
import signal
import subprocess
import sys


class NoModule(Exception):
    """A file is no module, or ends too early."""


def read_module(path):
    """The bytes of a file that begins as a module does."""
    try:
        with open(path, "rb") as file:
            data = file.read()
    except OSError as error:
        raise NoModule(f"{path}: {error.strerror}") from error
    if data[:8] != b"\0asm\1\0\0\0":
        raise NoModule(f"{path}: this is no module: it does not begin with the magic and version of WebAssembly 1.0")
    return data


def run_tool(main):
    """Runs a tool, and says in one line what is wrong with its files."""
    tool = os.path.basename(sys.argv[0])
    # who reads no more of what it prints ends it, without words
    signal.signal(signal.SIGPIPE, signal.SIG_DFL)
    try:
        sys.exit(main(sys.argv[1:]))
    except NoModule as fault:
        sys.exit(f"{tool}: {fault}")
    except (IndexError, UnicodeDecodeError):
        sys.exit(f"{tool}: the module ends too early, or a part of it is no part of a module")


#: the host calls, with a letter for each parameter and result
HOST = {"get": ("j", "j"), "has": ("j", "i"), "put": ("jj", ""), "del": ("j", "i"), "add": ("jj", ""), "total": ("j", "j"),
        "ask": ("iij", "i"), "answer": ("", "j")}
LETTER = {0x7F: "i", 0x7E: "j", 0x7D: "f", 0x7C: "d", 0x7B: "v", 0x70: "r", 0x6F: "e"}
WORD = {"i": "i32", "j": "i64", "f": "f32", "d": "f64", "v": "v128", "r": "funcref", "e": "externref"}
BULK = ["memory.init", "data.drop", "memory.copy", "memory.fill", "table.init", "elem.drop", "table.copy", "table.grow", "table.size",
        "table.fill"]
LATER = {0x06: "try", 0x07: "catch", 0x08: "throw", 0x09: "rethrow", 0x12: "return_call", 0x13: "return_call_indirect",
         0x18: "delegate", 0x19: "catch_all", 0x1C: "select with a type", 0x1F: "try_table", 0x25: "table.get", 0x26: "table.set",
         0xD0: "ref.null", 0xD1: "ref.is_null", 0xD2: "ref.func", 0xFD: "an instruction of SIMD", 0xFE: "an instruction of threads"}
MVP = "an instruction of a later standard: compile with -mcpu=mvp (clang), or for wasm32v1-none (Rust)"


class Reader:
    def __init__(self, data, at=0):
        self.data, self.at = data, at

    def byte(self):
        self.at += 1
        return self.data[self.at - 1]

    def u(self):
        value, shift = 0, 0
        while True:
            byte = self.byte()
            value |= (byte & 127) << shift
            shift += 7
            if byte < 128:
                return value

    def name(self):
        length = self.u()
        if self.at + length > len(self.data):
            raise IndexError
        self.at += length
        return self.data[self.at - length:self.at].decode("utf-8", "replace")

    def limits(self):
        flags = self.byte()
        least = self.u()
        return least, self.u() if flags & 1 else None

    def export(self):
        return self.name(), self.byte(), self.u()


def leb(number):
    out = bytearray()
    while number > 127:
        out.append(number & 127 | 128)
        number >>= 7
    out.append(number)
    return bytes(out)


def sections(data):
    """(kind, begin of the content, end, begin of the section) of each."""
    r = Reader(data, 8)
    while r.at < len(data):
        begin = r.at
        kind, size = r.byte(), r.u()
        if r.at + size > len(data):
            raise IndexError
        yield kind, r.at, r.at + size, begin
        r.at += size


def custom(data, wanted):
    for kind, start, end, _ in sections(data):
        r = Reader(data, start)
        if kind == 0 and r.name() == wanted:
            return data[r.at:end]
    return b""


def imports(data):
    """(module, name, what, type index or none) of each."""
    for kind, start, _, _ in sections(data):
        r = Reader(data, start)
        if kind == 2:
            for _ in range(r.u()):
                module, name, what = r.name(), r.name(), r.byte()
                index = r.u() if what == 0 else None
                if what == 1:
                    r.byte()
                if what in (1, 2):
                    r.limits()
                if what == 3:
                    r.at += 2
                yield module, name, what, index


def imported(data):
    """How many functions are imported."""
    return sum(1 for one in imports(data) if one[2] == 0)


def instructions(r, end, note=lambda at, said: None):
    """(opcode, offset) of each instruction of a body, `else` and `end` among them; `note` is told what the profile leaves out."""
    for _ in range(r.u()):
        r.u()
        kind = r.byte()
        if kind not in (0x7F, 0x7E):
            note(r.at - 1, f"a local of type {WORD.get(LETTER.get(kind), hex(kind))}")
    while r.at < end:
        at = r.at
        op = r.byte()
        yield op, at
        if op in (0x02, 0x03, 0x04):
            kind = r.byte()
            if kind in LETTER and kind not in (0x7F, 0x7E):
                note(at, f"a block of type {WORD[LETTER[kind]]}")
            elif kind not in (0x40, 0x7F, 0x7E):
                note(at, "a block with parameters or several results (multi-value): compile with -mcpu=mvp")
                while kind & 128:
                    kind = r.byte()
        elif op in (0x0C, 0x0D, 0x10, 0x20, 0x21, 0x22, 0x23, 0x24, 0x41, 0x42):
            r.u()
        elif op == 0x0E:
            for _ in range(r.u() + 1):
                r.u()
        elif op == 0x11:
            r.u()
            table = r.at
            r.u()
            if r.data[table] != 0:
                note(table, "`call_indirect` names its table as reference types do: compile with -mcpu=mvp")
        elif 0x28 <= op <= 0x3E:
            if op in (0x2A, 0x2B, 0x38, 0x39):
                note(at, "floating point: a load or store")
            r.u()
            r.u()
        elif op in (0x3F, 0x40):
            r.byte()
        elif op in (0x43, 0x44):
            r.at += 4 if op == 0x43 else 8
            note(at, "floating point: a constant")
        elif 0x5B <= op <= 0x66 or 0x8B <= op <= 0xA6 or 0xA8 <= op <= 0xAB or 0xAE <= op <= 0xBF:
            note(at, f"floating point: opcode {op:02x}")
        elif op == 0xFC:
            sub = r.u()
            if sub < 8:
                note(at, f"floating point: opcode fc {sub:02x}")
            else:
                note(at, f"`{BULK[sub - 8] if sub < 18 else sub}`, {MVP}")
            for _ in range(2 if sub in (8, 10, 12, 14) else 0 if sub < 8 else 1):
                r.u()
        elif op in LATER:
            note(at, f"{LATER[op]}, {MVP}")
            return
        elif not (op in (0x00, 0x01, 0x05, 0x0B, 0x0F, 0x1A, 0x1B, 0xA7, 0xAC, 0xAD) or 0x45 <= op <= 0x5A or 0x67 <= op <= 0x8A
                  or 0xC0 <= op <= 0xC4):
            note(at, f"opcode {op:02x}")
            return


def places(data):
    """Of each function by its number: the offset of each instruction from the begin of the code section's content."""
    functions, first = {}, imported(data)
    for kind, start, end, _ in sections(data):
        if kind == 10:
            r = Reader(data, start)
            for body in range(r.u()):
                upto = r.u() + r.at
                functions[first + body] = [at - start for op, at in instructions(r, upto) if op not in (0x05, 0x0B)]
                r.at = upto
    return functions


def names(data):
    """Of each function by its number: its export's name, else that of the name section."""
    found = {}
    r = Reader(custom(data, "name"))
    try:
        while r.at < len(r.data):
            sub, size = r.byte(), r.u()
            upto = r.at + size
            if sub == 1:
                for _ in range(r.u()):
                    index = r.u()
                    found[index] = r.name()
            r.at = upto
    except IndexError:
        # a name section that ends too early is passed over from there on
        pass
    for kind, start, _, _ in sections(data):
        if kind == 7:
            r = Reader(data, start)
            for name, what, index in [r.export() for _ in range(r.u())]:
                if what == 0:
                    found[index] = name
    return found


def frames(path, functions):
    """Of each instruction (F, O): `file:line` of each frame, the innermost first."""
    places = [(f, o) for f, at in functions.items() for o in range(len(at))]
    asked = "".join(f"{functions[f][o]:#x}\n" for f, o in places)
    tool = os.environ.get("LLVM_SYMBOLIZER", "llvm-symbolizer")
    try:
        told = subprocess.run([tool, "--functions=none", f"--obj={path}"], input=asked, capture_output=True, text=True).stdout
    except OSError as error:
        raise NoModule(f"lines of the source need {tool}: {error.strerror}") from error
    answers = told.rstrip("\n").split("\n\n")
    result = {}
    for place, answer in zip(places, answers):
        lines = [re.match(r"(.*?):(\d+)(:\d+)?$", line) for line in answer.strip().splitlines()]
        result[place] = [f"{os.path.basename(one.group(1))}:{one.group(2)}" for one in lines if one and one.group(2) != "0"]
    return result


class Source:
    """The places of a module's instructions in the source that it was compiled from."""

    def __init__(self, path):
        data = read_module(path)
        self.functions, self.called = places(data), names(data)
        self.lines = frames(path, self.functions)

    def place(self, f, o):
        """The function and the lines of an instruction."""
        return f"{self.called.get(f, f)} {' in '.join(self.lines.get((f, o), [])) or '?'}"

    def with_place(self, line):
        """A line of `wblock debug`, and behind a state of level 0 its place."""
        found = re.match(r"\d+ at (\d+) (\d+)$", line)
        return line + (f"    {self.place(int(found.group(1)), int(found.group(2)))}" if found else "")

    def breaks(self, wanted):
        """The instructions at which a function of this name, or code of this FILE:LINE, begins."""
        if ":" not in wanted:
            return [(f, 0) for f, name in self.called.items() if name == wanted and f in self.functions]
        return [(f, o) for f, at in self.functions.items() for o in range(len(at))
                if wanted in self.lines.get((f, o), []) and (o == 0 or wanted not in self.lines.get((f, o - 1), []))]
