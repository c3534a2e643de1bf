"""Writes files of rows, and pieces of bytes in the words of rows."""
from plain import DATA


# how many bytes a slice has at least
LEAST = 24


def hex_lines(data):
    """Hex digits, in groups of 16 bytes and lines of 64."""
    text = data.hex()
    lines = [text[at : at + 128] for at in range(0, len(text), 128)]
    return ["hex " + " ".join(line[at : at + 32] for at in range(0, len(line), 32)) for line in lines]


def changed_pieces(name, old, new):
    """The pieces that make these bytes of those that have this name."""
    if new == old:
        return [f"of {name}"]
    if len(new) == len(old):
        pieces, at = [], 0
        while at < len(old):
            if old[at] == new[at]:
                at += 1
                continue
            end = at + 1
            while end < len(old) and old[end : end + 2] != new[end : end + 2]:
                end += 1
            pieces.append(f"{at} {new[at:end].hex()}")
            at = end
        if len(pieces) <= 20:
            return [f"changed {name} " + " ".join(pieces)]
    if old.startswith(new):
        return [f"cutoff {name} {len(new)}"]
    windows = {old[at : at + LEAST]: at for at in reversed(range(len(old) - LEAST + 1))}
    pieces, fresh, at = [], b"", 0
    while at < len(new):
        start = windows.get(new[at : at + LEAST])
        if start is None:
            fresh += new[at : at + 1]
            at += 1
            continue
        count = LEAST
        while at + count < len(new) and start + count < len(old) and new[at + count] == old[start + count]:
            count += 1
        pieces += [*hex_lines(fresh), f"slice {name} {start} {start + count}"]
        fresh = b""
        at += count
    return pieces + hex_lines(fresh)


def verdict_pieces(block, verdict):
    """What `validate` prints."""
    if verdict is None:
        return ["line accept", f"line after {block.after.hex()}"]
    return ["line reject " + " ".join(map(str, verdict))]


class File:
    """A file of rows."""

    def __init__(self, name, head):
        self.name, self.lines, self.rows = name, [f"# {line}" for line in head], 0

    def note(self, *lines):
        self.lines += ["", *(f"# {line}" for line in lines)]

    def put(self, words, pieces):
        """A line of words with pieces behind it."""
        self.lines.append(f"{words} {pieces[0]}" if pieces else words)
        self.lines += [f"  {piece}" for piece in pieces[1:]]

    def row(self, name, comment=None):
        if comment:
            self.lines.append(f"# {comment}")
        self.lines.append(f"row {name}")
        self.rows += 1

    def calls(self, calls):
        self.put("file c", [f"line {it.line()}" for it in calls])

    def step(self, words, out, err=True):
        """A step, what is wanted on the standard output, and whether anything may stand on the standard error."""
        self.lines.append(words)
        self.put(f"out {out[0]}", out[1:])
        if err:
            self.lines.append("err any")

    def write(self):
        (DATA / self.name).write_text("\n".join(self.lines) + "\n")
        return f"{self.name}: {self.rows} rows, 0 differ"
