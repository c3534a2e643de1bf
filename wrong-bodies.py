#!/usr/bin/env python3
"""Tries wrong bodies, which the prover has to refuse (docs/WRONG_BODIES.md).

    wrong-bodies.py NAME..        those of these crates: rows and edits
    wrong-bodies.py --rows        the rows of all crates, as the gate does, the edits on wrappers that `rt ci` does not try, and those inside seven crates
    wrong-bodies.py --wrappers    all edits on wrappers, in the crates edits_*
    wrong-bodies.py --all         the rows and edits of all crates
    wrong-bodies.py --list [NAME..]    all of them, or those of these crates' functions, as tables, and the public functions that have none
    wrong-bodies.py --document    writes the counts into docs/WRONG_BODIES.md; --documented looks whether they are as written
    wrong-bodies.py --make FOLDER NAME..    writes the wrappers of these crates' rows into FOLDER/NAME, to be looked at

**Rows** stand in crates/NAME/wrong-bodies.rows, beside the functions that they break:

    fn Book::op as book

    a_conflict_is_missed: ok, conflict
    # answers a conflict as done
        match book.op(ticket, op) { Err(OpRefusal::Conflict) => Ok(Reply::Nothing), answer => answer }

A function, with what its receiver is called; then for each wrong body its name, the clauses that refuse it (`-` for one that has no name), what it does, and
the body, which may call the real function. `use` lines at the head of the file bring names that the function's own file has not.

A row is tried on a wrapper: a free function with the signature and the clauses of the real one, as they stand in its source at that moment, and no proof file.
For each function there is also a wrapper whose body is the call of the real one, which has to be proved. All wrappers of a crate are tried in one check.

**Edits** stand in crates/NAME/must-fail/ and crates/NAME/wrong-bodies/, and exchange texts of that crate. `# of: FUNCTION`, `# by: CLAUSES` and `# what it does`
stand at their head. All edits of a crate are tried in one check, too: each but the first of a function stands in a copy of it, under a name of its own. An
edit of a method, of a function that has proof files, or of more than one function gets no copy, but a check of its own where another one is in its way.

A body is refused where its function is not proved by itself. Behind it stand the goals that were not, `false` where values are known that break one, `at a
limit` where the search gave up, and `NOT BY` the clauses of the row where none of them is among these. The last line counts all.

It stands over the libraries that `rt ci` or `rt all check` left in crates/*/out. Its status is 1 where a body is not refused or cannot be tried, or a right
one is not proved, and 2 where it could not begin.
"""

import argparse
import concurrent.futures
import os
import pathlib
import re
import shutil
import subprocess
import sys
import tempfile

TOP = pathlib.Path(__file__).resolve().parent
DOCUMENT = TOP / "docs/WRONG_BODIES.md"
BEGIN, END = "<!-- counts: written by wrong-bodies.py --document -->", "<!-- counts: end -->"
FOLDERS = ("must-fail", "wrong-bodies")
PARTS = ("src", "specs", "proofs")
FUNCTION = re.compile(r"^( *)(?:pub(?:\([a-z]+\))? )?(?:const )?(?:extern \"C\" )?fn (\w+)", re.M)
ITEM = r"(?:struct|enum|trait|type|const|static|const fn|fn) (\w+)"
VERDICT = re.compile(r"^fn (\S+): (.*)$", re.M)
# What a verdict begins with where nothing is known of the body itself.
UNTOLD = ("could not tell", "no proof: it calls")
# Crates inside which `--rows` tries edits, too: `rt ci` would check the whole crate once more for them, and this script checks their functions.
INSIDE = ("abstract_locks", "lock_profile", "boost", "news", "validator", "wblock_chain", "foshqarel_c")


class Crate:
    """A crate, as its line of crates.txt has it."""

    def __init__(self, name, words, is_static=False):
        self.name, self.words, self.is_static, self.folder = name, words, is_static, TOP / "crates" / name
        self.rows_file = self.folder / "wrong-bodies.rows"

    def edits(self, folders=FOLDERS):
        return sorted((it for part in folders for it in (self.folder / part).glob("*.edit")), key=lambda it: it.name)

    def has_rows(self):
        return self.rows_file.is_file()


def crates():
    """The crates by their names, in the order of crates.txt."""
    found = {}
    for line in (TOP / "crates.txt").read_text().splitlines():
        head, colon, words = line.partition("#")[0].partition(":")
        if colon:
            found[head.split()[0]] = Crate(head.split()[0], words.split(), "staticlib" in head.split())
    return found


def below(crate, known):
    """The repository's libraries below a crate, each once."""
    found = []
    for name in crate.words:
        if name in known:
            found += [it for it in [*below(known[name], known), name] if it not in found]
    return found


def library(name):
    return TOP / "crates" / name / "out" / "rlib" / f"{name}.rlib"


def command(crate, known, kit):
    """The check of the crate, as `rt` makes it."""
    words = [str(kit / "bin/rattle"), "check", "--crate-name", crate.name, "src/lib.rt"]
    own = [it for it in crate.words if it in known]
    for it in ["std", *(it for it in crate.words if it not in known)]:
        words += ["--extern", f"{it}={kit}/rlibs/{it}.rlib"]
    words += ["-L", f"dependency={kit}/rlibs"]
    for it in own:
        words += ["--extern", f"{it}={library(it)}"]
    for it in below(crate, known):
        words += ["-L", f"dependency={library(it).parent}"]
    words += ["--antt-project", f"{kit}/rattle/logic/antt-project.json", "--logic-built", f"{kit}/logic_built"]
    words += ["--crate-type", "staticlib"] if crate.is_static else []
    return [*words, "--links", f"{crate.name}=", "--jobs", "1"]


def run(words, room):
    how = {"cwd": room, "stdin": subprocess.DEVNULL, "stdout": subprocess.PIPE, "stderr": subprocess.STDOUT}
    return subprocess.run(words, text=True, errors="replace", **how)


# ---- Rows ----


class Unmade(Exception):
    """Why no wrapper can be made of a function."""


class Row:
    """A wrong body: its name, what refuses it, what it does, and its lines."""

    def __init__(self, function, receiver, name, clauses):
        self.function, self.receiver, self.name, self.clauses = function, receiver, name, clauses
        self.does, self.body = "", []


class Rows:
    """The rows of a crate, the `use` lines at their head, and what is wrong with their file."""

    def __init__(self, crate):
        self.crate, self.uses, self.all, self.faults = crate, [], [], []
        function = receiver = None
        for number, line in enumerate(crate.rows_file.read_text().split("\n"), 1):
            head = re.fullmatch(r"fn (\S+)(?: as (\w+))?", line)
            begun = re.fullmatch(r"([a-z]\w*): (.+)", line)
            if head:
                function, receiver = head.groups()
            elif re.fullmatch(r"(ghost )?use .*;", line) and not function:
                self.uses.append(line)
            elif begun and function:
                self.all.append(Row(function, receiver, *begun.groups()))
            elif line.startswith("# ") and self.all and not self.all[-1].body:
                self.all[-1].does += (" " if self.all[-1].does else "") + line[2:]
            elif line.startswith("    ") and self.all:
                self.all[-1].body.append(line[4:])
            elif line:
                self.faults.append(f"{crate.name}: BAD: line {number} of its rows is none of a row: {line[:60]}")
        names = [it.name for it in self.all]
        self.faults += [f"{crate.name}/{it.name}: BAD: it has no sentence or no body" for it in self.all if not it.body or not it.does]
        self.faults += [f"{crate.name}/{it}: BAD: it stands twice" for it in sorted({it for it in names if names.count(it) > 1})]


def split_list(text):
    """The parts of a list at its commas, outside brackets."""
    parts, depth, part = [], 0, ""
    for at, mark in enumerate(text):
        depth += mark in "<([{"
        depth -= mark in ")]}" or mark == ">" and text[at - 1] not in "-="
        if mark == "," and depth == 0:
            parts.append(part.strip())
            part = ""
        else:
            part += mark
    return [it for it in [*parts, part.strip()] if it]


def bracketed(text, opening, closing):
    """What stands in the brackets with which a text begins, and what stands behind them."""
    depth = 0
    for at, mark in enumerate(text):
        depth += mark == opening
        depth -= mark == closing and text[at - 1] not in "-="
        if depth == 0:
            return text[1:at], text[at + 1 :]
    raise Unmade(f"no bracket ends {text[:60]}")


def generics_of(text):
    """The generic parameters at the front of a text, and what stands behind them."""
    return bracketed(text, "<", ">") if text.startswith("<") else ("", text)


def one_line(text):
    return re.sub(r"\s+", " ", text).strip()


def used(text, front=""):
    """The names that the tree of a `use` brings, with their paths."""
    text = text.strip()
    if text.endswith("}"):
        path, _, inner = text.partition("{")
        return [it for part in split_list(inner[:-1]) for it in used(part, front + path)]
    path, _, alias = (front + text).partition(" as ")
    path = path.removesuffix("::self")
    return [(alias or path.split("::")[-1], path)]


class Package:
    """The source of a crate: what each module has in scope, and under which path another crate names each item."""

    def __init__(self, crate):
        self.name, self.files, self.scopes, self.public = crate.name, {}, {}, {}
        for path in sorted((crate.folder / "src").rglob("*.rt")):
            module = tuple(it for it in path.relative_to(crate.folder / "src").with_suffix("").parts if it not in ("lib", "mod"))
            self.files[module] = path.read_text()
        for module, text in self.files.items():
            scope = self.scopes[module] = {}
            for tree in re.findall(r"^(?:pub )?use ([^;]*);$", text, re.M):
                scope.update({name: self.absolute(module, path) for name, path in used(one_line(tree))})
            for name in re.findall(rf"^(?:pub(?:\(crate\))? )?{ITEM}", text, re.M):
                scope[name] = ("crate", *module, name)
        self.show((), ())

    def absolute(self, module, path):
        """The path of a `use`, from `crate` where it is of this crate."""
        parts = path.split("::")
        if parts[0] == "self":
            return ("crate", *module, *parts[1:])
        if parts[0] == "super":
            return ("crate", *module[:-1], *parts[1:])
        if (*module, parts[0]) in self.files:
            return ("crate", *module, *parts)
        return tuple(parts)

    def show(self, module, path):
        """Notes what a public module shows, under its path."""
        text = self.files[module]
        for name in re.findall(rf"^pub {ITEM}", text, re.M):
            self.public.setdefault(("crate", *module, name), (self.name, *path, name))
        for tree in re.findall(r"^pub use ([^;]*);$", text, re.M):
            for name, target in used(one_line(tree)):
                for it in (self.absolute(module, target), ("crate", *module, name)):
                    self.public.setdefault(it, (self.name, *path, name))
        for name in re.findall(r"^pub mod (\w+);", text, re.M):
            self.public.setdefault(("crate", *module, name), (self.name, *path, name))
            self.show((*module, name), (*path, name))

    def named(self, path):
        """The path under which another crate names what this one names so, or None."""
        found = self.public.get(path) if path[0] == "crate" else path
        return found and "::".join(found)


def block_at(text, at):
    """The `impl` or trait in which a place stands."""
    return [it for it in re.finditer(r"^(impl|(?:pub(?:\([a-z]+\))? )?trait)\b([^{]*)\{", text, re.M) if it.start() < at][-1]


class Real:
    """A public function, as its source has it."""

    def __init__(self, package, path):
        self.package, self.path = package, path
        *owners, self.name = path.split("::")
        self.owner = owners.pop() if owners and owners[-1][0].isupper() else None
        found = []
        for module, text in package.files.items():
            if not owners or module[-len(owners) :] == tuple(owners):
                heads = re.finditer(rf"^( *)(?:pub )?(?:const )?fn {self.name}\b", text, re.M)
                found += [(module, it) for it in heads if self.is_it(text, it)]
        shown = [it for it in found if it[1][1] or package.named(("crate", *it[0], self.name))]
        if len(shown) != 1:
            raise Unmade(f"{path} stands {len(shown)} times in what {package.name} shows")
        self.module, head = shown[0]
        self.text = package.files[self.module]
        self.read(head)

    def is_it(self, text, head):
        """Whether a head is the function's, as far as it is public."""
        is_public = head[0].lstrip().startswith("pub")
        if not head[1] or not self.owner:
            return not head[1] and not self.owner and is_public
        block = block_at(text, head.start())
        kind = generics_of(one_line(block[2]))[1].strip()
        return len(head[1]) == 4 and re.match(r"\w+", kind)[0] == self.owner and " for " not in kind and is_public == (block[1] == "impl")

    def read(self, head):
        """Reads the signature, the clauses, and what holds of the whole block round them."""
        pad = head[1]
        self.ghosts, self.generics, self.kind, self.wheres, self.told = [], [], None, [], []
        if pad:
            self.read_block(block_at(self.text, head.start()), head.start())
        lines = []
        for line in self.text[head.start() :].split("\n"):
            if line == pad + "{":
                break
            if line.lstrip().startswith("//"):
                continue
            lines.append(line[len(pad) :])
            if line.endswith(";") or line.endswith(" {") and not re.match(r" *(ensures|requires)\b", line):
                lines[-1] = re.sub(r"( \{|;)$", "", lines[-1])
                break
        at = next((i for i, it in enumerate(lines) if re.match(r" *(ensures|requires)\b", it)), len(lines))
        signature = one_line(" ".join(lines[:at]))
        own, rest = generics_of(signature[re.search(rf"\bfn {self.name}", signature).end() :])
        params, rest = bracketed(rest, "(", ")")
        self.result, _, where = (rest + " ").partition(" where ")
        self.generics += split_list(own)
        self.params, self.wheres = [it.removeprefix("mut ") for it in split_list(params)], [*self.wheres, *split_list(where)]
        self.clauses = [it.strip() for it in lines[at:]]
        self.is_method = bool(self.params) and re.search(r"\bself$", self.params[0]) is not None

    def read_block(self, block, at):
        own, rest = generics_of(one_line(block[2]))
        kind, _, where = rest.strip().partition(" where ")
        self.wheres = split_list(where)
        if block[1] == "impl":
            self.generics, self.kind = split_list(own), kind
            self.ghosts = re.findall(r"^    (ghost use .*;)$", self.text[block.end() : at], re.M)
        else:
            # a wrapper of a trait's method is generic, and names what the trait tells by its type
            trait = kind.partition(":")[0].strip()
            self.generics, self.kind = [f"{trait[0]}: {trait}"], trait[0]
            inside = self.text[block.end() :]
            self.told = re.findall(r"^    ghost (\w+):", inside[: re.search(r"^\}", inside, re.M).start()], re.M)

    def has_one_clause(self):
        return sum(it.startswith("ensures") for it in self.clauses) == 1

    def head(self, name, receiver):
        """The signature and the clauses of a free function with the same contract."""
        params, result, clauses, generics = list(self.params), self.result.strip(), "\n".join(f"    {it}" for it in self.clauses), list(self.generics)
        if self.is_method:
            if not receiver:
                raise Unmade(f"{self.path} has a receiver, for which the rows have no name")
            lent, life, is_mut = re.fullmatch(r"(&?)\s*('\w+ )?(mut )?self", params[0]).groups()
            params[0] = f"{receiver}: {lent}{life or ''}{is_mut or ''}{self.kind}"
            lends = sum(len(re.findall(r"&(?!')|'\w+", it)) for it in params)
            if lent and not life and lends > 1 and re.search(r"&(?!')|'_", result):
                # what is lent without a lifetime is lent from the receiver
                params[0] = params[0].replace("&", "&'s ", 1)
                result = re.sub(r"&(?!')", "&'s ", result).replace("'_", "'s")
                generics.append("'s")
        if self.kind:
            owner = re.match(r"\w+", self.kind)[0]
            params = [re.sub(r"\bSelf\b", self.kind, it) for it in params]
            result = re.sub(r"\bSelf\b", self.kind, result)
            clauses = re.sub(r"\bSelf\b(?=\.)", owner, re.sub(r"\bself\b", receiver or "self", clauses))
            for it in self.told:
                clauses = re.sub(rf"(?<![\w.]){it}\b(?! *\{{)", f"{self.kind}.{it}", clauses)
        # lifetimes come first
        generics.sort(key=lambda it: not it.startswith("'"))
        made = f"pub fn {name}{'<' + ', '.join(generics) + '>' if generics else ''}({', '.join(params)}) {result}".rstrip()
        return made + (f"\nwhere\n    {', '.join(self.wheres)}," if self.wheres else ""), clauses

    def call(self, receiver):
        """The call of the real function, which is the right body."""
        names = [it.split(":")[0].strip() for it in self.params]
        if self.is_method:
            return f"{receiver}.{self.name}({', '.join(names[1:])})"
        front = re.match(r"\w+", self.kind)[0] + "::" + self.name if self.kind else self.package.named(("crate", *self.module, self.name))
        return f"{front}({', '.join(names)})"


def merged(ghosts):
    """`ghost use` lines, with one for all names from a place, since the blocks of a file bring some of them again."""
    places, lines = {}, []
    for line in sorted(ghosts):
        it = re.fullmatch(r"ghost use (.*)\.\{(.*)\};", line)
        if it:
            places.setdefault(it[1], []).extend(name.strip() for name in it[2].split(","))
        else:
            lines.append(line)
    return sorted(lines + [f"ghost use {it}.{{{', '.join(dict.fromkeys(names))}}};" for it, names in places.items()])


class Wrappers:
    """The wrappers of a crate's functions that have rows: one with the right body for each, and one for each wrong body."""

    def __init__(self, rows):
        self.rows, self.package = rows, Package(rows.crate)
        self.made, self.modules, self.faults, self.uses = {}, {}, list(rows.faults), {}
        for it in rows.uses:
            self.uses.update({} if it.startswith("ghost ") else used(it[4:-1]))
        self.reals = {}
        for row in rows.all:
            try:
                if row.function not in self.reals:
                    self.reals[row.function] = Real(self.package, row.function)
                    self.add(self.reals[row.function], row, None)
                self.add(self.reals[row.function], row, row)
            except Unmade as why:
                self.faults.append(f"{rows.crate.name}/{row.name}: BAD: {why}")

    def add(self, real, row, wrong):
        """Adds the wrapper of a row, or the one with the right body."""
        module = "_".join(["of", *real.module])
        name = wrong.name if wrong else "right_" + re.sub(r"\W+", "_", row.function).lower()
        signature, clauses = real.head(name, row.receiver)
        body = wrong.body if wrong else [real.call(row.receiver)]
        needed = self.needed(real, signature + "\n" + "\n".join(body), clauses)
        texts, uses, ghosts = self.modules.setdefault(module, ([], set(), set()))
        ghosts.update(re.findall(r"^ghost use .*;$", real.text, re.M), real.ghosts, (it for it in self.rows.uses if it.startswith("ghost ")))
        uses.update(needed)
        lines = [f"/// As `{row.function}`.", *[signature, *([clauses] if clauses else []), "{"], *(f"    {it}" for it in body), "}", ""]
        texts.append("\n".join(lines))
        self.made[f"wrong_bodies::{module}::{name}"] = (row, wrong)

    def needed(self, real, code, clauses):
        """The `use` lines that a wrapper needs, of what the function's own file has in scope and of what the head of the rows brings."""
        found = []
        for name, path in {**self.package.scopes[real.module], **self.uses}.items():
            is_type = name[0].isupper()
            in_code = re.search(rf"(?<![\w:.]){name}\b" if is_type else rf"(?<![\w:.])(?<!fn ){name}(?=\(|::)", code)
            if not in_code and not (is_type and re.search(rf"(?<![\w.]){name}\b", clauses)):
                continue
            target = path if name in self.uses else self.package.named(path)
            if not target and in_code:
                raise Unmade(f"{real.path} names {name}, which {self.package.name} does not show")
            if target and target != name:
                found.append(f"use {target};" if target.split("::")[-1] == name else f"use {target} as {name};")
        return found

    def write(self, room):
        """Writes the wrappers as a crate, and gives their texts."""
        src = pathlib.Path(room, "src")
        src.mkdir(parents=True)
        for module, (texts, uses, ghosts) in self.modules.items():
            (src / f"{module}.rt").write_text("\n".join([f"//! {module}", "", *merged(ghosts), "", *sorted(uses), "", *texts]))
        (src / "lib.rt").write_text("//! Wrong bodies.\n#![tactic(auto)]\n\n" + "".join(f"pub mod {it};\n" for it in sorted(self.modules)))
        return "\n".join(it.read_text() for it in src.iterdir())


def named_clauses(row):
    """The clauses of a row that have a name."""
    return re.findall(r"\w+", row.clauses) if re.fullmatch(r"\w+(, \w+)*", row.clauses) else re.findall(r"`(\w+)`", row.clauses)


def try_rows(crate, known, kit):
    """Tries the rows of a crate, and gives what came of each body: what it is (`right` of a right body that is proved), and a line."""
    made = Wrappers(Rows(crate))
    lines = [("failed", it) for it in made.faults]
    with tempfile.TemporaryDirectory(prefix="wrong-bodies-") as room:
        text = made.write(room)
        words = [it for it in known if re.search(rf"(?<![\w:.]){it}::|\bRattle\.{it}\.", text)]
        words += [it for name in words for it in known[name].words if it not in known]
        missing = [it for name in words if name in known for it in (*below(known[name], known), name) if not library(it).is_dir()]
        if missing:
            return [*lines, ("failed", f"{crate.name}: NOT TRIED: there is no library {missing[0]}")]
        ran = run(command(Crate("wrong_bodies", list(dict.fromkeys(words))), known, kit), room)
    found = dict(VERDICT.findall(ran.stdout))
    if not found or re.search(r"\berror\[[\w-]+\]", ran.stdout):
        return [*lines, ("failed", f"{crate.name}: BAD: {first_error(ran)}")]
    for path, (row, wrong) in made.made.items():
        verdict, name = found.get(path, "there is no verdict"), f"{crate.name}/{row.name}"
        if not wrong and verdict.startswith("proved"):
            lines.append(("right", None))
        elif not wrong:
            lines.append(("failed", f"{crate.name}/{row.function}: THE RIGHT BODY IS NOT PROVED: {why_refused(verdict, ran.stdout)[:300]}"))
        elif verdict.startswith("proved"):
            lines.append(("failed", f"{name}: PROVED"))
        elif verdict.startswith((*UNTOLD, "there is no")):
            lines.append(("failed", f"{name}: NOT TRIED: {verdict[:200]}"))
        else:
            why, told = why_refused(verdict, ran.stdout), named_clauses(row)
            # the goals of a clause that stands alone do not name it
            named = [] if made.reals[row.function].has_one_clause() else told
            goals = [rf"\breturns[\w-]*-clause-{it}\b" for it in named] or [r"\breturns\b(?![\w-]*-clause-)"]
            other = (told or row.clauses == "-") and not any(re.search(it, why) for it in goals)
            lines.append(("refused", f"{name}: refused: {why}{'; NOT BY ' + row.clauses if other else ''}"))
    return lines


# ---- Edits ----

class Edit:
    """An edit: the pairs of texts that it exchanges, and the function in which they all stand, if there is one."""

    def __init__(self, crate, path):
        self.name = f"{crate.name}/{path.name}"
        # what `--list` says of it: `# of: FUNCTION`, `# by: CLAUSES`, `# what it does`
        self.told = [re.sub(r"^(of|by): ", "", it[2:]) for it in path.read_text().split("\n") if it.startswith("# ")]
        self.pairs, self.why, self.function, self.is_free = [], None, None, False
        file = old = None
        for line in path.read_text().split("\n"):
            if line.startswith("file: "):
                file = line[6:].strip()
            elif line.startswith("old: "):
                old = line[5:]
            elif line.startswith("new:") and file and old:
                self.pairs.append((file, old, line[4:].removeprefix(" ")))
        files = {it for it, _, _ in self.pairs}
        if not self.pairs:
            self.why = "it has no 'old:' and 'new:' pair"
        for file in files:
            text = (crate.folder / file).read_text() if (crate.folder / file).is_file() else ""
            for old, new in ((old, new) for of, old, new in self.pairs if of == file):
                # as `rt ci` does it: one after another
                if text.count(old) != 1:
                    self.why = f"an 'old:' text does not stand once in {file}"
                text = text.replace(old, new)
        if not self.why and len(files) == 1:
            self.file = files.pop()
            self.find(crate)

    def find(self, crate):
        """Finds the function in which all pairs stand, and whether a copy of it is proved as it is."""
        text = (crate.folder / self.file).read_text()
        spans = [function_at(text, text.index(old)) for _, old, _ in self.pairs]
        if None in spans or len(set(spans)) != 1:
            return
        self.start, self.end, self.function = spans[0]
        proofs = crate.folder / "proofs"
        is_method = text[self.start] == " "
        self.is_free = not is_method and not any(it.name == self.function for it in proofs.rglob("*") if it.is_dir())

    def apply(self, text):
        for _, old, new in self.pairs:
            text = text.replace(old, new)
        return text


def function_at(text, at):
    """The function in which a place stands: where it begins and ends, and its name."""
    above = [it for it in FUNCTION.finditer(text) if it.start() < at]
    if not above:
        return None
    end = re.compile(f"^{above[-1][1]}}}\n", re.M).search(text, above[-1].end())
    return (above[-1].start(), end.end(), above[-1][2]) if end and at < end.end() else None


class Round:
    """Edits that are tried in one check."""

    def __init__(self, crate):
        self.crate, self.tried, self.texts, self.copies = crate, {}, {}, {}

    def text(self, file):
        return self.texts.get(file) or (self.crate.folder / file).read_text()

    def takes(self, edit):
        """Takes an edit, if none that is there is in its way."""
        if edit.function is None:
            if self.tried:
                return False
            for file in {it for it, _, _ in edit.pairs}:
                self.texts[file] = edit.apply(self.text(file))
            self.tried[None] = edit
            return True
        if None in self.tried:
            return False
        file, place = edit.file, (edit.file, edit.function)
        own = (self.crate.folder / file).read_text()[edit.start : edit.end]
        if place not in self.copies:
            self.texts[file] = self.text(file).replace(own, edit.apply(own))
            self.copies[place] = 0
            self.tried[place] = edit
            return True
        if not edit.is_free:
            return False
        self.copies[place] += 1
        name = f"{edit.function}_wrong_{self.copies[place]}"
        head = FUNCTION.match(own)
        copy = own[: head.start(2)] + name + own[head.end(2) :]
        self.texts[file] = self.text(file) + "\n" + edit.apply(copy)
        self.tried[file, name] = edit
        return True


def rounds_of(crate, edits):
    """The edits in as few rounds as they allow."""
    rounds = []
    for edit in edits:
        for it in rounds:
            if it.takes(edit):
                break
        else:
            rounds.append(Round(crate))
            rounds[-1].takes(edit)
    return rounds


def path_of(crate, file, function, text):
    """The path by which a check names a function of a file of this text."""
    head = re.search(rf"^( *)(?:pub(?:\([a-z]+\))? )?(?:const )?(?:extern \"C\" )?fn {function}\b", text, re.M)
    above = re.findall(r"^impl\b(.*)$", text[: head.start()], re.M) if head[1] else []
    owner = above[-1] if above else ""
    while "<" in owner:
        owner = re.sub(r"<[^<>]*>", "", owner)
    # the check names what a type has of a trait by both: `ViewReads`
    owner = [kind + trait for trait, kind in re.findall(r"(?:(\w+) for )?(\w+) \{", owner)]
    module = [it for it in pathlib.Path(file).with_suffix("").parts[1:] if it not in ("lib", "mod")]
    return "::".join([crate.name, *module, *owner, function])


def check(round, words):
    """Checks a copy of the crate with the round's texts in place of its own: the functions of its edits alone, where each has one."""
    crate = round.crate
    paths = dict.fromkeys(path_of(crate, *place, round.texts[place[0]]) for place in round.tried if place)
    words = [*words, *(it for path in paths for it in ("--only", path))]
    with tempfile.TemporaryDirectory(prefix="wrong-bodies-") as room:
        for part in PARTS:
            if (crate.folder / part).is_dir():
                shutil.copytree(crate.folder / part, f"{room}/{part}")
        for file, text in round.texts.items():
            pathlib.Path(room, file).write_text(text)
        return run(words, room)


def why_refused(verdict, said):
    """The goals of a function that are not proved, with what else the check says of them."""
    goals = re.findall(r"`([\w-]+)`", verdict.partition("did not prove")[2])
    told = []
    for goal in goals:
        note = re.search(rf"^note: \S+ it is not proved .*\(`{re.escape(goal)}`\)(?:; (.*))?$", said, re.M)
        more = note and note[1] or ""
        if "goal is false" in more:
            goal += " (false)"
        elif "limits" in more:
            goal += " (at a limit)"
        told.append(goal)
    return ", ".join(told) or verdict


def judge(round, ran):
    """What the check of a round says of each of its edits, as `try_rows` does; or None if it tried none."""
    found, said = dict(VERDICT.findall(ran.stdout)), ran.stdout
    if not found or re.search(r"\berror\[[\w-]+\]", said):
        return None
    unproved = {it: verdict for it, verdict in found.items() if not verdict.startswith("proved")}
    lines = []
    for place, edit in round.tried.items():
        path = place and path_of(round.crate, *place, round.texts[place[0]])
        why = unproved.get(path) if place else next(iter(unproved.values()), None)
        if why and why.startswith(UNTOLD):
            lines.append(("failed", f"{edit.name}: NOT TRIED: {why[:200]}"))
        elif why:
            lines.append(("refused", f"{edit.name}: refused: {why_refused(why, said)}"))
        elif not place or path in found:
            lines.append(("failed", f"{edit.name}: PROVED"))
        else:
            return None
    return lines


def try_alone(crate, edit, words):
    """Tries one edit, and gives what came of it."""
    round = Round(crate)
    round.takes(edit)
    ran = check(round, words)
    return (judge(round, ran) or [("failed", f"{edit.name}: BAD: {first_error(ran)}")])[0]


def try_edits(crate, paths, words):
    """Tries edits of a crate, and gives what came of each."""
    edits = [Edit(crate, it) for it in paths]
    lines = [("failed", f"{it.name}: BAD: {it.why}") for it in edits if it.why]
    left = [it for it in edits if not it.why]
    for round in rounds_of(crate, left):
        tried = [*round.tried.values()]
        told = judge(round, check(round, words)) if len(tried) > 1 else None
        # an edit that waits for another one is tried alone, and so is each where one of them cannot be read, say
        told = told or [None] * len(tried)
        lines += [line if line and ": NOT TRIED: " not in line[1] else try_alone(crate, edit, words) for edit, line in zip(tried, told)]
    return lines


def first_error(ran):
    errors = re.findall(r"^.*\berror\b.*$", ran.stdout, re.M)
    return errors[0][:300] if errors else f"its check ended with status {ran.returncode}"


# ---- What there is ----


def all_told(known):
    """All wrong bodies by the crates whose functions they break: of each the function, what refuses it, what it does, and its name."""
    found = {}
    for crate in known.values():
        for row in Rows(crate).all if crate.has_rows() else []:
            found.setdefault(crate.name, []).append((f"`{row.function}`", row.clauses, row.does, f"`{row.name}`"))
        for path in crate.edits():
            edit = Edit(crate, path)
            if len(edit.told) != 3:
                raise SystemExit(f"{edit.name} does not say what it is of, what refuses it and what it does")
            of, clauses, does = edit.told
            owner = re.search(r"\w+", of)[0] if crate.name.startswith("edits_") else crate.name
            if owner not in known:
                raise SystemExit(f"{edit.name} does not say of which crate its function is")
            found.setdefault(owner, []).append((of.replace(f"`{owner}::", "`"), clauses, does, f"`{crate.name}/{path.parent.name}/{path.stem}`"))
    return {name: found.get(name, []) for name in known}


def public_functions(crate):
    """The public functions of a crate that have a contract and do something, each with the name of its type. Of definitions, laws and tests none counts."""
    if re.match("spec_|laws_|tests_|edits_|rows|bench|test_support", crate.name) or not (crate.folder / "src/lib.rt").is_file():
        return []
    package, found = Package(crate), []
    for module, text in package.files.items():
        for head in FUNCTION.finditer(text):
            owner = [re.match(r"\w+", generics_of(one_line(block_at(text, head.start())[2]))[1].strip())[0]] if head[1] else []
            try:
                real = Real(package, "::".join([*module, *owner, head[2]]))
            except Unmade:
                continue
            is_shown = not owner or owner[0] in {it[-1] for it in package.public}
            if is_shown and "ensures" in " ".join(real.clauses) and (real.result.strip() or "&mut" in " ".join(real.params)):
                found.append("::".join([*owner, head[2]]))
    return list(dict.fromkeys(found))


def bare(crate, told):
    """Those of a crate's public functions that have no wrong body."""
    paths = [it.split("::") for of, *_ in told for it in re.findall(r"`([\w:]+)", of)]
    named = {"::".join(it[-2:] if it[-2:][0][0].isupper() else it[-1:]) for it in paths}
    return [it for it in public_functions(crate) if it not in named]


def tables(known, names):
    """Of these crates all wrong bodies of their functions, each crate's as a table."""
    lines = []
    for name, told in all_told(known).items():
        without = bare(known[name], told)
        if names and name not in names or not told and not without:
            continue
        lines += [f"### `{name}` ({len(told)})", ""]
        if told:
            lines += ["| Function | Refused by | What the body does | Wrong body |", "|---|---|---|---|"]
        for function, clauses, does, body in told:
            plain = re.fullmatch(r"\w+(, \w+)*", clauses)
            by = "its clause" if clauses == "-" else ", ".join(f"`{it}`" for it in clauses.split(", ")) if plain else clauses
            lines.append(f"| {function} | {by} | {does} | {body} |")
        if without:
            lines += [""] * bool(told) + ["Without one: " + ", ".join(f"`{it}`" for it in without) + "."]
        lines.append("")
    return "\n".join(lines)


def counts(known):
    """How many there are, and of which crates' functions, in the layers of crates.txt."""
    told = all_told(known)
    rows = sum(len(Rows(it).all) for it in known.values() if it.has_rows())
    gate, beside = (sum(len(it.edits([folder])) for it in known.values()) for folder in FOLDERS)
    tried = sum(len(it.edits(["wrong-bodies"])) for it in known.values() if it.name.startswith("edits_") or it.name in INSIDE)
    lines = [f"There are {rows + gate + beside}: {rows} rows and {gate + beside} edits. `rt ci` tries {gate} edits, `--rows` all rows and {tried} edits more.", ""]
    lines += ["| Layer | How many, of each crate |", "|---|---|"]
    layers = re.findall(r"^# (.*)\n((?:(?!#).*\n?)*)", (TOP / "crates.txt").read_text(), re.M)
    for layer, crates_of in layers:
        each = [f"`{it}` {len(told[it])}" for it in re.findall(r"^\w+", crates_of, re.M) if told[it]]
        lines += [f"| {layer} | {', '.join(each)} |"] if each else []
    functions, without = (sum(len(it) for it in found) for found in zip(*((public_functions(it), bare(it, told[it.name])) for it in known.values())))
    lines += ["", f"Of {functions} public functions of the product that have a contract and do something, {without} have none."]
    return "\n".join(lines)


def documented(known):
    """The document with its counts as they have to be."""
    head, _, rest = DOCUMENT.read_text().partition(BEGIN)
    return f"{head}{BEGIN}\n\n{counts(known)}\n\n{END}{rest.partition(END)[2]}"


def wanted(crate, given):
    """Whether the rows of a crate are tried, and which of its edits."""
    if given.all or crate.name in given.names:
        return crate.has_rows(), crate.edits()
    is_wrapper = crate.name.startswith("edits_")
    folders = FOLDERS if is_wrapper and given.wrappers else ["wrong-bodies"] if given.rows and (is_wrapper or crate.name in INSIDE) else []
    return given.rows and crate.has_rows(), crate.edits(folders)


def try_crate(crate, given, known, kit):
    """Tries what was asked for of a crate."""
    rows, edits = wanted(crate, given)
    lines = try_rows(crate, known, kit) if rows else []
    return lines + (try_edits(crate, edits, command(crate, known, kit)) if edits else [])


def main():
    parser = argparse.ArgumentParser(description="Tries wrong bodies, which the prover has to refuse.")
    parser.add_argument("names", nargs="*", metavar="NAME", help="crates whose wrong bodies are tried")
    parser.add_argument("--rows", action="store_true", help="the rows of all crates, and edits that rt ci does not try: on wrappers, and inside seven crates")
    parser.add_argument("--wrappers", action="store_true", help="all edits on wrappers, in the crates edits_*")
    parser.add_argument("--all", action="store_true", help="the rows and edits of all crates")
    parser.add_argument("--list", action="store_true", help="only print them, and the public functions that have none")
    parser.add_argument("--document", action="store_true", help="only write the counts of docs/WRONG_BODIES.md")
    parser.add_argument("--documented", action="store_true", help="only see whether these counts are as written")
    parser.add_argument("--make", metavar="FOLDER", help="only write the wrappers of the rows into FOLDER/NAME")
    parser.add_argument("--jobs", type=int, default=len(os.sched_getaffinity(0)), help="checks at once (as many as processors)")
    given = parser.parse_args()
    known = crates()
    if given.list:
        for name in (it for it in given.names if it not in known):
            parser.error(f"there is no crate {name}")
        print(tables(known, given.names), end="")
        return 0
    if given.document:
        DOCUMENT.write_text(documented(known))
        return 0
    if given.documented:
        if DOCUMENT.read_text() == documented(known):
            return 0
        print("docs/WRONG_BODIES.md is not as ./wrong-bodies.py --document writes it", file=sys.stderr)
        return 1
    kept = [it for it in known.values() if it.edits() or it.has_rows()]
    lacking = [it for it in given.names if it not in [crate.name for crate in kept]]
    chosen = [it for it in kept if any(wanted(it, given))]
    if lacking or not chosen:
        parser.error(f"{lacking[0]} has no wrong bodies" if lacking else "name crates, or say --rows, --wrappers or --all")
    if given.make:
        for crate in (it for it in chosen if it.has_rows()):
            made = Wrappers(Rows(crate))
            made.write(f"{given.make}/{crate.name}")
            print("\n".join([f"{crate.name}: {len(made.made)} wrappers", *made.faults]))
        return 0
    missing = [it for crate in chosen for it in (*below(crate, known), *([crate.name] if wanted(crate, given)[0] else [])) if not library(it).is_dir()]
    kit = shutil.which("rt")
    if missing or not kit:
        print(f"wrong-bodies.py: there is no library {missing[0]}: run rt ci or rt all check first" if kit else "wrong-bodies.py: there is no rt", file=sys.stderr)
        return 2
    kit = pathlib.Path(kit).resolve().parent.parent
    # the longest first, by what stands below
    chosen.sort(key=lambda it: -len(below(it, known)))
    counts = {"refused": 0, "failed": 0, "right": 0}
    with concurrent.futures.ThreadPoolExecutor(given.jobs) as pool:
        for lines in pool.map(lambda it: try_crate(it, given, known, kit), chosen):
            for what, line in lines:
                counts[what] += 1
                if line:
                    print(line, flush=True)
    print(f"{counts['refused']} refused, {counts['failed']} not; {counts['right']} right bodies proved")
    return 1 if counts["failed"] else 0


if __name__ == "__main__":
    sys.exit(main())
