#!/usr/bin/env bash
# Refuses memory to the program: in each command of the examples' sessions, and in some more over their files, each allocation and each start of a thread in turn, first it
# alone and then it and all behind it (refuse.c, by LD_PRELOAD); and, for as many minutes as asked in all, some that are drawn by chance. A run has to end with status 4,
# with the word `memory` and with all files as they were; or as the command does that is refused nothing, but for a part of a sentence on standard error. It prints a line
# a minute and how many runs came to what, and fails, keeping the files, at the first that ends otherwise. Run it anywhere in the repository:
#
#   bench/refuse.sh [PROGRAM] MINUTES [SEED [EXAMPLE ..]]
source "$(dirname "${BASH_SOURCE[0]}")/common.sh" wblock gcc python3

take_program "$@"
set -- "${rest[@]}"
[[ $# -ge 1 && $1 =~ ^[1-9][0-9]{0,3}$ && ${2:-0} =~ ^[0-9]{1,9}$ ]] || usage "[PROGRAM] MINUTES [SEED [EXAMPLE ..]]"

gcc -O2 -shared -fPIC -o "$work/refuse.so" bench/refuse.c
python3 - "$wblock" "$work" "$1" "${2:-1}" "${@:3}" <<'RUNS' || exit 1
import collections, os, random, shutil, subprocess, sys, tempfile, time
program, work, minutes, seed, *examples = sys.argv[1:]
begun = told = time.monotonic()
end = begun + 60 * int(minutes)
ALL = 2**60
endings = collections.Counter()

def signature(folder):
    return sorted((it.name, it.stat().st_ino, it.stat().st_mtime_ns, it.stat().st_size) for it in os.scandir(folder))

def files(folder):
    return {it.name: open(it.path, "rb").read() for it in os.scandir(folder)}

def put_back(folder, held):
    for name, data in files(folder).items():
        if name not in held:
            os.remove(f"{folder}/{name}")
    for name, data in held.items():
        with open(f"{folder}/{name}", "wb") as file:
            file.write(data)

def run(folder, words, at, count):
    """The status, the output and what is said of a run to which so many allocations are refused, and whether one was."""
    ours, theirs = os.pipe()
    env = {"LD_PRELOAD": f"{work}/refuse.so", "REFUSE_AT": str(at), "REFUSE_COUNT": str(count), "REFUSE_FD": str(theirs)}
    try:
        done = subprocess.run([program, *words], cwd=folder, env=env, pass_fds=[theirs], stdin=subprocess.DEVNULL, capture_output=True, timeout=600)
        status, out, err = done.returncode, done.stdout, done.stderr
    except subprocess.TimeoutExpired:
        status, out, err = "none within ten minutes", b"", b""
    os.close(theirs)
    refused = os.read(ours, 1) != b""
    os.close(ours)
    return status, out, err, refused

class Command:
    """A command, the files before it and what it comes to where nothing is refused."""

    def __init__(self, folder, words):
        self.folder, self.words, self.before = folder, words, files(folder)
        *self.plain, _ = run(folder, words, ALL, 1)
        self.after = files(folder)
        self.reached = 0
        put_back(folder, self.before)
        self.sign = signature(folder)

    def is_accepted(self, now):
        """Whether a block of workers whose order differs from run to run is accepted; with the world that was written, where one was."""
        world, calls, block, world_after = self.words[1:5]
        fuel = self.words[self.words.index("--fuel") + 1]
        said = subprocess.run([program, "validate", world, calls, block, "--fuel", fuel, "--next", f"{work}/again"], cwd=self.folder, capture_output=True)
        return said.returncode == 0 and now.get(world_after) in (self.before.get(world_after), open(f"{work}/again", "rb").read())

    def is_whole(self, now):
        """Whether each file is as the command leaves it."""
        differ = {name for name in {*now, *self.after} if now.get(name) != self.after.get(name)}
        if differ and "--boosted" in self.words and self.words[0] == "mine":
            return differ <= set(self.words[3:5]) and self.is_accepted(now)
        return not differ

    def how(self, status, out, err, refused, changed):
        """How a run ended, where it may end so."""
        if refused and (status, out, err) == (4, b"", b"memory\n") and not changed:
            return "with status 4"
        now = files(self.folder)
        is_ordered = "--boosted" not in self.words or self.words[0] != "mine"
        if status != self.plain[0] or not self.is_whole(now):
            return None
        if not is_ordered or [out, err] == self.plain[1:]:
            return "as without" if refused else "refused nothing"
        # (a sentence for people may lack a part)
        rest = iter(self.plain[2])
        if refused and out == self.plain[1] and err.endswith(b"\n") and all(byte in rest for byte in err):
            return "in fewer words"
        return None

    def refuse(self, at, count):
        """Whether an allocation was refused, of so many from this one on."""
        global told
        status, out, err, refused = run(self.folder, self.words, at, count)
        changed = signature(self.folder) != self.sign
        how = self.how(status, out, err, refused, changed)
        if how is None:
            kept = tempfile.mkdtemp()
            shutil.copytree(self.folder, f"{kept}/after")
            put_back(self.folder, self.before)
            shutil.copytree(self.folder, f"{kept}/before")
            with open(f"{kept}/said", "w") as file:
                file.write(f"wblock {' '.join(self.words)}\nat {at} count {count}\nstatus {status}\n{out.decode()}{err.decode()}")
            sys.exit(f"bench/refuse.sh: {os.path.basename(self.folder)}: wblock {' '.join(self.words)}: {count if count < ALL else 'all'} refused from {at} on: status {status}; its files are in {kept}")
        if changed:
            put_back(self.folder, self.before)
            self.sign = signature(self.folder)
        endings[how] += 1
        if time.monotonic() - told >= 60:
            told = time.monotonic()
            print(f"{sum(endings.values())} runs", flush=True)
        return refused

    def go_on(self):
        put_back(self.folder, self.after)

def more(folder):
    """Commands that no session has, over the files that one left."""
    there = os.listdir(folder)
    modules = [it for it in there if it.endswith(".wasm")][:1]
    for module in modules:
        yield ["text", module, "module.wat", "--unchecked"]
        yield ["show", module, "--json"]
        yield ["check", module, "--heap", "1000000"]
    if {"0.world", "1.calls", "1.block", "1.world"} <= set(there):
        for word in [], ["--boosted"]:
            yield ["mine", "0.world", "1.calls", "more.block", "more.world", "--fuel", "100000", "--workers", "8", *word]
            yield ["validate", "0.world", "1.calls", "more.block", "--fuel", "100000", "--workers", "8", "--next", "again.world", *word]
        yield ["show", "1.world", "--json", "--signed"]
        yield ["show", "1.block", "--calls", "1.calls"]
        yield ["show", "1.block", "--json"]
        yield ["show", "1.block", "--svg", "picture.svg"]
        yield ["debug", "0.world", "1.calls", "0", "step:5", "back:3", "stack", "locals", "globals", "cont", "--block", "1.block"]
        yield ["call", "1.world", "0", "1000", "nobody", "i64:1"]
        yield ["deploy", "1.world", *modules]
        yield ["deploy", "1.world", *modules, "--onto", "1.world"]

commands = []
for session in examples or sorted(it for it in os.listdir("examples") if os.path.exists(f"examples/{it}/session.txt")):
    folder = f"{work}/{session}"
    shutil.copytree(f"examples/{session}", folder)
    lines = [line[2:].split()[1:] for line in open(f"{folder}/session.txt") if line.startswith("$ wblock")]
    for words in [*lines, lambda: more(folder)]:
        for command in [words] if isinstance(words, list) else words():
            command = Command(folder, command)
            for count in 1, ALL:
                at = 1
                while command.refuse(at, count):
                    at += 1
                command.reached = max(command.reached, at)
            commands.append(command)
            command.go_on()
whole = time.monotonic() - begun
draw = random.Random(seed)
drawn = 0
while time.monotonic() < end:
    command = draw.choice(commands)
    put_back(command.folder, command.before)
    command.sign = signature(command.folder)
    for _ in range(20):
        command.refuse(draw.randint(1, command.reached), draw.choice([1, 2, 3, 5, 10, 100]))
        drawn += 1
    command.go_on()
print(f"seed {seed}: {len(commands)} commands with up to {max(it.reached for it in commands) - 1} allocations, each of {sum(it.reached - 1 for it in commands)} refused, alone and with all behind it, in {whole / 60:.0f} minutes, and {drawn} runs by chance: "
      f"{endings['with status 4']} runs end with status 4 and every file as it was, {endings['as without']} as without, {endings['in fewer words']} as without but for a part of a sentence on standard error, {endings['refused nothing']} were refused nothing")
RUNS
took
