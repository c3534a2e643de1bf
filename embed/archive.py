#!/usr/bin/env python3
"""Makes crates/foshqarel_c/out/libfoshqarel_c.a over the libraries that `rt ci` or `rt all check` left in crates/*/out.

`rt ci` proves the crate and keeps no archive of it. So this proves it once more, as `rt ci` does, and compiles what was proved. Its status is 1 where the crate is not
proved or not compiled, and 2 where there is no library or no kit.
"""

import importlib.util
import os
import pathlib
import shutil
import sys

TOP = pathlib.Path(__file__).resolve().parent.parent
NAME = "foshqarel_c"


def rules():
    """wrong-bodies.py, which knows how `rt` calls the checker."""
    spec = importlib.util.spec_from_file_location("wrong_bodies", TOP / "wrong-bodies.py")
    module = importlib.util.module_from_spec(spec)
    sys.dont_write_bytecode = True
    spec.loader.exec_module(module)
    return module


def main():
    of = rules()
    known = of.crates()
    crate = known[NAME]
    missing = [it for it in of.below(crate, known) if not of.library(it).is_dir()]
    rt = shutil.which("rt")
    if missing or not rt:
        print(f"archive.py: there is no library {missing[0]}: run rt ci first" if rt else "archive.py: there is no rt", file=sys.stderr)
        return 2
    kit = pathlib.Path(rt).resolve().parent.parent
    archive = crate.folder / "out" / f"lib{NAME}.a"
    archive.parent.mkdir(exist_ok=True)
    archive.unlink(missing_ok=True)
    words = of.command(crate, known, kit)
    words[1], words[words.index("--jobs") + 1] = "build", str(len(os.sched_getaffinity(0)))
    ran = of.run([*words, "--toolchain", str(kit / "toolchain"), "-o", str(archive)], crate.folder)
    if ran.returncode or not archive.is_file():
        print(ran.stdout, file=sys.stderr)
        return 1
    return 0


if __name__ == "__main__":
    sys.exit(main())
