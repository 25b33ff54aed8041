#!/usr/bin/env python3
"""Plays one file of cases, or one case, alone.

Usage: tools/case.py NAME

NAME is a file of crates/test_cases/data or of crates/test_worlds/data, with or without its ending, or what stands
behind `case: ` in one. test_cases gets this file or case alone. test_worlds goes by the first cases of its files, so it
is run whole, and its lines on NAME are shown. A program that was built of the code as it is plays; else `rt try` makes
one first, unproved, which takes minutes. The status is 1 where a play isn't right, or nothing has the name."""
import pathlib
import re
import shutil
import subprocess
import sys
import tempfile

from shared import ROOT, read

PATHS = [*sorted((ROOT / "crates" / "test_cases").glob("data/*.cases")),
         *sorted((ROOT / "crates" / "test_worlds").glob("data/*.cases"))]
# how long the program may take, in seconds: it runs with checks
LIMIT = "1800"


def blocks(path):
    """What stands in front of the cases of a file, and each case."""
    front, *cases = re.split(r"(?m)^(?=case: )", read(path))
    return front, cases


def named(case):
    """The name of a case."""
    return case.split("\n", maxsplit=1)[0].removeprefix("case: ")


def chosen(name):
    """The files that have the name, or a case of it, each with the cases that are played."""
    whole = {path: blocks(path)[1] for path in PATHS if name in (path.name, path.stem)}
    some = {path: [case for case in blocks(path)[1] if named(case) == name] for path in PATHS}
    return whole or {path: cases for path, cases in some.items() if cases}


def is_built(program):
    """Whether a program is there that is newer than all code."""
    changed = max(source.stat().st_mtime for source in (ROOT / "crates").glob("*/src/**/*.rt"))
    return program.exists() and program.stat().st_mtime > changed


def play(path, cases):
    """Plays some cases of a file. Tells whether all are right."""
    crate = path.parent.parent
    with tempfile.TemporaryDirectory() as name:
        folder = pathlib.Path(name)
        if crate.name == "test_worlds":
            shutil.copytree(path.parent, folder, dirs_exist_ok=True)
        else:
            (folder / path.name).write_text(blocks(path)[0] + "".join(cases), encoding="utf-8")
        data = [word for file in sorted(folder.iterdir()) for word in ("--data", f"{file.name}={file}")]
        program = crate / "out" / crate.name
        words, where = ([program], folder) if is_built(program) else (["rt", "try", "--seconds", LIMIT, *data], crate)
        run = subprocess.run(words, cwd=where, stdin=subprocess.DEVNULL, stdout=subprocess.PIPE, text=True, check=False)
    names = tuple(map(named, cases))
    lines = [line for line in run.stdout.splitlines() if crate.name == "test_cases" or line.startswith(names)]
    print("\n".join([f"{crate.name}, {path.name}:", *lines]), flush=True)
    return run.returncode == 0


def main():
    name = " ".join(sys.argv[1:])
    files = chosen(name)
    if not files:
        near = [f"  {named(case)} ({path.name})" for path in PATHS for case in blocks(path)[1] if name in named(case)]
        sys.exit("\n".join([f"no file of cases and no case has the name '{name}'", *(near[:20] if name else [])]))
    sys.exit(not all([play(path, cases) for path, cases in files.items()]))


if __name__ == "__main__":
    main()
