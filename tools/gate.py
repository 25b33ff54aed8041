#!/usr/bin/env python3
"""Runs the gate, or of the crates that are named what `rt ci NAME ..` runs, and says where its processor seconds go.

Usage: tools/gate.py [--write] [NAME ..]
       tools/gate.py --dearest NAME ..

A table of crates: the lines of their code, and the seconds that their proofs, their tests and programs, and their edits took.
What an earlier run passed on this machine costs nothing in this one: with --write the table goes into docs/generated/GATE.md,
where seconds of work that this run did not do stay as they are. It ends with the status of `rt ci`. With --dearest it runs
nothing, and lists the ten functions of each crate whose proofs are largest, by what `rt check` left in the crate's out/."""
import collections
import os
import pathlib
import subprocess
import sys
import time

import shared
import sources

PAGE = "docs/generated/GATE.md"
TOP = """# Where the gate's seconds go

Processor seconds of `rt ci`, by crate, as each was measured last. `tools/gate.py --write` measures and writes this page, `--dearest NAME` lists a
crate's dearest functions, and PROOF-NOTES says what costs.

"""
KINDS = ("proof", "tests", "edits")
TICK = os.sysconf("SC_CLK_TCK")


def fields(process):
    """What the system says of a process behind its name: state, parent, group, session, .."""
    text = (process / "stat").read_text(errors="replace")
    return text[text.rindex(")") + 2:].split()


def share(process, session):
    """The crate that a process of the gate works on, the kind of its work, and its seconds; none of another process."""
    try:
        said = fields(process)
        if int(said[3]) != session:
            return None
        words = (process / "cmdline").read_text(errors="replace").split("\0")
        place = os.readlink(process / "cwd")
    except (OSError, ValueError):
        return None
    if "--crate-name" not in words:
        return None
    kind = "edits" if "rt-edit" in place else "tests" if "--test" in words else "proof"
    return words[words.index("--crate-name") + 1], kind, (int(said[11]) + int(said[12])) / TICK


def watch(gate):
    """The seconds of each crate's kinds of work, looked at until the gate ends."""
    seen = {}
    while gate.poll() is None:
        for process in pathlib.Path("/proc").glob("[0-9]*"):
            if found := share(process, gate.pid):
                seen[process.name, found[0], found[1]] = found[2]
        time.sleep(0.5)
    total = collections.Counter()
    for (_, crate, kind), seconds in seen.items():
        total[crate, kind] += seconds
    return total


def table(total):
    """The rows of the table, the dearest crate first, and below them their sum."""
    names = [name for name in sources.crates() if any((name, kind) in total for kind in KINDS)]
    rows = [(name, sum(path.read_bytes().count(b"\n") for path in sources.code(name)), *(total[name, kind] for kind in KINDS))
            for name in names]
    rows.sort(key=lambda row: -sum(row[2:]))
    rows.append(("all", *(sum(row[at] for row in rows) for at in range(1, 5))))
    lines = ["| Crate | Lines of code | Proof | Tests | Edits | In all |", "|---|---|---|---|---|---|"]
    lines += [f"| {row[0]} | {row[1]:,} | {row[2]:,.0f} | {row[3]:,.0f} | {row[4]:,.0f} | {sum(row[2:]):,.0f} |" for row in rows]
    return "\n".join(lines) + "\n"


def known():
    """The seconds that the page has."""
    page, found = shared.ROOT / PAGE, collections.Counter()
    for line in page.read_text(encoding="utf-8").splitlines() if page.is_file() else []:
        cells = [cell.strip().replace(",", "") for cell in line.strip("|").split("|")]
        if len(cells) == 6 and cells[1].isdigit() and cells[0] != "all":
            found.update({(cells[0], kind): int(cells[at]) for at, kind in enumerate(KINDS, 2)})
    return found


def dearest(name, most=10):
    """The functions of a crate whose proofs are largest, with the megabytes that a check keeps of each."""
    kept = (shared.ROOT / "crates" / name / "out/incremental").rglob("*-proofs.*.Lts.oantt")
    sizes = sorted(((path.stat().st_size, path.name) for path in kept), reverse=True)[:most]
    return [f"{size / 1e6:5.1f}  {file.split('-proofs.')[1].removesuffix('.Lts.oantt').replace('.', '::')}" for size, file in sizes]


def main():
    words = sys.argv[1:]
    if "-h" in words or "--help" in words:
        sys.exit(__doc__)
    names = [word for word in words if word not in ("--write", "--dearest")]
    if "--dearest" in words:
        for name in names:
            print(name, *(dearest(name) or ["nothing is kept: run rt check there first"]), sep="\n")
        return
    gate = subprocess.Popen(["rt", "ci", *names], cwd=shared.ROOT, start_new_session=True)
    total = watch(gate)
    print(table(total), end="")
    if "--write" in words:
        (shared.ROOT / PAGE).write_text(TOP + table(collections.Counter({**known(), **total})), encoding="utf-8")
    sys.exit(gate.returncode)


if __name__ == "__main__":
    main()
