#!/usr/bin/env python3
"""Proves the program and the crates that it stands on; of one that is proved already, that it is takes seconds.

Usage: tools/prove.py [--most N]

Crates that don't stand on one another are proved side by side, by as many processes in all as there are processors, and
4 GiB of free memory for each, or N at most. `rt` locks a crate and those below it while it proves, so each is proved in
a copy of its own, with the libraries below it as they were built, and what is built goes into `out/` here. It writes
what `rt` says of each crate, and exits 1 where one is not proved."""
import concurrent.futures
import graphlib
import os
import pathlib
import shutil
import subprocess
import sys
import tempfile

import shared
import sources

EACH = 4 * 2**20  # KiB of memory
PROGRAM = "bx"


def room():
    """How many processes may prove at once."""
    with open("/proc/meminfo", encoding="ascii") as lines:
        free = next(int(line.split()[1]) for line in lines if line.startswith("MemAvailable:"))
    return max(1, min(len(os.sched_getaffinity(0)), free // EACH))


def carry(folder, to):
    """Puts a folder in the place of another one."""
    if folder.is_dir():
        shutil.rmtree(to, ignore_errors=True)
        shutil.copytree(folder, to)


def prove(name, below, top, jobs):
    """Builds a library in a copy of it and of those below, and brings what is built here. Answers the status and what
    `rt` said."""
    here, there = (root / "crates" / name / "out" for root in (shared.ROOT, top))
    sources.copy([*below, name], top)
    carry(here / "incremental", there / "incremental")
    done = subprocess.run(["rt", "lib", "--jobs", str(jobs)], cwd=there.parent, stdin=subprocess.DEVNULL,
                          stdout=subprocess.PIPE, stderr=subprocess.STDOUT, text=True, errors="replace", check=False)
    for part in ("rlib", "incremental"):
        carry(there / part, here / part)
    shutil.rmtree(top, ignore_errors=True)
    return done.returncode, done.stdout


def chains(listed, names):
    """How many lines stand on the longest chain from each crate up to the program."""
    lines = {name: sum(path.read_bytes().count(b"\n") for path in sources.code(name)) for name in names}
    found = {}
    for name in reversed(names):
        found[name] = lines[name] + max([found[other] for other in names if name in listed[other]], default=0)
    return found


def prove_all(listed, names, most, place):
    """Proves the libraries, each once those below it are built, first those with the longest chain above them. Answers
    whether all are."""
    order, ready, running, ahead = graphlib.TopologicalSorter({it: listed[it] for it in names}), [], {}, chains(listed, names)
    order.prepare()
    with concurrent.futures.ThreadPoolExecutor(most) as pool:
        while order.is_active():
            ready = sorted([*ready, *order.get_ready()], key=lambda it: -ahead[it])
            while ready and (idle := most - sum(jobs for _, jobs in running.values())):
                jobs, name = max(1, idle // len(ready)), ready.pop(0)
                top = pathlib.Path(tempfile.mkdtemp(prefix=f"{name}-", dir=place))
                running[pool.submit(prove, name, sources.below(listed, name), top, jobs)] = name, jobs
            for done in concurrent.futures.wait(running, return_when=concurrent.futures.FIRST_COMPLETED).done:
                name, _ = running.pop(done)
                status, said = done.result()
                print(f"== {name}\n{said}", end="", flush=True)
                if status:
                    return False
                order.done(name)
    return True


def main():
    most, listed = shared.asked(__doc__, most=0).most or room(), sources.crates()
    with tempfile.TemporaryDirectory(prefix="bx-prove-") as place:
        if not prove_all(listed, sources.below(listed, PROGRAM), most, place):
            sys.exit(1)
    done = subprocess.run(["rt", "check", "--jobs", str(most)], cwd=shared.ROOT / "crates" / PROGRAM, check=False)
    sys.exit(1 if done.returncode else 0)


if __name__ == "__main__":
    main()
