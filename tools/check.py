#!/usr/bin/env python3
"""Runs every check that needs no proof, and says of each whether it is ok, failed, or was skipped and why.

Usage: tools/check.py [--bx PATH] [--list] [NAME ..]

Each NAME is a check of checks.txt; without one all run. A check is skipped where a tool that it needs isn't installed.
What a check left out by itself stands below its line, and of one that failed each line that doesn't begin with `ok`.
The status is 1 where one failed."""
import collections
import os
import shutil
import subprocess
import sys
import time

from shared import ROOT, asked, read, rows

SUBJECTS = sorted(path.stem for path in (ROOT / "tests" / "program").glob("*.t"))
# the name of each check, its words and what it needs
CHECKS = {name.replace("SUBJECT", subject): (words.replace("SUBJECT", subject), needs)
          for name, words, needs in rows(read("tools/checks.txt")) for subject in (SUBJECTS if "SUBJECT" in name else [""])}


def run(name, words, needs, bx):
    """Runs a check and prints its line: ok, failed or skipped."""
    begun, front = time.monotonic(), ["fakeroot"] if "fakeroot" in needs and os.getuid() else []
    missing = [tool for tool in needs.split() if not shutil.which(tool) and (tool != "fakeroot" or front)]
    if missing:
        print(f"skipped  {name}: not installed: {', '.join(missing)}", flush=True)
        return "skipped"
    done = subprocess.run([*front, *words.replace("BX", bx).split()], cwd=ROOT, stdin=subprocess.DEVNULL, check=False,
                          stdout=subprocess.PIPE, stderr=subprocess.STDOUT, text=True, errors="replace")
    lines, result = done.stdout.splitlines(), "failed" if done.returncode else "ok"
    print(f"{result:7}  {name} ({time.monotonic() - begun:.0f} s): {lines[-1] if lines else 'no output'}")
    shown = [line for line in lines if line.startswith("left out: ") or done.returncode and not line.startswith("ok ")]
    print("".join(f"         {line}\n" for line in shown), end="", flush=True)
    return result


def main():
    options = asked(__doc__, names=CHECKS)
    if options.list:
        print("\n".join(CHECKS))
        return
    if not os.access(options.bx, os.X_OK):
        sys.exit(f"no program at {options.bx}: make builds it, and --bx names another")
    results = collections.Counter(run(name, *CHECKS[name], options.bx) for name in options.names)
    counts = ", ".join(f"{results[result]} {result}" for result in ("ok", "failed", "skipped"))
    print(f"{results.total()} checks: {counts}")
    sys.exit(1 if results["failed"] else 0)


if __name__ == "__main__":
    main()
