#!/usr/bin/env python3
"""Plays transcripts: the program on real files under bad conditions, its faults and hints, its package, what names a
release, and the commands of README.md (`tour`) and docs/RECIPES.md (`recipes`).

Usage: tests/hostile.py [--bx PATH] [SUBJECT ..]

A subject is a file of tests or tests/program that ends in .t, or one of the two documents, of which all blocks of
commands are one section. Each section is played in a folder of its own, behind what stands in front of the first.
`(wants root)` behind its head is what it needs, root or a tool, and `(by hint)` a function that runs the lines with bx,
once for each where there are several. A line for each section says `ok` or `WRONG`, one for what can't run here
`left out:` and why. The status is 1 where one fails."""
import os
import re
import shlex
import shutil

from common import finish, folder, left_out, say
from shared import ROOT, asked
from transcript import differences, outputs, set_in, steps

FOLDER = ROOT / "tests" / "program"
OTHERS = ["options", "hints", "completions", "package", "release"]
PATHS = [*sorted(FOLDER.glob("*.t")), *(ROOT / "tests" / f"{name}.t" for name in OTHERS)]
SUBJECTS = {path.stem: path for path in PATHS} | {"tour": ROOT / "README.md", "recipes": ROOT / "docs" / "RECIPES.md"}


def sections(path):
    """The sections of a transcript: the head, and the steps."""
    text = path.read_text(encoding="utf-8")
    if path.suffix == ".md":
        lines = "".join(re.findall(r"^```console\n(.*?)^```", text, re.M | re.S)).splitlines()
        return [(f"{path.name} writes what stands there", steps(lines))]
    front, *parts = re.split(r"^# ", text, flags=re.M)
    return [(part.split("\n")[0], steps(set_in(front + part))) for part in parts]


def play(bx, subject, title, tour, by):
    """Plays a section of a transcript, with a function that runs its lines with bx, if there is one."""
    needs = "".join(re.findall(r" \(wants (.*?)\)", title)).split()
    there = {"root": os.getuid() == 0}
    if missing := [need for need in needs if not there.get(need, os.path.ismount(need) or shutil.which(need))]:
        left_out(f"{subject}: {title} (there is no {', '.join(missing)})")
        return
    commands = [f"{by} {shlex.quote(command)}" if by and re.search(r"\bbx ", command) else command
                for command, _ in tour]
    with folder() as path:
        given = outputs(commands, bx, path, (FOLDER / "head.sh").read_text(encoding="utf-8"),
                        SUBJECTS[subject].suffix == ".t", FOLDER=str(FOLDER))
    last = (given[-1:] or [[]])[0][-1:]
    if last and last[0].startswith("left out: "):
        left_out(f"{subject}: {title} ({last[0][10:]})")
        return
    wrong = list(differences(tour, given))
    say(not wrong, f"{subject}: {title}{by and ', ' + by}", "\n".join(["", *wrong]) if wrong else f"{len(tour)} steps")


def main():
    options = asked(__doc__, names=SUBJECTS)
    for subject in options.names:
        for title, tour in sections(SUBJECTS[subject]):
            for by in "".join(re.findall(r" \(by (.*)\)$", title)).split(", "):
                play(options.bx, subject, title, tour, by)
    finish()


if __name__ == "__main__":
    main()
