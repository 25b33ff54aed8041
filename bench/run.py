#!/usr/bin/env python3
"""Times bx beside the real tools, all in one run: the least of several times, and the memory that each took.

Usage: bench/run.py [--bx PATH] [--before PATH] [--rounds N] [--mib N] [--word WORD]

With --before it is timed beside a build of an earlier tree in place of the tools, in turn. The inputs have 64 MiB
(--mib), half of it where the real tool is slow, and 16 times as much for dd to a stream. --word leaves out all rows
without this word. What isn't installed is left out, and so is memory without a program `time`. The rows of
bench/rows.txt go to standard output, and to bench/out/run.tsv, from which bench/plot.py writes docs/SPEED.md. Run by
hand, no part of the gate."""
import collections
import os
import pathlib
import re
import shutil
import subprocess
import sys
import tempfile
import time

sys.path.insert(0, str(pathlib.Path(__file__).resolve().parent.parent / "tools"))

from shared import ROOT, asked, read, rows  # pylint: disable=wrong-import-position

# the group and the cells of rows.txt
Row = collections.namedtuple("Row", "group goal ours real name before made", defaults=("", "", ""))
FILES = r"(if=)?\b(long|prose|random|less|few|zeros|text)\b"


def table():
    """The rows of bench/rows.txt, and the commands that make the inputs."""
    parts = re.split(r"(?m)^# (.*)\n", read("bench/rows.txt"))
    groups = dict(zip(parts[1::2], parts[2::2]))
    functions, inputs = (groups.pop(name) for name in ("before", "inputs"))
    found = [Row(group, *cells) for group, text in groups.items() for cells in rows(text)]
    found = [row._replace(real=row.ours if row.real == "=" else row.real, before=functions + row.before) for row in found]
    return found, inputs


def shell(words, out=subprocess.DEVNULL):
    """Runs a line of the shell; a program whose reader goes away may fail."""
    return subprocess.run(words, shell=True, stdin=subprocess.DEVNULL, stdout=out, stderr=subprocess.DEVNULL,
                          check=False, text=True).stdout


def best(rounds, commands, before=""):
    """The least microseconds of some rounds of each command, in turn."""
    taken = [[] for _ in commands]
    for number in [*range(len(commands))] * rounds:
        shell(before)
        begun = time.perf_counter_ns()
        shell(f"exec {commands[number]}")
        taken[number].append((time.perf_counter_ns() - begun) // 1000)
    return list(map(min, taken))


def memory(words, before):
    """The most KiB that a command had, where there is a program `time`."""
    if not shutil.which("time"):
        return "-"
    shell(before)
    shell(f"exec {shutil.which('time')} -q -f %M -o took {words}")
    return pathlib.Path("took").read_text(encoding="ascii").split()[-1]


def same(row, commands):
    """Whether both write the same."""
    if row.made == "-":
        return "-"
    for words, name in zip(commands, ("one", "other")):
        shell(row.before)
        shell(f"{words} > {name}" if not row.made else f"{words}; cp {row.made} {name}")
    return "no" if subprocess.run(["cmp", "-s", "one", "other"], check=False).returncode else "yes"


def named(words):
    """A command without its inputs, of which the name tells what is in them."""
    kind = re.search(r"\b(few|zeros|text)\b", words)
    bare = " ".join(re.sub(FILES, "", re.sub(r"'\[.*'", "[ -~]{4,}", words)).split())
    return bare + (f", {kind[1].replace('few', 'zeros')}" if kind else "")


def is_there(words):
    """Whether a tool is installed, and busybox has the applet."""
    tool, applet, *_ = words.split() + [""]
    applets = shell("busybox --list", subprocess.PIPE).split() if tool == "busybox" else [applet]
    return shutil.which(tool) and applet in applets


# what a row has: microseconds of both and of cat, KiB of both, and whether they wrote the same
FIELDS = ["group", "name", "beside", "goal", "ours", "there", "ratio", "cat", "our_memory", "their_memory", "same"]


def tell(run, group, name, beside, goal, ours, there, *more):
    """Writes a row."""
    row = [group, name, beside, goal, ours, there, f"{there / max(ours, 1):.4f}", *more, *["-"] * (4 - len(more))]
    print(*row, sep="\t", file=run, flush=True)
    print(" | ".join(f"{field} {value}" for field, value in zip(FIELDS, row) if value != "-"), flush=True)


def time_row(row, options, run):
    """Times a row."""
    real = row.real if not options.before else f"{options.before} {row.ours}"
    name = row.name or named(row.ours)
    if not is_there(real) or options.word not in name:
        return
    commands = [f"{options.bx} {row.ours}", real]
    is_same = same(row, commands)
    ours, there, *cat = best(options.rounds, commands + ["cat one"] * (row.group == "dumps"), row.before)
    used = [memory(words, row.before) for words in commands]
    tell(run, row.group, name, "before" if options.before else named(row.real), row.goal, ours, there, *(cat or ["-"]),
         *used, is_same)


def told_of(options, big, mid, stream):
    """The lines at the head: the machine, the inputs, and the versions of all tools."""
    model = re.search(r"^model name[^:]*: (.*)$", pathlib.Path("/proc/cpuinfo").read_text(encoding="utf-8"), re.M)
    yield f"{model[1] if model else 'a processor'}, {os.cpu_count()} processors, Linux {os.uname().release}"
    yield (f"inputs of {big} MiB, of {mid} MiB for od, hexdump, busybox and changes, and of {stream} MiB for copies to "
           f"a stream; the least of {options.rounds}")
    for tool in (options.bx, "xxd", "od", "hexdump", "strings", "rg", "busybox"):
        # busybox takes a first word for an applet, and tells its version without one
        words = tool if tool == "busybox" else f"{tool} --version"
        said = shell(f"{words} 2>&1", subprocess.PIPE) if shutil.which(tool) else ""
        yield from said.splitlines()[:1]


def main():
    options = asked(__doc__, rounds=3, mib=64, word="")
    options.before = options.before and os.path.abspath(options.before)
    big, mid, stream = options.mib, max(options.mib // 2, 1), options.mib * 16
    os.environ.update(LC_ALL="C", BX=options.bx)
    to = ROOT / "bench" / "out" / ("before.tsv" if options.before else "run.tsv")
    to.parent.mkdir(exist_ok=True)
    with tempfile.TemporaryDirectory() as work, open(to, "w", encoding="utf-8") as run:
        os.chdir(work)
        timed, inputs = table()
        shell(f"stream={stream} big={big} mid={mid}\n{inputs}")
        run.writelines(f"# {line}\n" for line in told_of(options, big, mid, stream))
        print(*FIELDS, sep="\t", file=run)
        for row in timed:
            time_row(row, options, run)
        os.chdir("/")


if __name__ == "__main__":
    main()
