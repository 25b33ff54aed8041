"""What all scripts share: where the repository is, the text of its files, and the words of a script by its line
`Usage:`."""
import argparse
import os
import pathlib
import re
import signal
import sys

ROOT = pathlib.Path(__file__).resolve().parent.parent


def read(name):
    """The text of a file, by its path in the repository."""
    return (ROOT / name).read_text(encoding="utf-8")


def part(name, head):
    """What stands below a head of a text, up to the next one."""
    return re.search(rf"(?ms)^#+ {head}\n\n(.*?)(?=\n+#|\Z)", read(name))[1]


def rows(text):
    """The rows of the tables of a text, in cells between bars."""
    return [[cell.strip() for cell in line.split("|")] for line in text.splitlines() if " |" in line]


def asked(doc, **known):
    """The words that a script got, by the line `Usage: SCRIPT [--flag] [--option VALUE] [NAME ..]` at its head.
    `known` has what an option is that isn't given, of the same type as what is given; and `names` those that may be
    given, all where none are. A script that is stopped puts folders, loop devices and mounts away."""
    signal.signal(signal.SIGTERM, lambda *_: sys.exit(1))
    usage = re.search(r"^Usage: \S+ *(.*)", doc, re.M)[1]
    parser = argparse.ArgumentParser(description=doc.split("\n", maxsplit=1)[0])
    for option, value in re.findall(r"\[(--[\w-]+)( [A-Z]+)?\]", usage):
        default = known.get(option[2:], "./bx" if option == "--bx" else None)
        how = {"default": default, "type": type(default)} if value and default is not None else {}
        parser.add_argument(option, **how if value else {"action": "store_true"})
    if "names" in known:
        metavar = usage.split("[")[-1].split()[0]
        parser.add_argument("names", nargs="*", metavar=metavar, choices=[[], *known["names"]])
    options = parser.parse_args()
    options.bx = os.path.abspath(getattr(options, "bx", "./bx"))
    options.names = getattr(options, "names", []) or list(known.get("names", []))
    return options
