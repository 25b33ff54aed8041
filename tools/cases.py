#!/usr/bin/env python3
"""Writes the case files of crates/test_cases/data that are recorded or drawn, or compares a program with real tools.

Usage: tools/cases.py [--compare] [--bx PATH] [--out FOLDER] [--seed N] [KIND ..]

Each KIND is a file of tools/record, whose head says what it writes. Without one all are written. The same seed and
tools give the same files. With --compare nothing is written: the words, the transfers onto images and their undos, and
the patches of pairs (diff, patch, -n of revert, dd and patch, show -p) are run by bx, beside xxd, od, hexdump, strings, dd,
and cmp -l with patches that are made here, and each difference is printed. The status is 1 where there is one."""
import importlib
import sys

from shared import ROOT, asked


def main():
    options = asked(__doc__, out=str(ROOT / "crates" / "test_cases" / "data"), seed=1,
                    names=["words", "patches", "bounds", "lists"])
    kinds = [name for name in options.names if not options.compare or name in ("words", "patches")]
    sys.exit(any([importlib.import_module(f"record.{kind}").run(options) for kind in kinds]))


if __name__ == "__main__":
    main()
