#!/usr/bin/env python3
"""Compares documents with sources, and writes the pages that are made of sources.

Usage: tools/docs.py [--write] [--list] [CHECK ..]

Each CHECK is a file of tools/pages, whose head says what it does. Without one all run. --write makes docs/generated and
what HEADLINE.md and CALLING.md quote, --list prints what a check counts. The status is 1 where one failed."""
import importlib
import sys

from shared import asked

CHECKS = ["believe", "quotes", "rooms", "words", "names", "sizes"]


def main():
    options, failed = asked(__doc__, names=CHECKS), False
    for name in options.names:
        wrong, line = importlib.import_module(f"pages.{name}").check(options)
        print("\n".join([*wrong, f"failed: {name}"]) if wrong else f"ok {name}: {line}", flush=True)
        failed = failed or bool(wrong)
    sys.exit(1 if failed else 0)


if __name__ == "__main__":
    main()
