"""What the tests of the program share: a folder to work in, a line for each case, and the end."""
import collections
import contextlib
import os
import pathlib
import sys
import tempfile

sys.path.insert(0, str(pathlib.Path(__file__).resolve().parent.parent / "tools"))

counts = collections.Counter()


def say(well, name, detail=""):
    """The line of a case."""
    counts[bool(well)] += 1
    print(f"{'ok   ' if well else 'WRONG'} {name}{f' ({detail})' if detail else ''}", flush=True)


def left_out(why):
    print(f"left out: {why}", flush=True)


@contextlib.contextmanager
def folder():
    """A folder that is made, entered and removed."""
    with tempfile.TemporaryDirectory() as made, contextlib.chdir(made):
        os.chmod(made, 0o755)
        yield pathlib.Path(made)


def finish():
    """The last line, and the end."""
    print(f"{counts[True]} passed, {counts[False]} failed")
    sys.exit(1 if counts[False] else 0)
