#!/usr/bin/env python3
"""Loses the power under bx, and checks that no image is lost.

Usage: tests/power.py [--bx PATH] [--sessions N] [--seed N] [--jobs N] [--limit N] [NAME ..]

replay: random sessions of reverts, dd, undos and redos on small images run under strace, and their calls are replayed.
Before each sync and after each answer what a loss of power may leave (replay/losses.py), or some N of it (--limit), is
written into files. `bx log` opens them: it has to find the images before the command, after it, or after some of its
steps, and `bx undo` of all changes has to lead back to the first image. Some commands are killed or run with -U; and
now and then the power is lost, and the session goes on with what was found. Then each sync is left out in turn: some
content has to be lost, but for two syncs with no known loss.

cache: the same on a file system in memory, mounted by pyfuse3, as root, with a cache that writes back: what bx writes
reaches the file system at a sync, or when the kernel chooses. After each request that changes it, what it holds is what
a loss of power leaves, also without a name whose folder wasn't synced since. With -U something has to be lost.

Without a name both run. The status is 1 where something is lost, or nothing where it should be."""
import importlib
import os
import random
import re
import shutil
import tempfile

from common import finish, folder, left_out, say
from replay.judge import LOG, REFUSED, Judge, dd, redo, revert, undo
from replay.room import Room
from replay.session import Session
from shared import asked, read, rows

IMAGE = b"ABCDEFGH"
COMMANDS = {"change": revert((2, b"xy")), "other": revert((6, b"z")), "third": revert((0, b"q")), "undo": undo(1),
            "undo of two": undo(2), "redo": redo(1), "log": LOG}


def some_change(rng, image, most, count):
    """A dump of some pieces, or a dd of as many bytes."""
    if rng.randrange(3):
        return revert(*[(rng.randint(0, len(image) + 4), rng.randbytes(rng.randint(1, most)))
                        for _ in range(rng.randint(1, count))])
    return dd(rng.randint(0, len(image) + 4), rng.randbytes(rng.randint(1, most * count)), rng.randrange(2) == 0)


def some_command(rng, state, most, count):
    """A command that is accepted, mostly."""
    changes, undone, how = len(state.stack) - 1, len(state.undone), rng.randrange(8)
    if how < 3 and changes:
        return undo(rng.randint(1, min(3, changes)))
    if how < 5 and undone:
        return redo(rng.randint(1, min(3, undone)))
    return some_change(rng, state.stack[0], most, count) if how < 7 else rng.choice([LOG, REFUSED, undo(0), redo(0)])


def replayed(judge, rng, options):
    """A random session. The first command is a change that isn't killed and waits for the disk: no later one syncs the
    name of an image that it made, and an opening syncs no names."""
    with folder() as path:
        image = None if rng.randrange(5) == 0 else rng.randbytes(rng.randint(0, 40))
        session = Session(judge, Room(judge.bx, path), image, rng, options.limit)
        session.run(some_change(rng, session.state.stack[0], 20, 3))
        for _ in range(rng.randint(5, 8)):
            command, how = some_command(rng, session.state, 20, 3), rng.randrange(8)
            until = rng.choice([None, rng.choice("FIJDRW") + ":" + rng.choice("0122")]) if how < 2 else None
            session.run(command, unsynced=how == 0, until=until)
            if how == 2:
                session.lose()
    return session


def on_mount(judge, rng, options, is_unsynced=False):
    """A random session on images of some pages, on the file system."""
    with folder() as path, options.fuse.mounted(path) as news:
        session = options.fuse.CachedSession(judge, path / "mounted", news, rng.randbytes(rng.randint(0, 20000)))
        session.run(some_change(rng, session.state.stack[0], 200, 45), is_unsynced)
        for _ in range(rng.randint(5, 8)):
            session.run(some_command(rng, session.state, 200, 45), is_unsynced)
    return session


def sessions(judge, options, play, name="session"):
    """Plays random sessions: how many contents are lost."""
    lost = commands = moments = opened = 0
    for number in range(options.sessions):
        session = play(judge, random.Random(f"{options.seed} {number}"), options)
        lost, commands, moments = lost + len(session.lost), commands + session.commands, moments + session.moments
        if "-U" not in name:
            say(not session.lost, f"{name} {number}",
                f"{session.commands} commands, {len(judge.seen) - opened} contents")
            for words, content, found, states in session.lost[:1]:
                print(words, *zip(("image", "journal", "redo file", "its text"), content), found, f"not one of {states}",
                      sep="\n      ")
        opened = len(judge.seen)
    recovered = sum(found.recovered is True for found in judge.seen.values())
    print(f"{options.sessions} of {name}, {commands} commands, {moments} moments, {opened} contents "
          f"({recovered} recovered): {lost or 'none'} lost", flush=True)
    return lost


def is_lost(judge, options, what, before, command, without):
    """Whether the commands of a row of power.txt lose something, with a sync left out or with none."""
    with folder() as path:
        image = None if what == "the name of an image that is made" else IMAGE
        session = Session(judge, Room(judge.bx, path), image, random.Random(options.seed), 4 * options.limit)
        for name, is_unsynced, until in re.findall(r"(\w[\w ]*?)( -U)?(?: until (\S+))?(?:, |$)", before):
            session.run(COMMANDS[name], unsynced=is_unsynced != "", until=until or None)
        session.run(COMMANDS[command], left_out=without)
    return bool(session.lost)


def replay(judge, options):
    """Sessions under strace, and each sync left out: whether something is lost with it alone, but for those known to
    be safe."""
    sessions(judge, options, replayed)
    for *row, sync, wanted in rows(read("tests/power.txt"))[1:]:
        lost_with, lost = (is_lost(judge, options, *row, without) for without in ((), sync.split()))
        say(lost == (wanted == "lost") and not lost_with, f"without the sync of {row[0]}",
            f"{'' if lost else 'nothing '}lost{', and with it too' * lost_with}")


def cache(judge, options):
    """Sessions on the file system, and with -U, where something has to be lost."""
    try:
        options.fuse = importlib.import_module("replay.fuse")
        with folder() as path, options.fuse.mounted(path):
            pass
    except (ImportError, OSError) as error:
        left_out(f"losses of power under a file system of its own ({error})")
        return
    sessions(judge, options, on_mount, "session on the page cache")
    say(sessions(judge, options, lambda *words: on_mount(*words, True), "session with -U"), "with -U something is lost")


CHECKS = {"replay": replay, "cache": cache}


def main():
    options = asked(__doc__, sessions=30, seed=1, limit=20, jobs=os.cpu_count(), names=CHECKS)
    for name in options.names:
        if name != "cache" and not shutil.which("strace"):
            left_out(f"{name} (strace is not installed)")
            continue
        with tempfile.TemporaryDirectory() as path:
            CHECKS[name](Judge(options.bx, options.jobs, path), options)
    finish()


if __name__ == "__main__":
    main()
