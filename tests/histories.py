#!/usr/bin/env python3
"""Plays random histories of an image with commands that are killed: the image is never refused, and is what a model says.

Usage: tests/histories.py [--bx PATH] [--histories N] [--seed N] [--jobs N]

Changes (revert, dd, patch), undos and redos of several, --fresh and forget go one after another, on images of no byte up to 1 TiB. Some
are killed under strace before a random call, and so are some recoveries. The next command answers 0 (of `forget` and `--fresh` also 48,
with all files as they were), and finds the image, how many changes stand and how many are undone as they were before the stopped
command, behind it, or behind some of its steps. In the end all is undone, step by step.

Behind some stops another image stands there, or none. What is unfinished is judged by a judge of its own, as docs/FORMATS.md says it
("Behind a stop"): where that says it is another image, no byte of it is another one but what is asked for.

The status is 1 where one fails."""
import collections
import concurrent.futures
import hashlib
import os
import random
import re
import shutil
import types

from common import finish, left_out, say
from replay.judge import State, moved
from shared import asked
from stops import CHANGED, NEXT, Room, beside, builds, is_unfinished, number_in, on_other_disk, read_bytes

TIB = 1 << 40
LENGTHS = (0, 1, 31, 32, 33, 64, 400, 4095, 4096, 70000, 131071, 131072, 200000, TIB)
CALLS = ("pwrite64", "pwrite64", "ftruncate", "fsync", "fsync", "openat", "unlink", "flock")
TEXTS = ("img.bxj", "img.bxj.redo")
# What comes next on another image, and on another disk.
AFTER = [*NEXT, "show img"]
ELSEWHERE = "undo -k 0 -J img.bxj other"
# The length, and the bytes that aren't 0, by their addresses.
Image = collections.namedtuple("Image", "length data")
# Words, what is read, and the states before a command, behind each of its steps, and at its end.
Command = collections.namedtuple("Command", "words given steps")


def written(image, at, piece):
    """An image with bytes at a place."""
    data = {**image.data}
    for i, byte in enumerate(piece, at):
        data.pop(i, None)
        data.update({i: byte} if byte else {})
    return Image(max(image.length, at + len(piece)), data)


def sized(image, length):
    """An image of another length."""
    return Image(length, {at: byte for at, byte in image.data.items() if at < length} if length < image.length else image.data)


def read_image(path):
    """The image in a file, of which only what isn't a hole is read."""
    data, at = {}, 0
    with open(path, "rb") as file:
        length = os.fstat(file.fileno()).st_size
        while at < length:
            try:
                at = os.lseek(file.fileno(), at, os.SEEK_DATA)
            except OSError:
                break
            end = os.lseek(file.fileno(), at, os.SEEK_HOLE)
            data.update((at + i, byte) for i, byte in enumerate(os.pread(file.fileno(), end - at, at)) if byte)
            at = end
    return Image(length, data)


def changed(words, given, base, pieces):
    """A change of the length, where `base` isn't None, and of pieces; with --fresh the history is dropped before."""
    def steps(state):
        image = state.stack[0] if base is None else sized(state.stack[0], base)
        for at, piece in pieces:
            image = written(image, at, piece)
        dropped = [State(state.stack[:1], ())] if "--fresh" in words else []
        return [state, *dropped, State((image, *(dropped or [state])[0].stack), ())]
    return Command(words, given, steps)


def place(rng, length):
    """An address in an image, or a few bytes behind it."""
    return rng.choice([rng.randrange(min(length, 4096) + 1), max(length - rng.randint(0, 40), 0), length + rng.randint(0, 20),
                       rng.randrange(length + 1)])


def revert(rng, length, fresh=False):
    pieces = [(place(rng, length), rng.randbytes(rng.randint(1, 60))) for _ in range(rng.randint(1, 3))]
    dump = "".join(f"{at:x}: {piece.hex()}\n" for at, piece in pieces)
    return changed(f"revert{' --fresh' * fresh} img", dump.encode(), None, pieces)


def dd(rng, length):
    """A dd that keeps the length, or cuts off no more than 5,000 bytes."""
    at, piece = min(place(rng, length), TIB - 1), rng.randbytes(rng.randint(1, 90))
    keep = rng.randrange(2) or length - at > 5000
    return changed(f"dd of=img obs=1 seek={at}{' conv=notrunc' * keep}", piece, None if keep else at, [(at, piece)])


def patch(rng, image):
    """A patch of some bytes, which may append some."""
    at = min(place(rng, image.length), image.length)
    old = bytes(image.data.get(i, 0) for i in range(at, min(at + 9, image.length)))
    new = rng.randbytes(9 if rng.randrange(2) else len(old) or 1)
    lines = [f"length {image.length} to {max(image.length, at + len(new))}", *([f"-{at:x}: {old.hex()}"] if old else []), f"+{at:x}: {new.hex()}"]
    return changed("patch img", "\n".join([*lines, "end", ""]).encode(), None, [(at, new)])


def steps_back(count):
    return Command(f"undo -k {count} img", b"", lambda s: [State(*moved(*s, i)) for i in range(count + 1)])


def steps_again(count):
    return Command(f"redo -k {count} img", b"", lambda s: [State(*moved(*s[::-1], i)[::-1]) for i in range(count + 1)])


FORGET = Command("forget img", b"", lambda s: [s, State(s.stack[:1], ())])
NOTHING = steps_back(0)


def drawn(rng, state):
    """A command that is accepted on a state."""
    changes, undone, length, how = len(state.stack) - 1, len(state.undone), state.stack[0].length, rng.randrange(20)
    if how < 6 and changes:
        return steps_back(rng.randint(1, min(4, changes)))
    if how < 11 and undone:
        return steps_again(rng.randint(1, min(4, undone)))
    if how == 11 and changes:
        return FORGET
    return patch(rng, state.stack[0]) if how > 17 else dd(rng, length) if how > 14 else revert(rng, length, how == 12)


def judged(left):
    """What the image is to a command behind a stop, by the third text: other, same or untold."""
    found = re.fullmatch(rb"image3 .{8} .{8} (.{16}) .{32} .{32} .{8} (.{16}) (.{16}) (.*)\n", left.get("img.bxj.image", b""))
    if left.get("img") is None or not found:
        return "other" if left.get("img") is None else "untold"
    (length, least, most), marks = (int(it, 16) for it in found.groups()[:3]), found[4].decode().split()
    entry = left["img.bxj"].rpartition(b"\nchange2 ")[2].decode(errors="replace").split("\n")
    cut, image, verdict = int(entry[0].split()[-1], 16), left["img"], "untold"
    saved = [(int(at, 16), len(re.sub(r"\s", "", row[:40])) // 2) for at, _, row in (line.partition(": ") for line in entry[1:-2])]
    if not least <= len(image) <= most:
        return "other"
    size = 4096 if length >= 131072 else (length + 31) // 32
    room = length - size
    for i, mark in enumerate(marks):
        at = room // 31 * i + room % 31 * i // 31
        end = at + size
        if mark[0] == "-" or end > min(cut, len(image)) or any(begin < end and at < begin + count for begin, count in saved):
            continue
        if hashlib.md5(image[at:end]).hexdigest()[:8] != mark:
            return "other"
        verdict = "same"
    return verdict


class History:
    """An image, what a model says of it, and what goes wrong."""

    def __init__(self, room, other, rng, length):
        self.room, self.other, self.rng, self.wrong, self.stops, self.others = room, other, rng, [], 0, 0
        self.verdicts = collections.Counter()
        with open(f"{room.path}/img", "wb") as file:
            file.write(rng.randbytes(length if length < TIB else 3000))
            file.truncate(length)
        # those that the files may be in: they differ where a change was made on one of two images, and wrote over what differed
        self.states = [State((read_image(f"{room.path}/img"),), ())]

    def bytes_of(self, image):
        return bytes(image.data.get(at, 0) for at in range(image.length))

    def image(self):
        return self.states[0].stack[0]

    def find(self, states, words):
        """Goes on with those of these states that the files are in."""
        texts = [f"{self.room.path}/{name}" for name in TEXTS]
        counts = [number_in(read_bytes(text)) if os.path.exists(text) else 0 for text in texts]
        image = read_image(f"{self.room.path}/img")
        fits = [it for it in states if (it.stack[0], len(it.stack) - 1, len(it.undone)) == (image, *counts)]
        if not fits:
            self.wrong.append(f"{words}: {counts[0]} changes, {counts[1]} undone, {image.length} bytes, no state that may be found")
        self.states = [it for at, it in enumerate(fits or states) if it not in fits[:at]]

    def is_small(self):
        return self.image().length < TIB // 2

    def is_refused(self, held):
        """Whether dropping a history may be 48 on these files: all are as they were, and nothing tells which image it is."""
        return held == self.room.held(TEXTS) and not (self.is_small() and judged(self.room.held()) != "untold")

    def done(self, command, states):
        """Runs a command on files that are in one of these states: whether it was accepted."""
        held = self.room.held(TEXTS)
        status, _, said = self.room.run(command.words, command.given)
        if said == CHANGED and ("forget" in command.words or "--fresh" in command.words) and self.is_refused(held):
            return False
        if status:
            self.wrong.append(f"{command.words}: status {status}, {said!r}")
        self.find([command.steps(state)[-1] for state in states], command.words)
        return True

    def killed(self, command):
        """Runs a command that is killed before a random call, where it gets there: whether it was."""
        call, number = self.rng.choice(CALLS), self.rng.randint(1, 14)
        front = ["strace", "-f", "-qq", "-o", "/dev/null", "-e", f"trace={call}", "-e", f"inject={call}:signal=KILL:when={number}"]
        return self.room.run(command.words, command.given, front)[0] < 0

    def recover(self, states):
        """The next commands behind a stop, which may have left one of these states, with what is undone or without it."""
        self.stops += 1
        states = [*states, *(State(it.stack, ()) for it in states)]
        if not os.path.exists(f"{self.room.path}/img.bxj"):
            self.find(states, "a stop before there is a journal")
            return
        if self.is_small():
            self.look_at(self.room.held(), states)
        while self.rng.randrange(3) == 0 and self.killed(NOTHING):
            self.stops += 1
        length = self.image().length
        command = self.rng.choice([NOTHING, NOTHING, revert(self.rng, length), dd(self.rng, length), FORGET, revert(self.rng, length, True)])
        if not self.done(command, states):
            self.done(NOTHING, states)

    def look_at(self, left, states):
        """What goes wrong where another image stands in the place of this one, or another disk is named."""
        verdict = judged(left) if is_unfinished(left) else "finished"
        self.verdicts[verdict] += 1
        if verdict == "other":
            self.wrong.append("it is another image by its line")
        same = types.SimpleNamespace(images=[self.bytes_of(it.stack[0]) for it in states])
        name, image = self.rng.choice([*builds(self.rng, len(same.images[0])).items()])
        if self.is_another(left, image):
            self.wrong += [f"elsewhere: {line}" for line in beside(self.other, same, left, (name, image, self.rng.choice(AFTER)))]
        disk = self.rng.randbytes(len(same.images[0]))
        if self.is_another(left, disk):
            self.wrong += [f"elsewhere: {line}" for line in on_other_disk(self.other, left, ELSEWHERE, disk)]

    def is_another(self, left, image):
        """Whether another image is looked at: a third of those that the judge takes for one."""
        is_so = self.rng.randrange(3) == 0 and (not is_unfinished(left) or judged({**left, "img": image}) == "other")
        self.others += is_so
        return is_so

    def go_on(self):
        """One command more, which may be killed."""
        command = drawn(self.rng, self.states[0])
        if self.rng.randrange(2):
            self.done(command, self.states)
        elif self.killed(command):
            self.recover([step for state in self.states for step in command.steps(state)])
        else:
            self.find([command.steps(state)[-1] for state in self.states], command.words)

    def end(self):
        """Undoes all, step by step."""
        while len(self.states[0].stack) > 1 and not self.wrong:
            self.done(steps_back(1), self.states)


def played(options, number):
    """What goes wrong in a history, how many stops there are in it, and on how many other images it was looked."""
    rng = random.Random(f"{options.seed} {number}")
    length = LENGTHS[number % len(LENGTHS)]
    with Room(options.bx) as room, Room(options.bx) as other:
        history = History(room, other, rng, length)
        for _ in range(rng.randint(5, 10)):
            if not history.wrong:
                history.go_on()
        history.end()
    return length, history


def main():
    options = asked(__doc__, histories=300, seed=1, jobs=os.cpu_count())
    print(f"SEED {options.seed}", flush=True)
    if not shutil.which("strace"):
        left_out("histories (strace is not installed)")
        finish()
    stops, others, verdicts = 0, 0, collections.Counter()
    with concurrent.futures.ThreadPoolExecutor(options.jobs) as pool:
        for number, (length, history) in enumerate(pool.map(lambda it: played(options, it), range(options.histories))):
            stops, others, verdicts = stops + history.stops, others + history.others, verdicts + history.verdicts
            if history.wrong:
                say(False, f"history {number} of {length} bytes", "\n".join(history.wrong[:3]))
    told = ", ".join(f"{verdict} {count}" for verdict, count in sorted(verdicts.items()))
    print(f"{options.histories} histories, {stops} stops ({told}), {others} looks at another image")
    say(stops > options.histories // 2 and verdicts["same"] and verdicts["untold"] and others, "there were some of each")
    finish()


if __name__ == "__main__":
    main()
