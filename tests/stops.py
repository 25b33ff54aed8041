#!/usr/bin/env python3
"""Kills bx at each of its writes and syncs, and then runs the next command on the right image, or on another one.

Usage: tests/stops.py [--bx PATH] [--seed N] [--jobs N] [NAME ..]

Each of some commands is run under strace and killed before each of its calls pwrite64, ftruncate and fsync. Of each content
of the files that a kill leaves:

right: the next command, whatever it is, answers 0, and finds the image before the command, after it, or after some of its steps; so
does one behind a recovery that is killed in the same way. It is never 48, but of `forget` and `--fresh` where nothing tells which
image it is.

another: the image is built anew, in the same length, longer or shorter, or is missing, or is another disk by -J. No byte of it is
another one but what the next command was asked for, or all files are as they were; and once the right image is put back it is
recovered. A command that was done, and killed before it put its line, leaves nothing that tells an undo of the other image.

lengths: the command touches all blocks, and the image is built anew in a length that it can't have left: the same holds; and on the right
image the next command is never 48.

texts: the third text is of an older form, cut, zeros, of another length, out of order, a link, or another's: nothing is lost, and
what isn't bx's stays.

Without a name all run. The status is 1 where one fails."""
import concurrent.futures
import hashlib
import os
import random
import re
import shutil
import subprocess
import tempfile

from common import finish, left_out, say
from shared import asked

CALLS = ["pwrite64", "ftruncate", "fsync"]
NAMES = ["img", "img.bxj", "img.bxj.redo", "img.bxj.image"]
CHANGED = "bx: the image was changed since\n"
UNFINISHED = re.compile(rb"save [0-9a-f]{8}\n(?!done)[^\n]*\Z")


class Room:
    """A folder with an image, its texts, and what commands read."""

    def __init__(self, bx):
        self.bx, self.path = bx, tempfile.mkdtemp()

    def __enter__(self):
        return self

    def __exit__(self, *_):
        shutil.rmtree(self.path)

    def put(self, files):
        """These files, and no others."""
        for name in os.listdir(self.path):
            os.remove(f"{self.path}/{name}")
        for name, content in files.items():
            with open(f"{self.path}/{name}", "wb") as file:
                file.write(content)

    def held(self, names=NAMES):
        """What the files hold that are there."""
        return {name: read_bytes(f"{self.path}/{name}") for name in names if os.path.lexists(f"{self.path}/{name}")}

    def run(self, words, given=b"", front=()):
        """The status of a command, what it writes, and its standard error."""
        done = subprocess.run([*front, self.bx, *words.split()], cwd=self.path, input=given, capture_output=True, check=False)
        return done.returncode, done.stdout.decode(), done.stderr.decode()

    def calls(self, words, given):
        """How often a command makes each of the calls."""
        self.run(words, given, ["strace", "-f", "-qq", "-o", "calls", "-e", f"trace={','.join(CALLS)}"])
        text = read_bytes(f"{self.path}/calls").decode()
        return {call: len(re.findall(rf"\b{call}\(", text)) for call in CALLS}

    def kill(self, words, given, call, number):
        """Runs a command, which is killed before a call."""
        self.run(words, given, ["strace", "-f", "-qq", "-o", "/dev/null", "-e", f"trace={call}", "-e",
                                f"inject={call}:signal=KILL:when={number}"])


def read_bytes(path):
    """What is in a file."""
    with open(path, "rb") as file:
        return file.read()


def dump(*pieces):
    """The text of a dump."""
    return "".join(f"{at:x}: {piece.hex()}\n" for at, piece in pieces).encode()


def whole_dump(content):
    """The text of a dump of all of it, in lines of 256 bytes."""
    return dump(*((at, content[at:at + 256]) for at in range(0, len(content), 256)))


class Setting:
    """An image with a history, and a command on it: what it reads, and the images that may be found when it was stopped."""

    def __init__(self, room, rng, length, words, whole=False):
        self.words, self.rng, self.length, self.whole = words, rng, length, whole
        self.given = b""
        room.put({"img": rng.randbytes(length)})
        for at, count in ((0, 3), (length // 2, 5), (length // 3, 2)):
            room.run("revert img", whole_dump(rng.randbytes(length + 20 * count)) if whole else dump((at, rng.randbytes(count))))
        if words.startswith("redo"):
            room.run("undo -k 3 img")
        if words.startswith("revert"):
            self.given = dump((length // 4, rng.randbytes(2)), (length // 5, rng.randbytes(3)))
        if words.startswith("revert") and whole:
            self.given = whole_dump(rng.randbytes(length + 190))
        if words.startswith("dd"):
            self.given = rng.randbytes(length + 190 if whole else min(40, length // 4 + 1))
        if words.startswith("patch"):
            self.given = self.patch(room)
        self.before = room.held()
        self.images = self.found(room)
        self.counts = room.calls(words, self.given)

    def patch(self, room):
        """A patch that makes the image two bytes longer, or 190 where it writes all of it."""
        old = room.held()["img"]
        new = self.rng.randbytes(len(old) + 190) if self.whole else old[:5] + b"xy" + old[7:] + b"zz"
        room.put({**room.held(), "old": old, "new": new})
        text = room.run("diff old new")[1].encode()
        room.put(room.held())
        return text

    def found(self, room):
        """The images that a stop may lead to: before the command, and after each of its steps."""
        images = [self.before["img"]]
        steps = int((re.findall(r"-k (\d)", self.words) or ["1"])[0])
        for _ in range(steps):
            status, _, said = room.run(re.sub(r" -k \d", "", self.words), self.given)
            assert status == 0, (self.words, said)
            images.append(room.held()["img"])
        room.put(self.before)
        return images

    def stops(self, room):
        """Each content of the files that a kill leaves."""
        seen = set()
        for call, count in self.counts.items():
            for number in range(1, count + 1):
                room.put(self.before)
                room.kill(self.words, self.given, call, number)
                left = room.held()
                key = digest(left)
                if key not in seen:
                    seen.add(key)
                    yield f"{call} {number}", left


def digest(files):
    """A sum of files."""
    return hashlib.sha256(repr(sorted(files.items())).encode()).hexdigest()


def texts_of(files):
    """The files but the third text: a refused command may leave another line in it."""
    return {name: content for name, content in files.items() if name != "img.bxj.image"}


def is_unfinished(left):
    """Whether something is unfinished whose change may have begun."""
    return UNFINISHED.search(left.get("img.bxj", b"")[-60:]) is not None


def number_in(text):
    """The number of the last entry of a journal or a redo file that is finished."""
    return int((re.findall(rb"^done2 ([0-9a-f]{8})", text, re.M) or [b"0"])[-1], 16)


def is_told(left):
    """Whether the third text is about the finished texts: it isn't where the kill came before the last line was put."""
    found = re.match(rb"image3 ([0-9a-f]{8}) ([0-9a-f]{8}) ", left.get("img.bxj.image", b""))
    return found is not None and [int(it, 16) for it in found.groups()] == [number_in(left["img.bxj"]), number_in(left["img.bxj.redo"])]


NEXT = ["undo -k 0 img", "redo -k 0 img", "log img", "log -v img", "revert img", "dd of=img obs=1 seek=1 conv=notrunc", "forget img",
        "revert --fresh img", "undo img"]
ASKED = dump((1, b"!"))


def given_to(words):
    """What the next command reads."""
    return b"!" if words.startswith("dd") else ASKED if words.startswith("revert") else b""


def asked_of(words, image):
    """The image that the next command makes of one."""
    if words.startswith(("revert", "dd")):
        return image[:1] + b"!" + image[2:]
    return image


def right(room, setting, left):
    """What goes wrong on the right image."""
    for words in NEXT:
        room.put(left)
        status, _, said = room.run(words, given_to(words))
        after = room.held()
        allowed = [asked_of(words, image) for image in setting.images]
        if words in ("forget img", "revert --fresh img") and said == CHANGED:
            if texts_of(after) != texts_of(left):
                yield f"{words}: 48, and other files"
            continue
        if words == "undo img":
            if said == CHANGED:
                yield f"{words}: {said}"
            continue
        if words.startswith("log"):
            allowed.append(left["img"])
        if status or after["img"] not in allowed:
            yield f"{words}: status {status}, {said!r}, {after['img'] in allowed}"
    if is_unfinished(left):
        yield from killed_again(room, setting, left)


def killed_again(room, setting, left):
    """What goes wrong where the recovery is killed too."""
    room.put(left)
    for call, count in room.calls("undo -k 0 img", b"").items():
        for number in range(1, count + 1):
            room.put(left)
            room.kill("undo -k 0 img", b"", call, number)
            status, _, said = room.run("undo -k 0 img")
            if status or room.held()["img"] not in setting.images:
                yield f"recovery killed at {call} {number}: status {status}, {said!r}"


def builds(rng, length):
    """Other images: of the same length, longer, shorter, and none."""
    return {"same length": rng.randbytes(length), "longer": rng.randbytes(length + 100), "shorter": rng.randbytes(max(length - 7, 2)),
            "missing": None}


def another(room, setting, left):
    """What goes wrong on another image."""
    for name, image in builds(setting.rng, setting.length).items():
        for words in [*NEXT, "show img", "show -k 0 img"]:
            yield from beside(room, setting, left, (name, image, words))
    for words in [it.replace(" img", " -J img.bxj other") if "of=" not in it else it.replace("of=img", "of=other -J img.bxj") for it in NEXT]:
        yield from on_other_disk(room, left, words, setting.rng.randbytes(setting.length))


def beside(room, setting, left, case):
    """The same of one image and one command."""
    name, image, words = case
    files = dict(left)
    if image is None:
        files.pop("img")
    else:
        files["img"] = image
    room.put(files)
    status, _, said = room.run(words, given_to(words))
    after = room.held()
    told = f"{name}, {words}: status {status}, {said!r}"
    begun = is_unfinished(left)
    if words == "undo img" and not begun and not is_told(left):
        return
    if status:
        if texts_of(after) != texts_of(files) and (begun or after.get("img") != image):
            yield f"{told}, other files"
    elif image is None:
        if after.get("img") != b"\0!" or "--fresh" not in words and b"done2" in left["img.bxj"]:
            yield f"{told}, {after.get('img', b'none')[:9]!r}"
    elif after["img"] != asked_of(words, image):
        yield f"{told}, another image"
    elif words == "forget img" and after["img.bxj"] != b"":
        yield f"{told}, a history is left"
    elif words.startswith(("log", "show")) and after != files and (begun or "show" in words):
        yield f"{told}, other files"
    if name == "same length" and status and texts_of(after) == texts_of(files):
        room.put({**after, "img": left["img"]})
        status, _, said = room.run("undo -k 0 img")
        if status or room.held()["img"] not in setting.images:
            yield f"{told}, and put back: status {status}, {said!r}"


def on_other_disk(room, left, words, image):
    """The same of another disk, with this journal."""
    files = {**left, "other": image}
    room.put(files)
    status, _, said = room.run(words, given_to(words))
    after = room.held([*NAMES, "other"])
    told = f"another disk, {words}: status {status}, {said!r}"
    if words.startswith("undo -J") and not is_unfinished(left) and not is_told(left):
        return
    if status and is_unfinished(left) and texts_of(after) != texts_of(files):
        yield f"{told}, other files"
    elif after["other"] != (image if status else asked_of(words.replace(" -J img.bxj", ""), image)):
        yield f"{told}, another image"
    elif not status and is_unfinished(left) and not words.startswith("log"):
        yield f"{told}, though something is unfinished"


def lengths(room, setting, left):
    """What goes wrong on the right image, and on one of a length that the command can't have left."""
    yield from right(room, setting, left)
    if not is_unfinished(left):
        return
    made = [len(image) for image in setting.images]
    others = [("longer", max(made) + 100)]
    if setting.words != "dd of=img":
        # which cuts the image to nothing before it writes
        others.append(("shorter", min(made) - 7))
    for name, count in others:
        image = setting.rng.randbytes(count)
        for words in NEXT:
            files = {**left, "img": image}
            room.put(files)
            status, _, said = room.run(words, given_to(words))
            after = room.held()
            goes_on = words.startswith(("forget", "log")) or "--fresh" in words
            if after["img"] != (image if status else asked_of(words, image)) or status and texts_of(after) != texts_of(files):
                yield f"{name}, {words}: status {status}, {said!r}, other files"
            elif not status and not goes_on:
                yield f"{name}, {words}: it is done, though something is unfinished"


def lines(left):
    """Third texts that aren't the line that a command left."""
    line = left.get("img.bxj.image", b"")
    yield "missing", None
    yield "empty", b""
    yield "zeros", bytes(len(line) or 439)
    yield "cut", line[:-1]
    yield "longer", line + b"\n"
    yield "image2", b"image2 00000003 00000000 0000000000000190 " + b"0" * 32 + b" " + b"0" * 32 + b" 00000000\n"
    yield "another's", b"image of a disk\n"
    yield "NULs", line[:100] + bytes(max(len(line) - 100, 0))
    if len(line) > 9 * 32:
        front, marks = line[:-9 * 32], line[-9 * 32:-1].split(b" ")
        yield "out of order", front + b" ".join(marks[1:] + marks[:1]) + b"\n"


def texts(room, setting, left):
    """What goes wrong with other third texts."""
    for name, line in lines(left):
        files = {it: content for it, content in left.items() if it != "img.bxj.image" or line is not None}
        if line is not None:
            files["img.bxj.image"] = line
        room.put(files)
        status, _, said = room.run("undo -k 0 img")
        after = room.held()
        if name == "out of order" and said == CHANGED:
            continue
        if status or after["img"] not in setting.images:
            yield f"{name}: status {status}, {said!r}"
        if name == "another's" and after.get("img.bxj.image") != line:
            yield f"{name}: it is gone"


def commands(length, check):
    """The commands that are killed, on an image of this length."""
    if check == "lengths":
        return ["revert img", "dd of=img", "dd of=img conv=notrunc", "patch img", "undo img", "undo -k 3 img", "redo img", "redo -k 3 img"]
    front = "dd of=img obs=1 seek="
    return ["revert img", f"{front}{length * 3 // 4} conv=notrunc", f"{front}{length - length // 40 - 1}", f"{front}{length * 3 // 4}",
            "patch img", "undo img", "undo -k 3 img", "redo img", "redo -k 3 img", "revert --fresh img"]


CHECKS = {"right": right, "another": another, "lengths": lengths, "texts": texts}
LENGTHS = {"right": (33, 400, 131071, 131072), "another": (400, 131072), "lengths": (400,), "texts": (400,)}


def played(options, check, words, length):
    """The lines of what goes wrong behind each stop of a command, and how many stops there are."""
    rng, wrong, count = random.Random(f"{options.seed} {words} {length}"), [], 0
    with Room(options.bx) as room, Room(options.bx) as other:
        setting = Setting(room, rng, length, words, check == "lengths")
        for stop, left in setting.stops(room):
            count += 1
            wrong += [f"killed at {stop}: {line}" for line in CHECKS[check](other, setting, left)]
    return wrong, count


def main():
    options = asked(__doc__, seed=1, jobs=os.cpu_count(), names=CHECKS)
    if not shutil.which("strace"):
        left_out("stops (strace is not installed)")
        finish()
    with concurrent.futures.ThreadPoolExecutor(options.jobs) as pool:
        rows = [(check, words, length) for check in options.names for length in LENGTHS[check] for words in commands(length, check)]
        for row, (wrong, count) in zip(rows, pool.map(lambda row: played(options, *row), rows)):
            say(not wrong, "{}: {} of {} bytes".format(*row), "\n".join([f"{count} stops", *wrong[:12]]))
    finish()


if __name__ == "__main__":
    main()
