"""The commands that are replayed and the images that each leads to; and what bx finds of image, journal and redo file,
by opening them, beside what was to be found."""
import collections
import concurrent.futures
import tempfile

from replay.losses import cut, sized
from replay.room import Room

# A stack of images, the newest first, and those that were undone, the one that is redone next first.
State = collections.namedtuple("State", "stack undone")
# Words, what stands in the file `input`, the states behind none, one .. and all of its steps, and the exit status.
Command = collections.namedtuple("Command", "words input steps status", defaults=(0,))
# What bx finds: a fault; or how many changes, the image, whether it recovered, the first image, how many are undone,
# the last.
Found = collections.namedtuple("Found", "fault count image recovered first undone last", defaults=(None,) * 6)


def change(words, data, base, pieces):
    """A change of the image's length, where `base` isn't None, and of pieces at their places."""
    def steps(state):
        image = state.stack[0] if base is None else sized(state.stack[0], base)
        for at, piece in pieces:
            image = cut(image, at, piece)
        return [state, State((image, *state.stack), ())]
    return Command(words, data, steps)


def revert(*pieces):
    dump = "".join(f"{at:08x}: {data.hex()}\n" for at, data in pieces)
    return change("revert -f input IMAGE", dump.encode(), None, pieces)


def dd(at, data, keep):
    words = f"dd if=input obs=1 seek={at}{' conv=notrunc' if keep else ''} OF"
    return change(words, data, None if keep else at, [(at, data)])


def moved(source, to, count):
    """Two stacks with so many images of the one moved onto the other."""
    return source[count:], source[:count][::-1] + to


def undo(count):
    return Command(f"undo -k {count} IMAGE", b"", lambda s: [State(*moved(*s, i)) for i in range(count + 1)])


def redo(count):
    return Command(f"redo -k {count} IMAGE", b"",
                   lambda s: [State(*moved(*s[::-1], i)[::-1]) for i in range(count + 1)])


LOG = Command("log IMAGE", b"", lambda s: [s])
REFUSED = Command("undo -k 999 IMAGE", b"", lambda s: [s], 1)


class Judge:
    """Opens contents by bx, several at once and each but once."""

    def __init__(self, bx, jobs, path):
        self.bx, self.seen, self.led, self.path = bx, {}, {}, path
        self.pool = concurrent.futures.ThreadPoolExecutor(jobs)

    def found(self, several):
        """What is found of each content."""
        new = [content for content in dict.fromkeys(several) if content not in self.seen]
        self.seen.update(zip(new, self.pool.map(self.open, new)))
        return [self.seen[content] for content in several]

    def open(self, content):
        """What `bx undo -k 0` finds, which recovers where the image isn't known to be another one. It refuses without
        an image or a journal: where the journal has nothing, no change is known."""
        image, journal, redo_text, _ = content
        if not journal and None in (image, journal):
            return Found(None, 0, image or b"", False, image or b"", undone_in(redo_text))
        with tempfile.TemporaryDirectory(dir=self.path) as path:
            room = Room(self.bx, path)
            room.put(content)
            opened = room.run("undo -U -k 0 IMAGE")
            if opened.returncode:
                return Found(opened.stderr.strip())
            left, count = room.get(), int(opened.stdout)
            if left not in self.led:
                self.led[left] = lead(room, left, count)
            return self.led[left]._replace(recovered="recovered" in opened.stderr)


def undone_in(redo_text):
    return sum(line.startswith(b"done2 ") for line in (redo_text or b"").split(b"\n"))


def lead(room, left, count):
    """Where all undos lead from what was opened and has this count of changes, and all redos behind them."""
    image, _, redo_text, _ = left
    ends, undone = [image, None], undone_in(redo_text)
    for at, (word, steps) in enumerate((("undo", count), ("redo", undone and count + undone))):
        if steps:
            done = room.run(f"{word} -U -k {steps} IMAGE")
            if done.returncode:
                return Found(f"{word} -k {steps}: {done.stderr.strip()}")
            ends[at] = room.get()[0]
    return Found(None, count, image, False, ends[0], undone, ends[1])


def fits(found, state, answered):
    """Whether what was found is a state: images, and what was undone, which a recovery may give up until a command
    answers."""
    stack, undone = state
    if found.fault or (found.count, found.image, found.first) != (len(stack) - 1, stack[0], stack[-1]):
        return False
    if found.recovered and not answered:
        return found.undone == 0
    return found.undone == len(undone) and (not undone or found.last == undone[-1])
