"""Random lists of commands on an image, beside a plain list of images.

A list draws dumps, plain hexadecimal, transfers by dd, changes that no command makes, undos and redos, texts that are
refused among them, from a generator of random numbers that begins with the seed: the same seed gives the same file.
What each of them leaves comes from the plain program below, which keeps the images in two lists and knows no journal:
the rules of docs/FORMATS.md, of which POSIX has dd's."""
import random

from record import form

MOST, LISTS, LENGTH = 40, 4, 200
SOURCE = "FORMATS.md, by a plain list of images"
BAD_LINES = [("0: 4g", "bad pair"), (": 41", "bad address"), ("7 41", "missing colon"), ("3:  41", "no bytes")]


def put(image, at, data):
    """The image with bytes at a place; what lies between is zeros. No bytes do nothing."""
    return image.ljust(at, b"\0")[:at] + data + image[at + len(data):] if data else image


def some(rng, most):
    return bytes(rng.randrange(256) if rng.randrange(3) else rng.choice(b"abcXYZ01")
                 for _ in range(rng.randrange(1, most + 1)))


def digits_of(rng, data):
    """Digits of bytes, in pairs with a space between some of them."""
    pairs = [f"{byte:02x}" if rng.randrange(4) else f"{byte:02X}" for byte in data]
    return "".join(pair + (" " if rng.randrange(3) == 0 and i + 1 < len(pairs) else "") for i, pair in enumerate(pairs))


class Images:
    """The images that stand, the newest last, and those that are undone, the one undone last at the end. Each command
    answers its lines: what is said, and the image behind it."""

    def __init__(self, first, rng):
        self.standing, self.undone, self.rng = [first], [], rng

    def changed(self, told, image, reply="changed", counts=""):
        self.standing.append(image)
        self.undone.clear()
        return [*told, f"reply: {reply} {len(self.standing) - 1}{counts}", *form.bytes_lines("image", image)]

    def dump(self):
        """A dump, of which one in eight has a line that is refused."""
        rng, image, lines = self.rng, self.standing[-1], []
        shift = rng.choice([0, 0, 0, 1, 5])
        for _ in range(rng.randrange(4)):
            at, data = rng.randrange(MOST), some(rng, 6)
            lines.append(f"{at:0{rng.choice([1, 4, 8])}x}: {digits_of(rng, data)}")
            image = put(image, at + shift, data)
        bad, is_refused = rng.choice(BAD_LINES), rng.randrange(8) == 0
        lines += [bad[0]] * is_refused
        told = form.bytes_lines("revert", "".join(line + "\n" for line in lines).encode())
        told += [f"shift: {shift}"] if shift else []
        return told + [f"fault: line {len(lines)}: {bad[1]}"] if is_refused else self.changed(told, image)

    def plain(self):
        """Plain hexadecimal, of which one in eight ends in half a pair."""
        at, data = self.rng.randrange(MOST), some(self.rng, 8)
        text = digits_of(self.rng, data)
        is_refused = self.rng.randrange(8) == 0
        told = form.bytes_lines("plain", (text + "4" * is_refused).encode()) + [f"at: {at}"]
        if is_refused:
            return told + ["fault: line 1: odd number of digits"]
        return self.changed(told, put(self.standing[-1], at, data))

    def transfer(self):
        """dd onto the image, which ends behind what is written, or at the place where writing began, unless it
        stays."""
        rng = self.rng
        data = b"" if rng.randrange(6) == 0 else some(rng, 12)
        into, out, seek, stays = rng.choice([1, 3, 4, 16]), rng.choice([1, 2, 4, 8]), rng.randrange(5), rng.randrange(2)
        kept = self.standing[-1] if stays else self.standing[-1].ljust(out * seek, b"\0")[:out * seek]
        words = [f"ibs={into}", f"obs={out}", f"seek={seek}"] + (["conv=notrunc"] if stays else [])
        rng.shuffle(words)
        counts = " ".join(f"{len(data) // size}+{int(len(data) % size > 0)}" for size in (into, out))
        told = ["dd: " + " ".join(words), *form.bytes_lines("input", data)]
        return self.changed(told, put(kept, out * seek, data), "copied", f" {counts} 0")

    def change(self):
        """A change of the image's end and of some places, or of the places alone."""
        rng, image = self.rng, self.standing[-1]
        base = rng.randrange(len(image) + 1) if rng.randrange(2) else None
        told, image = [f"change: {'none' if base is None else base}"], image[:base]
        for _ in range(rng.randrange(3)):
            at, data = rng.randrange(MOST), some(rng, 5)
            told.append(f"write: {at} {' '.join(form.parts_of(data))}")
            image = put(image, at, data)
        return self.changed(told, image)

    def moved(self, word, count, have, source, to):
        """An undo or a redo, refused where there are fewer."""
        if count > have:
            return [f"{word}: {count}", f"fault: only {have} changes to {word}"]
        for _ in range(count):
            to.append(source.pop())
        return [f"{word}: {count}", f"reply: {word}ne {len(self.standing) - 1}",
                *form.bytes_lines("image", self.standing[-1])]

    def undo(self):
        have = len(self.standing) - 1
        count = self.rng.randrange(1, 4) if self.rng.randrange(8) else self.rng.randrange(have + 2)
        return self.moved("undo", count, have, self.standing, self.undone)

    def redo(self):
        have = len(self.undone)
        count = self.rng.randrange(1, have + 1) if have and self.rng.randrange(6) else self.rng.randrange(have + 2)
        return self.moved("redo", count, have, self.undone, self.standing)

    def opened(self):
        return [f"open: clean {len(self.standing) - 1}" + (f" {len(self.undone)}" if self.undone else "")]

    def command(self):
        """A command. Undos are as likely as changes, so that the images don't get many; redos come behind them."""
        if self.undone and self.rng.randrange(5) < 2:
            return self.redo()
        makers = [self.dump, self.dump, self.plain, self.transfer, self.change] if len(self.standing) < 13 else []
        return self.rng.choice(makers + [self.undo] * 3 + [self.redo, self.opened])()


def run(options):
    rng = random.Random(f"lists {options.seed}")
    lines = [f"# Random lists of commands, written by tools/cases.py with seed {options.seed}.", "", "kind: commands"]
    for number in range(1, LISTS + 1):
        images = Images(b"" if number == 1 else some(rng, 24), rng)
        lines += ["", f"case: list {number} of {LENGTH} commands", f"from: {SOURCE}",
                  *form.bytes_lines("image", images.standing[0])]
        for _ in range(LENGTH):
            lines += images.command()
    form.write("random", lines, options.out)
    return False
