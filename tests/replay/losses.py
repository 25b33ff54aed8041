"""What image, journal and redo file may be found with after a loss of power: the model of docs/PROMISES.md, "Loss of
power".

Since the last sync of a file any of its calls may be lost, whole or in part, and the files lose independently. Of an
image each byte in the range of a write or a changed length is as it was at some moment, zero or spoiled, and each
length in between may be found. A text keeps what was synced and not cut; behind that it ends anywhere up to its
greatest length, and each byte is one that was written or zero. A name that was made or removed since its folder was
synced is there or not. The image's text is a line that is there or not."""
import itertools
import math

SPOILED = b"\xee"
NEWLINE = 10


def cut(image, at, data):
    """An image with bytes at a place; what lies between is zeros."""
    return image[:at].ljust(at, b"\0") + data + image[at + len(data):]


def sized(image, length):
    """An image of another length; what is new is zeros."""
    return image[:length].ljust(length, b"\0")


class File:
    """A file since its last sync: what it held and which bytes were touched; and whether it had a name since its
    folder's."""

    def __init__(self, is_text, content=b"", named=True):
        self.is_text, self.contents, self.names = is_text, [content], [named]
        self.sync()

    def now(self):
        """What is read before a loss of power."""
        return self.contents[-1] if self.names[-1] else None

    def sync(self):
        self.contents, self.touched = self.contents[-1:], []
        self.kept = len(self.contents[0])

    def is_settled(self):
        return not self.touched and len(self.names) == 1

    def write(self, at, data):
        now = self.contents[-1]
        if self.is_text and at < self.kept:
            raise ValueError(f"a text is overwritten at {at}")
        self.touched.append((min(at, len(now)), at + len(data)))
        self.contents.append(cut(now, at, data))

    def length(self, length):
        now = self.contents[-1]
        self.touched.append((min(length, len(now)), max(length, len(now))))
        self.kept = min(self.kept, length)
        self.contents.append(sized(now, length))

    def name(self, named):
        """The file gets its name, or loses it; an empty one alone, so that its bytes don't matter."""
        if any(self.contents):
            raise ValueError("a file that has bytes is made or removed")
        self.names.append(named)

    def lengths(self):
        """The least length that may be found, and the greatest."""
        lengths = [len(content) for content in self.contents]
        return min([self.kept, *lengths]) if self.is_text else min(lengths), max(lengths)

    def pieces(self, rng):
        """The bytes that may be lost, in pieces between the places where calls, lines and halves of them end, and two
        random places: where each piece begins and ends, and what it may hold."""
        low, high = self.lengths()
        low = low if self.is_text else 0
        places = {low, high} | {place for at, end in self.touched for place in (at, (at + end) // 2, end)}
        if self.is_text:
            places |= {i + 1 for content in self.contents for i in range(low, len(content)) if content[i] == NEWLINE}
            places |= {(at + end) // 2 for at, end in itertools.pairwise(sorted(places))}
        places |= {rng.randint(low, high), rng.randint(low, high)}
        places = sorted(place for place in places if low <= place <= high)
        return [(at, end, self.held(at, end)) for at, end in itertools.pairwise(places)]

    def held(self, at, end):
        """What a piece may hold."""
        held = [content[at:end].ljust(end - at, b"\0") for content in self.contents]
        if self.is_text:
            held.append(bytes(end - at))
        elif any(begin < end and at < last for begin, last in self.touched):
            held += [bytes(end - at), SPOILED * (end - at)]
        return list(dict.fromkeys(held))

    def ends(self, pieces):
        """Lengths that may be found: the least, the greatest, and those at and beside the ends of pieces."""
        low, high = self.lengths()
        places = {place for at, end, _ in pieces for place in (at, end)}
        return sorted({low, high} | {end for place in places
                                     for end in (place - 1, place, place + 1) if low <= end <= high})

    def found(self, limit, rng):
        """What may be found, each once. None is no file."""
        first = [self.contents[0], self.contents[-1], *self.contents] if True in self.names else []
        first += [None] if False in self.names else []
        if not self.touched:
            return list(dict.fromkeys(first))
        pieces = self.pieces(rng)
        ends, front = self.ends(pieces), self.contents[0][:pieces[0][0] if pieces else None]
        return up_to(limit, first, [*(held for *_, held in pieces), ends], lambda: self.draw(rng, pieces, ends),
                     lambda chosen: (front + b"".join(chosen[:-1]))[:chosen[-1]])

    def draw(self, rng, pieces, ends):
        """The pieces and the end of one that may be found: what was there at some moment up to a random end, or with a
        random piece, or all random."""
        base = rng.choice(self.contents)
        parts = [base[at:end].ljust(end - at, b"\0") for at, end, _ in pieces]
        how = rng.randrange(3)
        for i in ([], [rng.randrange(len(pieces))], range(len(pieces)))[how]:
            parts[i] = rng.choice(pieces[i][2])
        return *parts, rng.randint(*self.lengths()) if how == 0 else rng.choice([*ends, ends[-1], len(base)])



class Line(File):
    """The image's text: each write is the whole of it, and lies within one sector of a disk. So it is found as it was at
    some moment, or empty, or as zeros."""

    def __init__(self, content=b"", named=True):
        super().__init__(False, content, named)

    def found(self, limit, rng):
        whole = list(reversed(self.contents)) + [bytes(len(self.now() or b"")), b""] * bool(self.touched)
        return list(dict.fromkeys(whole * (True in self.names) + [None] * (False in self.names)))


def up_to(limit, first, choices, draw, made=tuple):
    """Those that are first, and what is made of one of each of the choices: all, where that is no more than `limit`, or
    else so many in all that are drawn."""
    found = dict.fromkeys(first)
    if math.prod(map(len, choices)) <= limit:
        return list(found | dict.fromkeys(map(made, itertools.product(*choices))))
    for _ in range(4 * limit):
        if len(found) < limit:
            found[made(draw())] = None
    return list(found)


def found_together(files, limit, rng):
    """What the files may be found with together: what stands on the disk and what is read of each among them."""
    found = [file.found(limit, rng) for file in files]
    corners = [[file.contents[0], file.contents[-1]] if True in file.names else [None] for file in files]
    return up_to(limit, itertools.product(*corners), found, lambda: tuple(map(rng.choice, found)))
