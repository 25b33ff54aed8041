"""Pairs of images, and the patches between them, beside what `cmp -l` says of the same files.

A patch is made here by the sentences of `docs/FORMATS.md` ("Patches"), and before a case is written its lines have to
name each address that `cmp -l` prints, with both bytes, each one behind the end of the shorter image, and no other.
Those of `-v` have to have them too, and no row without one."""
import hashlib
import random
import re

from record import form
from record.real import Tools
from shared import read, rows

# a longer patch is told by its sum
MOST_TEXT = 1500
LENGTHS = [0, 1, 15, 16, 17, 40, 300, 32767, 32768, 32769]


def runs(old, new, whole):
    """The ranges that have lines, by rising address: whole rows, or what differs in them."""
    for row in range(0, max(len(old), len(new)), 16):
        if old[row:row + 16] == new[row:row + 16]:
            continue
        places = [at for at in range(row, row + 16) if old[at:at + 1] != new[at:at + 1]]
        places = range(row, row + 16) if places and whole else places
        yield from zip((at for at in places if at - 1 not in places), (at + 1 for at in places if at + 1 not in places))


def head_of(old, new):
    """The first line, which of equal images is the last one too."""
    return b"length %d to %d\n" % (len(old), len(new)) if old != new else b"end 0\n"


def patch(old, new, whole=False):
    """The text of a patch, whose last line tells how many stand before it."""
    pairs = [(sign, first, image[first:last]) for first, last in runs(old, new, whole)
             for sign, image in (("-", old), ("+", new))]
    lines = [f"{sign}{form.dump_line(first, data)}\n".encode() for sign, first, data in pairs if data]
    return b"".join([head_of(old, new), *lines, b"end %d\n" % (len(lines) + 1)] if lines else [head_of(old, new)])


def by_patch(text):
    """What a patch says of each address that it names: the old byte and the new one, each none where there is none."""
    named = {}
    for sign, at, digits in re.findall(rb"^([-+])([0-9a-f]+): ((?:[0-9a-f]+ ?)+)(?: |$)", text, re.M):
        for place, byte in enumerate(bytes.fromhex(digits.decode()), int(at, 16)):
            named.setdefault(place, [None, None])[sign == b"+"] = byte
    return named


def by_cmp(tools, old, new):
    """The same as `cmp -l` says it of the files `old` and `new`, with the bytes of the longer one behind the end of
    the other."""
    for name, data in (("old", old), ("new", new)):
        (tools.folder / name).write_bytes(data)
    lines = tools.run(["cmp", "-l", "old", "new"])[0].splitlines()
    named = {int(at) - 1: [int(was, 8), int(now, 8)] for at, was, now in map(bytes.split, lines)}
    for at in range(min(len(old), len(new)), max(len(old), len(new))):
        named[at] = [data[at] if at < len(data) else None for data in (old, new)]
    return named


def is_right(plain, rows, named):
    """Whether a patch names the same addresses as `cmp -l`, and that of -v those and no row without one."""
    plain, rows = by_patch(plain), by_patch(rows)
    return plain == named and named.items() <= rows.items() and {at // 16 for at in rows} <= {at // 16 for at in named}


def case(tools, name, *texts):
    """The lines of a case."""
    old, new = map(form.made_of, texts)
    out = ["", f"case: {name}", "from: FORMATS.md, patches; cmp -l, diffutils 3.8",
           *(f"{word}: " + (text or '""') for word, text in zip(("old", "new"), texts))]
    plain, rows = patch(old, new), patch(old, new, True)
    assert is_right(plain, rows, by_cmp(tools, old, new))
    if len(plain) > MOST_TEXT:
        return [*out, f"sum: {len(plain)} {hashlib.md5(plain).hexdigest()}"]
    lines, row_lines = ([f"| {line}" for line in text.decode().splitlines()] for text in (plain, rows))
    return [*out, "output:", *lines, "rows:", *row_lines]


def pairs(rng, count, is_compared):
    """Names and pairs of images, in parts: those of patches.txt, and so many with changes, inserts, cuts and equal
    stretches. Of those that are compared some parts are zeros, and the others any bytes."""
    yield from rows(read("tools/record/patches.txt"))
    for number in range(1, count + 1):
        old, new = [], []
        for _ in range(rng.randrange(1, 10 if is_compared else 6)):
            length, seed = rng.choice(LENGTHS), rng.randrange(1, 10**6)
            make = rng.choice((bytes, rng.randbytes, rng.randbytes)) if is_compared else None
            part = make(length).hex() if make else f"{length}@{seed}"
            kind = rng.choice(["equal", "equal", "equal", "insert", "cut", "change"])
            old += [part] if kind != "insert" else []
            new += [part] if kind in ("equal", "insert") else []
            new += [f"{rng.randrange(0, 30)}@{rng.randrange(1, 10**6)}"] if kind == "change" else []
        yield f"drawn {number}", " ".join(old), " ".join(new)


# What is done with a patch, of each tenth pair all and else those in the middle, of equal images the first: the words,
# what they read, what they write (* is anything), and what the image is then.
STEPS = [row.split("|") for row in (
    "patch -n image|fix|fix|old", "patch -nR old|back|fix|old", "revert -n image|dump|over|old", "dd -n of=image|new|fix|old",
    "patch -U image|fix||new", "show -p image||fix|new", "patch -UR image|fix||old", "undo -U image||*|new",
    "undo -U image||*|old", "show -rp image||fix|old", "redo -U image||*|new")]
FIRST, MIDDLE = slice(4), slice(4, 7)


def made(tools, old, new):
    """The texts of a pair, each made by no bx: patches both ways and in rows, the dump of the new image, which is one
    byte where there is none, and the patch of what a revert of that dump makes of the old one."""
    (tools.folder / "dumped").write_bytes(new or b"A")
    over = (new or b"A") + old[len(new or b"A"):]
    return {"": b"", "old": old, "new": new, "fix": patch(old, new), "back": patch(new, old), "rows": patch(old, new, True),
            "dump": tools.run(["xxd", "dumped"])[0], "over": patch(old, over)}


def differ(options, rng, tools):
    """Whether bx writes another patch of a pair than is made here, which names what `cmp -l` does, or doesn't apply it
    and take it back."""
    count = bad = 0
    for title, *pair in pairs(rng, 1000, True):
        old, new = map(form.made_of, pair)
        named, texts, wrong = by_cmp(tools, old, new), made(tools, old, new), None
        for name, words in (("fix", ["old", "new"]), ("back", ["new", "old"]), ("rows", ["-v", "old", "new"])):
            wrong = wrong if tools.run([options.bx, "diff", *words]) == (texts[name], "", 0) else "diff"
        for path in tools.folder.glob("image*"):
            path.unlink()
        (tools.folder / "image").write_bytes(old)
        wrong = wrong if is_right(texts["fix"], texts["rows"], named) else "diff"
        asked = STEPS[FIRST if old == new else MIDDLE] if old == new or count % 10 else STEPS
        for words, given, wanted, image in asked:
            output, _, status = tools.run([options.bx, *words.split()], texts[given])
            is_so = not status and (wanted == "*" or output == texts[wanted])
            wrong = wrong if is_so and (tools.folder / "image").read_bytes() == texts[image] else wrong or words
        count, bad = count + 1, bad + bool(wrong)
        print(f"{wrong}: {title}\n" if wrong else "", end="")
    print(f"patches: {count} pairs, {bad} differ")
    return bad > 0


def run(options):
    rng, tools = random.Random(options.seed), Tools()
    if options.compare:
        return differ(options, rng, tools)
    lines = sum((case(tools, *row) for row in pairs(rng, 60, False)), [])
    form.write("patches", ["# Patches between two images. tools/cases.py wrote this file.", "kind: patches", *lines], options.out)
    return False
