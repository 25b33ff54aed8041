"""What xxd, od, hexdump, strings and dd write.

Each option is drawn alone, in pairs and in threes, with values and inputs from a generator of random numbers that
begins with the seed. Few options are given inputs of each length up to 66 and some longer ones, and so are the forms of
od and hexdump whose lines have code of their own. dd converts each front of a text, and is run onto images too. The
expected output, counts and success are the real tool's, whose version stands at the head of each file TOOL.cases. Words
that it refuses, with status 1 and no output, stand in refused.txt, with the fault and by it the status of bx.

What is drawn keeps to the options on which man/bx.1 says that bx and the tool agree:

- all: each option once, one file at most, options in front of it; no negative number, and none with bytes behind it.
- xxd: one of -b, -i and -p; -u not with -i; 1 to 256 columns; -s on a file, since a pipe can't be sought.
- od: one type, of c or d, o, u, x and a size in digits.
- hexdump: -C always; a skip below the input's length, since at or behind it the tool shows an address; no suffix b.
- strings: no tab in the input; -n in decimal. The tool pads an offset to seven places: that is taken off.
- dd: each operand once; the input is a file, so that each read fills its block; swab only with an even ibs; block and
  unblock with cbs; seek and notrunc only onto an image. That an undo gives the first image back isn't recorded:
  docs/FORMATS.md has it.
"""
import hashlib
import itertools
import random

from record import form
from record.real import NAMES, Tools, told_records, versions
from shared import read, rows

EDGES = [0, 1, 2, 3, 4, 5, 7, 8, 9, 11, 12, 13, 15, 16, 17, 23, 24, 30, 31, 32, 33, 47, 48, 49, 60, 61, 63, 64, 65]
TYPES = ["c"] + [form + size for form in "doux" for size in "1248"]
# the status of bx by its fault; it is 1 with any other
STATUS = {None: 0, "bad arguments": 2}


class Case:
    """Words behind the tool's name, what they read, and what came of it."""

    def __init__(self, tool, words, data, about, fault=None, image=None):
        self.tool, self.words, self.data, self.about, self.fault, self.image = tool, words, data, about, fault, image
        self.output, self.count, self.records, self.made = b"", None, None, None


def some_bytes(rng, most):
    """Bytes of some length: any, text, zeros, rows that repeat, or one behind the other."""
    edges = [n for n in EDGES if n <= most]
    size = rng.choice(edges) if rng.randrange(4) else rng.randrange(most + 1)
    kind = rng.randrange(6)
    if kind == 0:
        return bytes(size)
    if kind == 1:
        start = rng.randrange(256)
        return bytes((start + i) % 256 for i in range(size))
    if kind == 2:
        row = rng.randbytes(16)
        return b"".join([*(row if rng.randrange(4) else rng.randbytes(16) for _ in range(size // 16)),
                         rng.randbytes(size % 16)])
    return rng.randbytes(size) if kind == 3 else text_bytes(rng, size)


def text_bytes(rng, size):
    """Words and lines, with a byte that is no text here and there."""
    words = [b"disk", b"Image", b"x", b"sector 63", b"ZZ", b"~ok~", b"0x4A", b"\\n", b'"q"']
    ends, text = [b" ", b"  ", b"\n", b"\n", b"\0", b"\x7f", b"\xe9", b"\x1b["], b""
    while len(text) < size:
        text += rng.choice(words) + rng.choice(ends)
    return text[:size]


def number(rng, n):
    """The number as decimal, hexadecimal or octal text."""
    return rng.choice([str(n), str(n), hex(n), "0" + oct(n)[2:] if n else "0"])


# Options of which one may be given, and how often no option, one, two and three of them are drawn.
ALONE = {"xxd": [{"-b", "-i", "-p"}, {"-i", "-u"}], "od": [{"-t", "-b", "-c", "-d", "-o", "-s", "-x"}],
         "dd": [{"block", "unblock"}, {"lcase", "ucase"}]}
DRAWS = {"xxd": [8, 5, 3, 3], "od": [6, 5, 3, 2], "hexdump": [14, 18, 18, 24], "strings": [16, 22, 22, 28],
         "dd": [8, 5, 3, 1]}


def options_of(tool, rng, data):
    """The options, and what gives the value of each that has one."""
    def pick(*values):
        return number(rng, rng.choice(values))

    def at():
        return rng.randrange(len(data)) if data else 0

    def few():
        return rng.randrange(1, 70)
    if tool == "xxd":
        return {"-b": None, "-i": None, "-p": None, "-u": None,
                "-c": lambda: pick(1, 2, 3, 4, 7, 8, 16, 17, 20, 255, 256), "-g": lambda: pick(0, 1, 2, 3, 4, 5, 8, 16, 17, 300),
                "-l": lambda: pick(0, 1, few(), 1000), "-o": lambda: pick(0, 1, rng.randrange(2**16), 2**32 - 8, 2**62),
                "-s": lambda: pick(at(), at(), len(data), 900)}
    if tool == "od":
        skips = [at(), at(), len(data), len(data) + 1]
        limits = [number(rng, n) for n in (0, 1, few())] + ["1b", "2k", "1m"]
        return {"-A": lambda: rng.choice("doxn"), "-t": lambda: rng.choice(TYPES), "-j": lambda: pick(*skips),
                "-N": lambda: rng.choice(limits), **dict.fromkeys(["-b", "-c", "-d", "-o", "-s", "-x", "-v"])}
    if tool == "hexdump":
        limits = [number(rng, n) for n in (0, 1, few(), few())] + ["2k", "1m"]
        return {"-v": None, "-n": lambda: rng.choice(limits), "-s": lambda: number(rng, at())}
    return {"-a": None, "-n": lambda: str(rng.choice([1, 2, 3, 4, 5, 6, 8, 9, 12, 30, 4096])), "-t": lambda: rng.choice("dox")}


def drawn_of(tool, rng, data, chosen):
    """The words of each option that is chosen, a value in the next word or in its own."""
    values = options_of(tool, rng, data)
    texts = ((name, values[name] and values[name]()) for name in chosen)
    return [[name] if text is None else [name + text] if rng.randrange(4) == 0 else [name, text]
            for name, text in texts]


def choices(tool, names, most):
    """Each so many names at most of which one of a set that exclude one another is chosen."""
    return [c for n in range(most + 1) for c in itertools.combinations(names, n)
            if all(len(group & set(c)) < 2 for group in ALONE.get(tool, []))]


def dump_case(tool, chosen, rng):
    data = some_bytes(rng, 96 if "-b" in chosen or len(chosen) > 1 else 330)
    data = data.replace(b"\t", b" ") if tool == "strings" else data
    drawn = drawn_of(tool, rng, data, chosen)
    rng.shuffle(drawn)
    front = [["-C"]] if tool == "hexdump" else []
    if tool == "hexdump" and ["-v"] in drawn and rng.randrange(2):
        front, drawn = [["-Cv"]], [words for words in drawn if words != ["-v"]]
    words = [word for group in front + drawn for word in group]
    if rng.randrange(3) == 0 or ("-i" in chosen and rng.randrange(2)):
        words.append(rng.choice(NAMES))
    return Case(tool, words, data, " ".join(chosen) or "no options")


LENGTHS = [*range(67), 127, 128, 129, 255, 256, 257, 511, 512, 513, 599, 600]
OF_EACH_LENGTH = {"xxd": ["", "-b", "-p", "-i"], "od": [""], "hexdump": ["-C"], "strings": [""], "dd": [""]}
# Lines that are made value by value: of each length, and many of which none repeats the one before; every byte is
# among them.
LINES = {"od": ["-b", "-o", "-t x1", "-t x2", "-t x4", "-t x8"], "hexdump": ["-C"]}
ROWS = bytes(itertools.accumulate(range(599), lambda byte, _: (byte * 5 + 37) % 256, initial=11))
# Options that od has beside POSIX': what is read in lines of each, the last of them perhaps cut, and with lines that repeat.
MORE = {"od": ["-i", "-l", "-t x", "-t d", "-t oC", "-t dS", "-t uI", "-t xL", "--endian=big", "--endian=little -t x8",
               "--endian big -t x4", "--endian=big -t d2", "--endian=big -c", "-w4 -t x2", "--width=3 -b", "-w", "-cvw", "-w1 -c",
               "-w8 -t o8", "-w20 -t u4 -A n", "-w16", "-w256 -t d1", "-w24 --endian=big -t x8", "-w2 -A x -v", "-Ad -w6 -d",
               "-N 1kB -b", "-N 1K", "-N 1MiB -x", "-j 0G -N 0x1kB -l", "-N 1TB -c", "-N 0P", "-N 1m"]}
BEHIND = {"od": ["-j 1kB", "-j 1K -w32 -t x1", "-j 1KiB -N 1kB -i", "-j 1k --endian=big -t x2"]}
FOLDS = b"abcdefgh" * 9 + b"ABCD" * 40 + bytes(300) + b"end"
# Conversions of each front of a text.
TEXT = b"one\ntwo  \n\na longer Line with  spaces   \nq\xe9\xff\0\n\nlast"
OF_EACH_FRONT = ["ibs=7 conv=sync,ucase", "ibs=1 cbs=5 conv=block", "ibs=16 cbs=5 conv=unblock,lcase",
                 "ibs=2 cbs=3 conv=unblock,sync"]


def length_cases(tool):
    """Few options, on an input of each length: for strings a run of letters, else one byte behind the other where they
    are few."""
    for line, size in itertools.product(OF_EACH_LENGTH[tool], LENGTHS):
        data = b"a" * size if tool == "strings" else bytes(range(size)) if size < 80 else b"\7" * size
        yield Case(tool, line.split(), data, line or "a length")


# What hands type to xxd beside what is drawn: on some lengths, and words behind one dash on one.
HAND_LENGTHS = [0, 1, 2, 3, 5, 8, 15, 16, 17, 31, 32, 33, 64, 255, 256, 257, 511, 512, 513]
HAND_LINES = ["-p -c 0", "-p -c 0 -u", "-p -c 0 -s 3 -l 40 in.bin", "-i -n name", "-i -n 9.a-b in.bin", "-n name",
              "-d", "-d -b", "-d -c 5 -g 3 -o 99999980", "-d -o 4294967290", "-e", "-e -u", "-e -g 2", "-e -g 8 -c 24", "-e -g 0 -c 32",
              "-e -g 1 -c 5", "-e -d -c 4", "-e -o 4294967290 -s 1 in.bin"]
HAND_WORDS = ["-ps", "-plain", "-postscript -uppercase", "-bits", "-cols 8", "-group 4", "-groupsize 4 -cols 12", "-decimal", "-include", "-len 5",
              "-include -name a.b", "-offset 16", "-seek 2 in.bin", "-skip 0x2 in.bin", "-uppercase -", "-ps in.bin", "-"]


def hand_cases(tool, rng):
    """All cases of what hands type."""
    yield from (Case(tool, line.split(), some_row(rng, size), line) for line in HAND_LINES for size in HAND_LENGTHS)
    yield from (Case(tool, line.split(), some_row(rng, 21), line) for line in HAND_WORDS)


# Lines of zeros in rows for xxd -a: what stands on each line, by its letter, with what comes before and behind a page, and each
# line that an option makes.
ZERO_ROWS = ["", "s", "z", "zs", "zz", "zzs", "zzz", "zzzs", "zzzz", "zzzzz", "xz", "xzz", "xzzz", "xzzzz", "zx", "zzx", "zzzx", "zzzzx",
             "xzzxzzzxzx", "zzy", "zzzy", "xs", "xzs", "xzzs", "xzzzs", "xzxzxz", "zzxzz", "zzzxzzz", "zzzzxzzzz", "lzfzzl", "zlzfzzzl"]
ZERO_LINES = ["-a -b", "-a -e", "-a -d", "-a -u", "-a -c 8", "-a -c 5 -g 2", "-a -p", "-a -i", "-a -o 4294967200", "-a -s 8 in.bin", "-a -l 56",
              "-a -d -b", "-e -d -a", "-a -a", "-a -a -a", "-autoskip", "-a -c 256 -b", "-a -c 1", "-a -g 0", "-a -p -c 0"]
ZERO_SIZES = {"-a": (496, 512, 528, 12784, 12800), "-a -c 5": (7445, 7450), "-a -b": (4086, 4092, 4098)}
ZERO_TEXTS = {"x": b"sixteen letters.", "z": bytes(16), "s": bytes(5), "y": b"less", "f": b"\1" + bytes(15), "l": bytes(15) + b"\1"}


def zero_cases(tool, rng):
    """All cases of rows of zeros: as they are drawn above, under other options, and at the bounds of a page and of a small one."""
    made = {row: b"".join(ZERO_TEXTS[letter] for letter in row) for row in ZERO_ROWS}
    yield from (Case(tool, ["-a"], data, f"-a, {row or 'nothing'}") for row, data in made.items())
    yield from (Case(tool, line.split(), made[row], f"{line}, {row}") for line in ZERO_LINES for row in ("xzzxzzzxzx", "zzzzs", "xzzzz")
                if row in made)
    yield from (Case(tool, line.split(), bytes(size) + tail, f"{line}, {size} zeros and {len(tail)} others")
                for line, sizes in ZERO_SIZES.items() for size in sizes for tail in (b"", b"a"))
    yield from (Case(tool, ["-a", "-b", "-c", "16"], bytes(4096 - 16 * k - 16) + b"a" * 16 + bytes(16 * n) + tail, f"{n} of zeros, {k} in a page")
                for n in (1, 2, 3, 4, 5) for k in range(n + 1) for tail in (b"", b"b"))


def some_row(rng, size):
    """So many bytes, half of which print."""
    return bytes(rng.randrange(256) if rng.randrange(2) else rng.randrange(32, 127) for _ in range(size))


# Characters of strings: of each encoding beside text in all, whole and cut, with tabs, and at places that they don't divide.
CHARS_OF = {"S": "latin-1", "b": "utf-16-be", "l": "utf-16-le", "B": "utf-32-be", "L": "utf-32-le"}
CHAR_LINES = ["", "-n 1", "-n 2", "-t x", "-t d -n 3", "-a -n 5 -to", "-n 9 in.bin", "-n 4096"]


def char_cases(tool, rng):
    """All cases of characters."""
    yield from (Case(tool, f"-e {letter} {line}".split(), some_chars(rng, parts), f"-e {letter} {line}".strip())
                for letter in CHARS_OF for line in CHAR_LINES for parts in (0, 1, 2, 3, 5, 8, 13))
    yield from (Case(tool, [f"-e{letter}", "-t", "d"], bytes(cut) + "end\tof it".encode(coding), f"-e{letter}, over a block's end")
                for letter, coding in CHARS_OF.items() for cut in (16379, 16382, 16383))


def some_chars(rng, parts):
    """So many parts: texts in an encoding, perhaps cut, and bytes of which many are 0."""
    texts = ["a", "ab c", "tab\there", "~ }|{", "\x7f\x1fdel", "\u00e9t\u00e9 dix", "sixteen letters."]
    found = [rng.choice([bytes(rng.choice([0, 0, 9, 65, 127, 128, 255]) for _ in range(rng.randrange(9))),
                         rng.choice(texts).encode(rng.choice(list(CHARS_OF.values())))[rng.randrange(3):][:rng.choice([99, 99, 7])]])
             for _ in range(parts)]
    return b"".join(found)


# Several types of od, and the bytes as text: on some lengths, and with lines that repeat.
ROW_LENGTHS = [0, 1, 3, 8, 15, 16, 17, 32, 63, 257]
ROW_LINES = ["-t x1 -t c", "-t x1c", "-xc", "-t x1z", "-A x -t x8zd4z", "-w4 -t x1z -t c", "-bcx -A n", "-t c -t x1 -t d2 -t u8", "-vw24 -ct x4z",
             "-A d -t o8 -t x1 -w8", "-t d1z -t o1", "-t xCz -t xSz --endian=big", "-cbdiloxs", "-t x1zc -j 3 -N 40", "-w1 -t c -t d1",
             "-w256 -t d1 -t u8z -t c", "-t x1 -t x1z", "-w20 -t d4 -t u2"]


def row_cases(tool, rng):
    """All cases of several types."""
    yield from (Case(tool, line.split(), some_row(rng, size), line) for line in ROW_LINES for size in ROW_LENGTHS
                if "-j" not in line or size >= 3)
    yield from (Case(tool, line.split(), FOLDS, line) for line in ROW_LINES)


# Numbers of dd as hands type them, in sizes and in numbers of blocks.
DD_HANDS = ["bs=3c", "bs=5w count=2", "ibs=1kB obs=7c", "ibs=1KB skip=1", "ibs=1kiB count=1c", "bs=1KiB skip=1", "obs=1MB", "obs=1MiB ibs=2w",
            "bs=2x1kB count=1", "bs=64M conv=ucase", "bs=33MB conv=lcase", "bs=17MiB", "bs=1c skip=2x3w count=1k", "ibs=2c cbs=1kB conv=block",
            "cbs=1w conv=unblock", "obs=1GiB", "bs=1w count=1023G", "bs=1G", "status=noxfer bs=100MB"]


def dd_hand_cases(tool, rng):
    """All cases of such numbers."""
    yield from (Case(tool, line.split(), (b"aBcd e" * 400)[:size], line) for line in DD_HANDS for size in (0, 7, 1025, 2203))


def refused_cases(tool):
    for (name, *words), fault in ((words.split(" "), fault) for words, fault in rows(read("tools/record/refused.txt"))):
        if name == tool:
            yield Case(tool, words, None, "refused", fault)


def word_cases(tool, rng):
    """All cases of words of a tool."""
    one, names = (dd_case, DD_NAMES) if tool == "dd" else (dump_case, options_of(tool, random.Random(0), b""))
    yield from (one(tool, chosen, rng) for chosen in choices(tool, names, 3)
                for _ in range(DRAWS[tool][len(chosen)]))
    yield from length_cases(tool)
    if tool == "dd":
        yield from (Case("dd", line.split(), TEXT[:size], line) for line in OF_EACH_FRONT
                    for size in range(len(TEXT) + 1))
    yield from refused_cases(tool)
    yield from (Case(tool, line.split(), ROWS[:size], f"lines, {line}") for line in LINES.get(tool, [])
                for size in [*range(17, 33), 600])
    yield from (Case(tool, line.split(), data, f"more, {line}") for line in MORE.get(tool, [])
                for data in (b"", ROWS[:7], ROWS[:33], ROWS[:100], FOLDS))
    yield from (Case(tool, line.split(), bytes(1000) + ROWS[:80], f"more, {line}") for line in BEHIND.get(tool, []))


# dd: operands, and words of one conv=.
DD_NAMES = ["ibs", "obs", "bs", "skip", "count", "if", "block", "unblock", "lcase", "ucase", "swab", "sync"]
DD_VALUES = {"obs": ["1", "2", "3", "8", "10", "64", "1K"], "skip": ["0", "1", "2"],
             "count": ["0", "1", "2", "3", "9", "1G"], "if": NAMES}


def dd_operands(rng, chosen):
    """The operands that are chosen, and cbs where a conversion needs it."""
    sizes = ["2", "4", "6", "16", "64", "1b", "2x3"]
    sizes += [] if "swab" in chosen else ["1", "3", "5", "7", "61", "512", "1k"]
    values = {**DD_VALUES, "ibs": sizes, "bs": sizes}
    operands = [f"{name}={rng.choice(values[name])}" for name in chosen if name in values]
    words = [name for name in chosen if name not in values]
    rng.shuffle(words)
    operands += ["conv=" + ",".join(words)] if words else []
    if "block" in chosen or "unblock" in chosen:
        operands.append("cbs=" + rng.choice(["1", "2", "3", "5", "8", "12", "80", "2x5"]))
    rng.shuffle(operands)
    return operands


def dd_case(tool, chosen, rng):
    data = some_bytes(rng, 96 if len(chosen) > 1 else 250)
    return Case(tool, dd_operands(rng, chosen), data, " ".join(chosen) or "no operands")


def image_case(tool, chosen, placed, rng):
    """dd onto an image: with or without seek, with or without notrunc."""
    case = dd_case(tool, [name for name in chosen if name != "if"], rng)
    conv = [word for word in case.words if word.startswith("conv=")]
    if "notrunc" in placed:
        case.words = [word for word in case.words if word not in conv]
        case.words.append((conv[0] + "," if conv else "conv=") + "notrunc")
    if "seek" in placed:
        case.words.insert(rng.randrange(len(case.words) + 1), "seek=" + rng.choice(["0", "1", "2", "5", "11"]))
    if "obs" not in chosen and "bs" not in chosen:
        case.words.append("obs=" + rng.choice(["1", "3", "4", "16"]))
    case.about, case.image = " ".join([*chosen, *placed]) or "no operands", some_bytes(rng, 96)
    return case


def image_cases(tool, rng):
    return [image_case(tool, chosen, placed, rng) for chosen in choices(tool, DD_NAMES, 2)
            for placed in ([], ["seek"], ["notrunc"], ["seek", "notrunc"])]


def case_lines(number_of, case, version, given=None):
    """The lines of a case: of words, or dd onto an image and its undo. With a line of what is given its output is told
    by a sum."""
    size = "" if case.data is None else f", {len(case.data)} byte{'' if len(case.data) == 1 else 's'}"
    source = f"{version}; FORMATS.md, undoing" if case.image is not None else \
        f"{version} refuses; FORMATS.md, faults" if case.fault else version
    lines = ["", f"case: {number_of:03} {case.about}{size}", f"from: {source}"]
    if case.image is not None:
        lines += [*form.bytes_lines("image", case.image), "dd: " + " ".join(case.words)]
        lines += form.bytes_lines("input", case.data)
        lines += [f"reply: copied 1 {case.records}", *form.bytes_lines("image", case.made)]
        return lines + ["undo: 1", "reply: undone 0", *form.bytes_lines("image", case.image)]
    lines.append("words: " + " ".join([case.tool, *map(form.word_text, case.words)]))
    if given:
        lines += [given, f"sum: {len(case.output)} {hashlib.md5(case.output).hexdigest()}"]
    else:
        lines += form.bytes_lines("input", case.data) if case.data is not None else []
        lines += form.text_lines("output", case.output) if case.output else []
    lines += [f"count: {case.count}"] if case.count is not None else []
    lines += [f"records: {case.records}"] if case.records else []
    return lines + ([f"fault: {case.fault}", f"status: {STATUS.get(case.fault, 1)}"] if case.fault else [])


def differs(tools, bx, case):
    """What bx does else, or None. A transfer onto an image is undone, too."""
    output, said, status, made = tools.do([bx, case.tool], case)
    same = (output, status, made) == (case.output, STATUS.get(case.fault, 1), case.made)
    same = same and (case.image is None or tools.undone(bx) == case.image)
    if case.fault or case.tool == "dd":
        same = same and (said == f"bx: {case.fault}\n" if case.fault else told_records(said) == case.records)
    line = f"{case.tool} {' '.join(case.words)} on {case.data!r}"
    return None if same else f"{line}\n  bx:   {output!r} {said!r} {status}\n  real: {case.output!r}"


# Each file: its name, kind, tool, and what makes its cases.
FILES = [*((tool, "words", tool, word_cases) for tool in ("xxd", "od", "hexdump", "strings", "dd")),
         ("dd_images", "commands", "dd", image_cases), ("xxd_hands", "words", "xxd", hand_cases),
         ("dd_hands", "words", "dd", dd_hand_cases), ("od_rows", "words", "od", row_cases),
         ("strings_chars", "words", "strings", char_cases), ("xxd_zeros", "words", "xxd", zero_cases)]


def run(options):
    """Writes the files, or compares what bx does; whether it does something else."""
    bad, tools = 0, Tools()
    for name, kind, tool, maker in FILES:
        cases = list(maker(tool, random.Random(f"{name} {options.seed}")))
        for case in cases:
            tools.record(case)
        if options.compare:
            found = [differs(tools, options.bx, case) for case in cases]
            bad += sum(map(bool, found))
            print(*filter(None, found), f"{name}: {len(cases)} cases", sep="\n")
        else:
            version, line, package = versions(tool)
            head = [f"# What {tool} does, recorded by tools/cases.py with seed {options.seed}.", f"# {line}",
                    f"# Debian: {package}"]
            lines = [line for number_of, case in enumerate(cases, 1) for line in case_lines(number_of, case, version)]
            form.write(name, [*head, "", f"kind: {kind}", *lines], options.out)
    return bad > 0
