"""Cases around the blocks, pages and windows of bx, by the lines of bounds.txt.

Each length is one below a boundary of docs/CASES.md, at it, one above it, or one above three of them. Inputs are bytes
of a seed (for strings words that are repeated), so a case says a length and a seed. Three files are written:

- dump_bounds.cases: what xxd, od, hexdump -C, strings and dd write, as length and MD5 of the real tool's output;
- dd_lengths.cases: dd onto an image for each length from 0 to 600, with the real tool's counts and image;
- image_bounds.cases: changes of large images, their undo and redo, and their journals' texts to the byte. What dd
  leaves and counts is the real tool's; saved lines are default lines of xxd, as docs/FORMATS.md has them. The script
  makes these as the player does, and stops where the real xxd writes other lines."""
import functools
import itertools
import re
import sys

from record import form
from record.real import Tools, versions
from record.words import Case, case_lines
from shared import part, rows

TEXT, TOOLS = "tools/record/bounds.txt", Tools()
ROW = b"".join(b"stuvwxyz"[:n] + bytes([0, 10, 127, 200][n % 4:][:1]) for n in range(9)) + b"a longer one"


def bare(line):
    """A line without its parts of no bytes."""
    return re.sub(r"(?<=: )$", '""', re.sub(r"(?<= )0(?:@\d+|\*\w*)(?: |$)", "", line))


def sizes_of(cell):
    """The sizes that a cell names."""
    around = [[n - 1, n, n + 1, 3 * n + 1] if mark else [n]
              for mark, n in ((word[0] == "~", int(word.strip("~"))) for word in cell.split())]
    return sum(around, [])


def given_to(line, size):
    """What a tool reads: bytes of a seed; and for strings runs of letters of each length up to eight and a longer one,
    again and again, without a tab, which strings prints."""
    whole, rest = divmod(size, len(ROW))
    return f"{whole}*{ROW.hex()} {rest and 1}*{ROW[:rest].hex()}" if line.startswith("strings") else f"{size}@1"


def dump_lines(said):
    """The lines of the cases of words."""
    cases = [(line.format(size), given.format(size) or given_to(line, size)) for lines, given, sizes in rows(part(TEXT, "Dumps"))
             for line, size in itertools.product(lines.split("; "), sizes_of(sizes))]
    for number, (line, given) in enumerate(cases, 1):
        tool, *options = line.split()
        case = Case(tool, options, form.made_of(given), line)
        TOOLS.record(case)
        yield from case_lines(number, case, said[tool], bare(f"input: {given}"))


def filled(lines):
    """Lines of a case with what dd counts. It stops where dd leaves another image than the next line on it has, or
    where the real xxd writes other lines of a run than the player makes."""
    image, operands, counts = b"", [], ""
    for number, line in enumerate(lines):
        word, _, rest = line.partition(": ")
        if word == "image":
            image = form.made_of(rest)
        elif word == "dd":
            operands = rest.split()
        elif word == "input":
            done = Case("dd", operands, form.made_of(rest), "", image=image)
            TOOLS.record(done)
            counts = done.records
            if done.made != form.made_of(lines[number + 2]):
                sys.exit(f"dd {' '.join(operands)}, {rest}: the tool left something else")
        elif line.startswith("> "):
            check_dump(*line[2:].split(" ", 1))
        yield line.replace("?", counts)


@functools.cache
def check_dump(at, parts):
    data = form.made_of(parts)
    made = b"".join(form.dump_line(int(at) + i, data[i:i + 16]).encode() + b"\n" for i in range(0, len(data), 16))
    if TOOLS.run(["xxd", "-o", at], data)[0] != made:
        sys.exit(f"xxd of {parts}: the tool writes something else")


def case(name, **values):
    """The lines of a case of bounds.txt with its values."""
    return [bare(line) for line in part(TEXT, name).rstrip("\n").format(**values).split("\n")]


def length_cases(version):
    """dd onto an image in blocks of the default 512 bytes, and of 61, for each length from 0 to 600, each undone."""
    for operand in ("ibs=512", "bs=61"):
        front = ["", f"case: dd {operand}, 0 to 600 bytes", f"from: {version}; FORMATS.md, undoing", "image: 300@9"]
        yield front + [line for size in range(601) for line in case("lengths", operand=operand, size=size)]


def image_cases():
    for name, *cells in rows(part(TEXT, "Images")):
        values = dict(cell.split("=") for cell in cells)
        for size in sizes_of(values.pop("size")):
            numbers = {key: int(value) for key, value in values.items() if value.isdigit()}
            yield case(name, **{**values, **numbers, "size": size})


def run(options):
    said = {tool: versions(tool) for tool in ("xxd", "od", "hexdump", "strings", "dd")}
    names = {tool: name for tool, (name, *_) in said.items()}
    for name, kind, about, lines in (
            ("dump_bounds", "words", "What is written of inputs around each block", dump_lines(names)),
            ("dd_lengths", "commands", "dd onto an image, for each length from 0 to 600",
             [line for lines in length_cases(names["dd"]) for line in filled(lines)]),
            ("image_bounds", "commands", "Changes of images around each page and window",
             [line for lines in image_cases() for line in ["", *filled(lines)]])):
        front = [f"# {about}, recorded by tools/cases.py.",
                 *(f"# {line}; {package}" for _, line, package in said.values())]
        form.write(name, [*front, "", f"kind: {kind}", *lines], options.out)
    return False
