"""The form of case files (docs/CASES.md): bytes, texts and words as lines, and the bytes and lines that they stand
for."""
import functools
import pathlib
import re

DATA = pathlib.Path(__file__).resolve().parent.parent.parent / "crates" / "test_cases" / "data"
WIDTH = 100
# a byte twelve times or sixteen bytes twice, and text up to such a byte
RUN, TEXT = (re.compile(form, re.S) for form in (rb"(.)\1{11,}|(.{16})\2+", rb"(?:(?!(.)\1{11})[ -~\n]){,64}"))


def seeded(count, seed):
    """The first bytes of a seed."""
    made = bytearray()
    for _ in range(count):
        seed = (seed * 1103515245 + 12345) % 2**32
        made.append(seed // 65536 % 256)
    return bytes(made)


@functools.cache
def made_of(text):
    """The bytes of parts: N@SEED, N*DIGITS, DIGITS."""
    parts = re.findall(r"(?:(\d+)@(\d+)|(?:(\d+)\*)?([0-9a-f]*))(?: |$)", text)
    return b"".join(seeded(int(count), int(seed)) if seed else int(times or 1) * bytes.fromhex(digits)
                    for count, seed, times, digits in parts)


def dump_line(at, row):
    """The default line of xxd."""
    pairs = "".join(" " + row[i : i + 2].hex().ljust(4) for i in range(0, 16, 2))
    return f"{at:08x}:{pairs}  " + "".join(chr(b) if 0x20 <= b <= 0x7E else "." for b in row)


def quoted(data):
    """A text in quotes."""
    shown = {0x0a: "\\n", 0x22: '\\"', 0x5c: "\\\\"}
    return '"' + "".join(shown.get(b) or (chr(b) if 0x20 <= b < 0x7f else f"\\x{b:02x}") for b in data) + '"'


def parts_of(data):
    """The bytes as parts: runs by their count, texts of at least four bytes in quotes, else digits."""
    parts, plain, at = [], b"", 0
    while at < len(data):
        run, text = RUN.match(data, at), TEXT.match(data, at)
        if not run and len(text[0]) < 4 and (plain or text.end() < len(data) or not text[0]):
            plain, at = plain + data[at:at + 1], at + 1
            continue
        found, part = run or text, run and (run[1] or run[2]) or text[0]
        times = f"{len(found[0]) // len(part)}*" if len(found[0]) > len(part) else ""
        parts += [*digits_of(plain), times + (quoted(part) if re.fullmatch(rb"[ -~\n]+", part) else part.hex())]
        plain, at = b"", found.end()
    return parts + digits_of(plain)


def digits_of(plain):
    return [plain[i:i + 32].hex() for i in range(0, len(plain), 32)]


def rows_of(data):
    """The parts, as many on a line as are short enough."""
    rows = []
    for part in parts_of(data):
        if rows and len(rows[-1]) + 1 + len(part) <= WIDTH:
            rows[-1] += " " + part
        else:
            rows.append(part)
    return rows or ['""']


def bytes_lines(word, data):
    rows = rows_of(data)
    return [f"{word}: {rows[0]}"] if len(rows) == 1 else [f"{word}:"] + ["+ " + row for row in rows]


def text_lines(word, data):
    """A text: each line that prints, and doesn't end in a space, behind a bar."""
    lines = []
    for line in re.findall(rb"[^\n]*\n|[^\n]+", data):
        shown = [f"| {line.decode()}".rstrip()] if re.fullmatch(rb"([ -~]*[!-~])?\n", line) else None
        lines += shown or ["+ " + row for row in rows_of(line)]
    return [f"{word}:"] + lines if any(line[0] == "|" for line in lines) else bytes_lines(word, data)


def word_text(word):
    return word if word and word[0] != '"' and all(0x20 < ord(c) < 0x7f for c in word) else quoted(word.encode())


def write(name, lines, folder=None):
    """Writes a file of cases."""
    text = "\n".join(lines) + "\n"
    (pathlib.Path(folder or DATA) / f"{name}.cases").write_text(text, encoding="ascii")
    print(f"{name}: {sum(line.startswith('case: ') for line in lines)} cases, {len(text)} bytes")
