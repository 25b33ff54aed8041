"""What the real tools do, and what they say of themselves."""
import os
import pathlib
import re
import subprocess
import sys
import tempfile

ENV = {**os.environ, "LC_ALL": "C"}
NAMES = ["in.bin", "1a.bin", "folder/b-2.x", "two words", "_c.d.e"]


class Tools:
    """The real tools, in a folder of files."""

    def __init__(self):
        self.kept = tempfile.TemporaryDirectory()
        self.folder = pathlib.Path(self.kept.name)
        (self.folder / "folder").mkdir()

    def run(self, command, data=b""):
        """Output, messages and status. Each name that the command has holds the input, and so does standard input,
        which is a file."""
        for name in [*(name for name in NAMES if name in " ".join(command)), "stdin"]:
            (self.folder / name).write_bytes(data)
        with open(self.folder / "stdin", "rb") as given:
            done = subprocess.run(command, stdin=given, capture_output=True, env=ENV, cwd=self.folder, timeout=600,
                                  check=False)
        return done.stdout, done.stderr.decode(), done.returncode

    def do(self, front, case):
        """What a program does with the words of a case, onto the case's image if it has one, and what it leaves there."""
        image = self.folder / "image"
        if case.image is None:
            return *self.run([*front, *case.words], case.data or b""), None
        image.write_bytes(case.image)
        return *self.run([*front, *case.words, "of=image"], case.data), image.read_bytes()

    def record(self, case):
        """Fills in what the tool does. A tool that doesn't do what its list or its options say stops the recording."""
        output, said, status, case.made = self.do([case.tool], case)
        if case.tool == "od" and "cannot skip past end" in said:
            case.fault = "skip is past the end of the input"
        if status != (1 if case.fault else 0) or output and (case.fault or case.made is not None):
            sys.exit(f"{case.tool} {' '.join(case.words)}: the tool did something else: {said}")
        if not case.fault:
            is_padded = case.tool == "strings" and any(word.startswith("-t") for word in case.words)
            case.output = re.sub(rb"^ +", b"", output, flags=re.M) if is_padded else output
            case.count, case.records = told_count(case), told_records(said) if case.tool == "dd" else None

    def undone(self, bx):
        """The image once bx has taken its change back, without its texts."""
        self.run([bx, "undo", "image"])
        for end in (".bxj", ".bxj.redo"):
            os.remove(self.folder / f"image{end}")
        return (self.folder / "image").read_bytes()


def value(words, option, default):
    """What stands behind an option of one letter, in the next word or in its own."""
    return next((word[2:] or after for word, after in zip(words, [*words[1:], ""]) if word.startswith(option)), default)


def told_count(case):
    """How many bytes were dumped, where the tool's text tells it: as the array's length, or by its end address, from
    which what is skipped is taken, which the tools read as decimal, hexadecimal or octal."""
    last = case.output.decode("latin-1").splitlines()[-1:]
    if case.tool == "xxd" and last and last[0].startswith("unsigned int"):
        return int(last[0].split(" ")[-1].rstrip(";"))
    radix = {"hexdump": "x", "od": value(case.words, "-A", "o")}.get(case.tool, "n")
    if not last or radix == "n":
        return None
    skipped = value(case.words, "-j" if case.tool == "od" else "-s", "0")
    return int(last[0], {"d": 10, "o": 8, "x": 16}[radix]) - skipped_bytes(skipped)


def skipped_bytes(text):
    """The bytes that od's -j names: a number, and perhaps a unit, as k, KiB or kB."""
    digits, letter, end = re.fullmatch(r"(0[xX][0-9a-fA-F]+|\d+)(?:([kKmMGTP])(iB|B)?)?", text).groups()
    unit = (1000 if end == "B" else 1024) ** (1 + "kmgtp".index(letter.lower())) if letter else 1
    return int(re.sub(r"^0(?=\d)", "0o", digits), 0) * unit


def told_records(said):
    """dd's counts: blocks in, blocks out, and records that were cut."""
    found = {what: n for n, what in re.findall(r"^(\d+\+\d+|\d+) (records in|records out|truncated record)s?$", said,
                                               re.M)}
    return f"{found['records in']} {found['records out']} {found.get('truncated record', '0')}"


PACKAGES = {"xxd": "xxd", "od": "coreutils", "hexdump": "bsdextrautils", "strings": "binutils", "dd": "coreutils"}


def versions(tool):
    """What the tool says of itself, and its package."""
    done = subprocess.run([tool, "-v" if tool == "xxd" else "--version"], capture_output=True, text=True, check=True)
    line = (done.stdout + done.stderr).splitlines()[0]
    found = re.search(r"\d{4}-\d\d-\d\d|\d+(\.\d+)+", line)
    query = ["dpkg-query", "-W", "-f", "${Package} ${Version}", PACKAGES[tool]]
    package = subprocess.run(query, capture_output=True, text=True, check=False).stdout or "no package of Debian"
    return f"{tool} {found[0]}", line, package
