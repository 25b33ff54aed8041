"""A folder with an image and its texts, the calls of bx on them as strace shows them, and the files that these are
replayed on."""
import os
import pathlib
import re
import subprocess

from replay.losses import File, Line

# The letters of an order: the folder of the texts, the folder of the image, journal, image, redo file, the image's text.
PLACES = {"texts": "F", "images": "I", "texts/journal": "J", "images/image": "D", "texts/journal.redo": "R",
          "texts/journal.image": "N"}
FILES = ("images/image", "texts/journal", "texts/journal.redo", "texts/journal.image")
LINE = re.compile(r"^(?:\d+ +)?(\w+)\((.*)\) += (\d+)(?:<(.*)>)?$")
NAMED = ("openat", "unlink", "unlinkat")
# What is replayed, and calls that would change a file in a way that isn't.
TRACED = (*NAMED, "pwrite64", "ftruncate", "fsync", "fdatasync", "write", "writev", "pwritev", "pwritev2", "fallocate",
          "truncate", "rename", "renameat", "renameat2", "link", "linkat", "copy_file_range", "sendfile")


class Room:
    """An image and its texts, each in a folder of its own; with -U in each command, where that is asked."""

    def __init__(self, bx, path):
        self.bx, self.path = bx, pathlib.Path(path)
        for name in ("images", "texts"):
            (self.path / name).mkdir(exist_ok=True)

    def put(self, content):
        """Writes a content into the files; None is no file."""
        for name, data in zip(FILES, content):
            if data is None:
                (self.path / name).unlink(missing_ok=True)
            else:
                (self.path / name).write_bytes(data)

    def get(self):
        paths = [self.path / name for name in FILES]
        return tuple(path.read_bytes() if path.exists() else None for path in paths)

    def run(self, words, given=b"", front=(), unsynced=False):
        """Runs a command on the image: its status, and what it writes. What it reads stands in the file `input`."""
        (self.path / "input").write_bytes(given)
        words = words.replace(" ", " -U ", 1) if unsynced else words
        for name, file in (("IMAGE", "images/image"), ("OF", "of=images/image")):
            words = words.replace(name, f"-J texts/journal {file}")
        return subprocess.run([*front, self.bx, *words.split()], cwd=self.path, stdin=subprocess.DEVNULL, check=False,
                              capture_output=True, text=True, errors="replace", timeout=600)

    def trace(self, words, given=b"", unsynced=False):
        """Runs a command under strace: what it answers, and its calls."""
        strace = ("strace", "-f", "-y", "-xx", "-s", "1000000", "-o", self.path / "trace", "-e",
                  "trace=" + ",".join(TRACED))
        done = self.run(words, given, strace, unsynced)
        lines = (self.path / "trace").read_text(encoding="ascii").splitlines()
        return done, list(calls_of(lines, os.path.realpath(self.path)))


def plain(text):
    """The bytes of a text of strace, which shows each in hexadecimal digits."""
    return bytes.fromhex("".join(re.findall(r"\\x([0-9a-f]{2})", text)))


def calls_of(trace, room):
    """The calls on the files of a room: what is done, the file's letter, and of a write its place and bytes."""
    for name, words, result, opened in (call.groups() for call in map(LINE.match, trace) if call):
        quoted, descriptor = re.search(r'"([^"]*)"', words), re.match(r"\d+<([^>]*)>", words)
        path = plain(opened or quoted[1]) if name in NAMED else plain(descriptor[1]) if descriptor else b""
        letter = PLACES.get(os.path.relpath(os.path.join(room, path.decode()), room))
        match name:
            case _ if letter is None:
                continue
            case "pwrite64":
                yield "write", letter, int(words.split(", ")[-1]), plain(quoted[1])[:int(result)]
            case "ftruncate":
                yield "length", letter, int(words.split(", ")[-1])
            case "fsync" | "fdatasync":
                yield "sync", letter
            case "unlink" | "unlinkat":
                yield "name", letter, False
            case "openat" if "O_TRUNC" not in words:
                if "O_CREAT" in words:
                    yield "name", letter, True
            case _:
                raise ValueError(f"{name} is not replayed")


class Disk:
    """Image, journal, redo file and the image's text."""

    def __init__(self, *contents):
        *three, line = contents + (None,) * (4 - len(contents))
        self.files = {letter: File(letter != "D", content or b"", content is not None)
                      for letter, content in zip("DJR", three)} | {"N": Line(line or b"", line is not None)}

    def now(self):
        return tuple(file.now() for file in self.files.values())

    def is_settled(self):
        """Whether nothing can be lost, but of the image's text, whose last line is never synced."""
        return all(self.files[letter].is_settled() for letter in "DJR")

    def play(self, call, letter, *words):
        """A call on a file; of a folder the names of its files are synced."""
        if letter in "FI":
            for name in "JRN" if letter == "F" else "D":
                del self.files[name].names[:-1]
        else:
            getattr(self.files[letter], call)(*words)
