#!/usr/bin/env python3
"""Feeds the built program by AFL++ (afl-fuzz, of Debian's package afl++), all subjects side by side, and says what it
found.

Usage: tests/fuzz/run.py [--bx PATH] [--minutes N] [--corpus] [--serve] [SUBJECT ..]

tests/fuzz/corpus/SUBJECT has the inputs to begin with, which are played first, and with --corpus alone, for which no
afl-fuzz is needed. What AFL++ writes is in tests/fuzz/out. A finding is a crash, a run of more than a second of
processor time or ten seconds, more than 64 MiB of memory, a changed file behind a refusal, and a command that doesn't
take back what the one before it did. Each has a line with its file, and the status is 1 where there is one.

With --serve this is the fork server of afl-fuzz, which gets an abort for each finding. What it takes for coverage, of a
program that isn't instrumented, is which command gave which status, fault and number of lines."""
import contextlib
import ctypes
import os
import pathlib
import re
import resource
import shutil
import struct
import subprocess
import sys
import tempfile
import threading
import zlib

HERE = pathlib.Path(__file__).resolve().parent
sys.path.insert(0, str(HERE.parent.parent / "tools"))

from shared import asked  # pylint: disable=wrong-import-position

SECONDS, WAITING, KIB, OUTPUT = 1, 10, 65536, 2**20
IMAGE = b"ABxyEFGHIJKLMNOPQRSTUVWXYZ012345"
JOURNAL = (HERE / "corpus" / "journal" / "one").read_bytes()
CONTROL, STATUS, AREA = 198, 199, 65536
ENV = {"LC_ALL": "C", "PATH": os.environ["PATH"], "ASAN_OPTIONS": "abort_on_error=1:detect_leaks=0:symbolize=0"}
# a program that a kernel hands no crash to, that isn't instrumented, and draws nothing
AFL = {"AFL_SKIP_BIN_CHECK": "1", "AFL_SKIP_CPUFREQ": "1", "AFL_NO_AFFINITY": "1", "AFL_NO_UI": "1", "AFL_QUIET": "1",
       "AFL_I_DONT_CARE_ABOUT_MISSING_CRASHES": "1", "AFL_MAP_SIZE": "65536", "AFL_FORKSRV_INIT_TMOUT": "60000"}


class Finding(Exception):
    pass


def content(name):
    """A file's length, and its bytes where they aren't many."""
    with open(name, "rb") as file:
        return os.fstat(file.fileno()).st_size, file.read(OUTPUT)


class Play:
    """A folder with an image and what lies beside it. `seen` has a text for each thing that a run did."""

    def __init__(self, bx):
        self.bx, self.seen = bx, []
        pathlib.Path("image").write_bytes(IMAGE)

    def put(self, **beside):
        for end, text in beside.items():
            pathlib.Path("image." + end.replace("_", ".")).write_bytes(text)

    def files(self):
        return {name: content(name) for name in sorted(os.listdir(b"."))}

    def run(self, *words, text=b""):
        """Runs bx on a text, which is killed where it takes too long, and reads what it writes up to a size. Answers
        whether the status is 0; behind another one each file is as before."""
        before, source, errors = self.files(), os.memfd_create("text"), os.memfd_create("errors")
        used = resource.getrusage(resource.RUSAGE_CHILDREN)
        os.pwrite(source, text, 0)
        process = subprocess.Popen([self.bx, *words], stdin=source, stdout=subprocess.PIPE, stderr=errors, env=ENV)
        late = threading.Timer(WAITING, process.kill)
        late.start()
        lines = process.stdout.read(OUTPUT).count(b"\n")
        process.stdout.close()
        process.wait()
        late.cancel()
        fault = os.pread(errors, 4096, 0)
        os.close(source)
        os.close(errors)
        if process.returncode not in (0, 1, 2):
            raise Finding(f"{words}: status {process.returncode}: {fault}")
        spent = resource.getrusage(resource.RUSAGE_CHILDREN)
        if spent.ru_utime + spent.ru_stime - used.ru_utime - used.ru_stime > SECONDS:
            raise Finding(f"{words}: more than {SECONDS} s")
        if spent.ru_maxrss > KIB:
            raise Finding(f"{words}: more than {KIB} KiB of memory")
        word = words[:1] if process.returncode != 2 else ()
        self.seen.append(repr((word, process.returncode, re.sub(rb"\d\d+", b"#", fault), min(lines, 16))))
        if process.returncode and b"interrupted" in fault:
            self.must("log", "image")
        if process.returncode and self.files() != before:
            raise Finding(f"{words}: status {process.returncode}, and files are changed: {fault}")
        return process.returncode == 0

    def must(self, *words):
        if not self.run(*words):
            raise Finding(f"{words}: refused: {self.seen[-1]}")

    def there_and_back(self, there, back, text=b""):
        """What a command does, another one takes back, to the byte and the length; not where much is to be kept for
        that."""
        before = content("image")
        if self.run(*there, text=text) and content("image")[0] <= OUTPUT:
            self.must(*back)
            if content("image") != before:
                raise Finding(f"{there}, {back}: the image is not as before")


def change(play, text, *command):
    """A command that reads a text and changes the image."""
    play.there_and_back([*command, "image"], ["undo", "image"], text)


def steps(play, there, back, **beside):
    """Opens, which may recover, and then looks, goes, and comes back."""
    play.put(**beside)
    if play.run("log", "-v", "image"):
        play.must("log", "image")
        play.run("show", "-d", "image")
        play.run("show", "-r", "image")
        play.there_and_back([there, "image"], [back, "image"])


def words(play, text):
    """Each line is a word. None leads out of the folder, and nothing large is written onto an image, which `dd` holds
    in memory."""
    play.put(bxj=JOURNAL)
    said = [line.replace(b"/", b".").replace(b"\0", b".")[:200] for line in text.splitlines()][:40]
    if not (any(word.startswith(b"of=") for word in said)
            and any(re.search(rb"\d{5}|\d[a-zA-Z]", word) for word in said)):
        play.run(*said, text=text)


SUBJECTS = {"revert": lambda play, text: change(play, text, "revert"),
            "plain": lambda play, text: change(play, text, "revert", "-p"),
            "patch": lambda play, text: change(play, text, "patch"),
            "journal": lambda play, text: steps(play, "undo", "redo", bxj=text),
            "redo": lambda play, text: steps(play, "redo", "undo", bxj=b"", bxj_redo=text), "words": words}


def play_once(bx, subject, text):
    """Plays a text in a new folder of memory, which is removed. Answers what was seen, and the finding if there is
    one."""
    memory = "/dev/shm" if os.path.isdir("/dev/shm") else None
    with tempfile.TemporaryDirectory(prefix="bx-fuzz-", dir=memory) as folder, contextlib.chdir(folder):
        play = Play(bx)
        try:
            SUBJECTS[subject](play, text)
        except (Finding, OSError) as finding:
            return [], finding
        return play.seen, None


def serve(bx, subject):
    """The fork server: a child for each text on standard input, which marks in afl-fuzz's area what was seen."""
    attach = ctypes.CDLL(None).shmat
    attach.restype = ctypes.c_void_p
    area = (ctypes.c_ubyte * AREA).from_address(attach(int(os.environ["__AFL_SHM_ID"]), None, 0))
    resource.setrlimit(resource.RLIMIT_CORE, (0, 0))
    os.write(STATUS, bytes(4))
    while len(os.read(CONTROL, 4)) == 4:
        child = os.fork()
        if child == 0:
            seen, finding = play_once(bx, subject, os.read(0, OUTPUT))
            for place, it in enumerate(["", *seen]):
                area[zlib.crc32(f"{place} {it}".encode()) % AREA] = 1
            if finding:
                os.abort()
            os._exit(0)
        os.write(STATUS, struct.pack("i", child))
        os.write(STATUS, struct.pack("i", os.waitpid(child, 0)[1]))


def findings(bx, subject, files):
    """Writes a line for each file with a finding, which is played again, as a second may pass on a busy machine, and
    answers how many there are."""
    count = 0
    for path in files:
        text = path.read_bytes()
        if found := play_once(bx, subject, text)[1] and play_once(bx, subject, text)[1]:
            print(f"finding  {subject} {path}: {found}", flush=True)
            count += 1
    return count


def fuzz(bx, subject, seconds):
    """Starts afl-fuzz on a subject. It has a minute for an input: `Play.run` looks after each run."""
    out = HERE / "out" / subject
    shutil.rmtree(out, ignore_errors=True)
    out.mkdir(parents=True)
    words = ["afl-fuzz", "-i", HERE / "corpus" / subject, "-o", out, "-V", str(seconds), "-m", "none", "-t", "60000",
             "--", sys.executable, HERE / "run.py", "--serve", "--bx", bx, subject]
    with open(out / "log", "wb") as log:
        return subprocess.Popen(words, env={**os.environ, **AFL}, stdin=subprocess.DEVNULL, stdout=log, stderr=log)


def judge(bx, subject, status):
    """The line of a subject, and those of its findings. Answers how many these are."""
    out = HERE / "out" / subject / "default"
    stats = (out / "fuzzer_stats").read_text() if (out / "fuzzer_stats").exists() else ""
    value = dict(re.findall(r"^(\w+) *: (.*)$", stats, re.M))
    kept = [path for part in ("crashes", "hangs") for path in sorted((out / part).glob("id*"))]
    found = findings(bx, subject, kept)
    print(f"{subject}: {value.get('execs_done', 'no')} inputs, {value.get('corpus_count', '0')} kept, "
          f"{len(kept)} stopped, {found} findings")
    if status or not value:
        print(f"WRONG {subject}: afl-fuzz ended with {status}: tests/fuzz/out/{subject}/log")
    return found + bool(status or not value)


def main():
    options = asked(__doc__, minutes=10.0, names=SUBJECTS)
    bx, chosen = options.bx, options.names
    if options.serve:
        serve(bx, chosen[0])
        return
    found = sum(findings(bx, subject, sorted((HERE / "corpus" / subject).iterdir())) for subject in chosen)
    if options.corpus or found:
        print(f"the corpus of {len(chosen)} subjects: {found} findings")
        sys.exit(1 if found else 0)
    if not shutil.which("afl-fuzz"):
        sys.exit("not installed: afl-fuzz (Debian's package afl++)")
    running = [(subject, fuzz(bx, subject, round(options.minutes * 60))) for subject in chosen]
    sys.exit(1 if sum([judge(bx, subject, process.wait()) for subject, process in running]) else 0)


if __name__ == "__main__":
    main()
