"""Looks whether the names and the files that documents cite stand in the sources, and their links lead to a file.

What counts is a whole span between ` and `, in the .md files but the changelog, outside of blocks of code. A name is a
word, or words with `::`, `.` or `/` between them: each has to stand in code, definitions, proofs, edits, cases, scripts
or the man page, or be the name of a file or a folder. A file is a span that ends as one: a file of the repository ends
with the same parts, where `crates`, `src`, `specs` and `proofs` may be left out."""
import pathlib
import re

from shared import ROOT, read

SOURCES = [".rt", ".antt", ".edit", ".cases", ".py", ".sh", ".1"]
FILE = re.compile(r"[\w./-]+\.(?:rt|antt|edit|cases|py|sh|md|fish|bash)")
NAME = re.compile(r"\w+(?:(?:::|\.|/)\w+)*")
# calls and crates of others, and a setting and a flag of Linux
OTHERS = {"O_NOFOLLOW", "arrayvec", "try_extend_from_slice", "libc", "protected_symlinks", "sync_data"}


def files():
    """The files of the repository, but for what is built."""
    folders = ["crates", "tools", "tests", "bench", "docs", "man", "completions"]
    found = [path for folder in folders for path in (ROOT / folder).rglob("*") if "out" not in path.parts]
    return [path.relative_to(ROOT) for path in found + list(ROOT.glob("*"))]


def bare(path):
    """The parts of a path that a document gives."""
    return [part for part in pathlib.PurePath(path).parts if part not in ("crates", "src", "specs", "proofs")]


def is_there(span, known, ends):
    """Whether what a span cites stands in the sources; what is no name or file passes."""
    if FILE.fullmatch(span) and "/" in span:
        return any(end[-len(bare(span)) :] == bare(span) for end in ends)
    if not NAME.fullmatch(span) or re.fullmatch(r"[0-9a-f]+", span):
        return True
    return all(word in known or word.isdigit() for word in re.split(r"::|\.|/", span))


def check(_options):
    paths, known, bad, count = files(), set(OTHERS), [], 0
    for path in paths:
        is_source = path.suffix in SOURCES or path.name in ("Makefile", "crates.txt")
        known |= {path.name, path.stem, *re.findall(r"\w+", f"{path.name} {read(path) if is_source else ''}")}
    ends = [bare(path) for path in paths]
    for page in [path for path in paths if path.suffix == ".md"]:
        text = read(page)
        cited = re.findall(r"`([^`\n]+)`", re.sub(r"(?ms)^```.*?^```", "", text)) if page.name != "CHANGELOG.md" else []
        count += len(cited)
        bad += [f"{page}: `{span}` stands nowhere" for span in cited if not is_there(span, known, ends)]
        bad += [f"{page}: no file {link}" for link in re.findall(r"\]\(([^)#:]+)\)", text)
                if not (ROOT / page.parent / link).exists()]
    return bad, f"{count} spans of documents: each name and file that they cite is there"
