"""Counts the phrases that are to go from documents (the .md files and the man page, without code) and comments of
the crates, and fails, with each place of a phrase, where one stands more often than its ceiling, which may only fall
('..' is an ellipsis).

It counts the words that people write, too, and --list prints them page by page. What is quoted or written by a script
is left out (quoted blocks, what stands between `<!-- written by` and `<!-- up to here -->`, docs/generated), and so are
the commands of the man page's roff. The first screen of README.md, up to its commands, alone has a ceiling."""
import re

from shared import ROOT, read

PHRASES = {
    "so many": r"\bso(?: |\n {0,3})many\b",
    "of which": r"\bof(?: |\n {0,3})which\b",
    "told": r"\btold\b",
    "be it": r"\bbe(?: |\n {0,3})it\b",
    "..": r"(?<![\w.)\]}/])\.\.(?![\w.=({/])",
}
# the most that there may be of a phrase in a place; none of any other
CEILINGS = {("comments of code", ".."): 2}
# the most words of README.md in front of its commands
MOST = 450


def without_code(text):
    """A document with its code blocks and code spans left out; lines stay where they are."""
    text = re.sub(r"^(```+).*?^\1", lambda block: "\n" * block.group().count("\n"), text, flags=re.M | re.S)
    return re.sub(r"`[^`\n]*`", "`", re.sub(r"^(?: {4}|\.\\\").*$", "", text, flags=re.M))


def written(text):
    """How many words of a page people write; the man page alone begins with a line of roff."""
    if text.startswith("."):
        text = re.sub(r'^\.(?:\\"|[A-Z]\w\b)|(?<=\s)[A-Z][a-z](?=\s)', "", text, flags=re.M)
    text = re.sub(r"<!-- written by.*?<!-- up to here -->", "", text, flags=re.S)
    text = re.sub(r"^```(?:antt|rust) (\S.*)\n(?:(?!```).*\n)*```$", r"\1", text, flags=re.M)
    return len(re.findall(r"\S*\w\S*", text))


def comments(text, mark):
    """The comments of a file, each on its line; all else is left out."""
    found = (re.search(rf"(?:^|\s){mark}(?:\s(.*))?$", line) for line in text.split("\n"))
    return re.sub(r"`[^`\n]*`", "`", "\n".join(match and match.group(1) or "" for match in found))


def check(options):
    found = sorted([*ROOT.glob("*.md"), *(ROOT / "docs").rglob("*.md"), ROOT / "man" / "bx.1"])
    pages = {str(path.relative_to(ROOT)): read(path) for path in found if "generated" not in path.parts}
    counts, bad, total = {name: written(text) for name, text in pages.items()}, [], 0
    count = sum(counts.values())
    if options.list:
        print(*(f"{count:6} {name}" for name, count in counts.items()), sep="\n")
    first = written(pages["README.md"].split("\n## Commands\n")[0])
    bad += [f"the first screen of README.md has {first} words, and may have {MOST}"] if first > MOST else []
    places = {"documents": {name: without_code(text) for name, text in pages.items()}}
    for place, end, mark in (("comments of code", "rt", "//[/!]?"), ("comments of definitions", "antt", "--")):
        files = [path for path in sorted((ROOT / "crates").rglob(f"*.{end}")) if "out" not in path.parts]
        places[place] = {str(path.relative_to(ROOT)): comments(read(path), mark) for path in files}
    for place, phrase in ((place, phrase) for place in places for phrase in PHRASES):
        here = [f"{name}:{text.count(chr(10), 0, match.start()) + 1}: {phrase}"
                for name, text in places[place].items() for match in re.finditer(PHRASES[phrase], text, re.I)]
        most, total = CEILINGS.get((place, phrase), 0), total + len(here)
        if len(here) > most:
            bad += [*here, f"{place}: '{phrase}' stands {len(here)} times, and may {most} times"]
    return bad, f"{total} phrases that are to go, none above its ceiling; {count} words in what people write"
