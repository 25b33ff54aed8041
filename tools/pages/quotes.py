"""Compares what documents quote with its source: the pages of docs/, and the heads of public crates.

The first line of a block of a document names what it quotes, and --write fills the block:

    ```antt undo_of PerformStep   definitions of specs/ (CRATE/NAME where several crates have the name): of a record or
                                  a list of cases all lines, of others their equations without the line with the type
    ```rust run_all.headline      the clause of a call or law, behind its name
    ```rust examples/src/a.rt b   functions and structs of a file by their names, and an impl by impl:NAME of its type
                                  or trait

In docs/HEADLINE.md each definition that a quoted line names is quoted too, or stands in its paragraphs between ` and `;
in docs/SAFETY.md it does so there or in HEADLINE.md. The block at the head of a public crate's lib.rt stands in that
crate's examples."""
import itertools
import re

import sources
from pages import believe
from shared import read

HEADLINE = "docs/HEADLINE.md"
BLOCK = re.compile(r"^```(antt|rust) (\S.*)\n((?:(?!```).*\n)*)```$", re.M)


class Sources:
    """What can be quoted, and the definitions that it names."""

    def __init__(self):
        self.definitions, self.imports, _, self.needed = believe.needed()
        self.functions = [(path, function) for name in sources.crates() for path, _, item in sources.items_in(name)
                          for function in item.functions]
        self.named = set()

    def note(self, known, here, lines):
        """Keeps which definitions the lines name: `known` are those brought in, `here` the crate and file of a
        definition."""
        keys = (known.get(word, (*here, word)) for word in sources.NAME.findall("\n".join(lines)))
        self.named.update(key for key in keys if key in self.definitions)

    def definition(self, name):
        """The lines of a definition, without that of its type: of one that public contracts need, or else of any."""
        of, _, name = name.rpartition("/")
        keys = [(crate, file) for crate, file, other in self.needed if other == name and of in ("", crate)]
        keys = keys or [(crate, file) for crate, file, other in self.definitions if other == name and of in ("", crate)]
        if len(keys) != 1:
            raise ValueError(f"{len(keys)} definitions have the name {name}")
        lines = [line for line in self.definitions[*keys[0], name].lines if not line.startswith("module _ ")]
        if not re.match(r"(abbrev |unfoldable |pub )*(record|data) ", lines[0]):
            begins = rf"{re.escape(name)}(?! :)( |$)"
            lines = list(itertools.dropwhile(lambda line: not re.match(begins, line), lines))
        self.note(self.imports[keys[0]], keys[0], lines)
        return lines

    def clause(self, name):
        """The clause of a public call or law, behind its name; or of a function that is alone in having it."""
        call, _, label = name.partition(".")
        found, inner = [], []
        for path, function in self.functions:
            clause = re.search(rf"^ *ensures {label + ' ' if label else ''}\{{", function.contract, re.M)
            if function.name == call and clause:
                end = sources.closing(function.contract, clause.end() - 1)
                here = path, function.contract[clause.start() : end].split("\n")
                (found if function.is_public else inner).append(here)
        found = found or inner
        if len(found) != 1:
            raise ValueError(f"{len(found)} calls have the clause {name}")
        path, lines = found[0]
        self.note(sources.imports(read(path)), ("", ""), lines)
        return [f"{call}: {lines[0].strip()}", *["    " + line.strip() for line in lines[1:]]]

    def filled(self, block):
        """A block with what it is to hold by the words of its first line."""
        first, *more = block[2].split()
        if "/" in first and block[1] == "rust":
            lines = [line for name in more for line in ["", *item_of(first, name)]][1:]
        else:
            of_one = self.definition if block[1] == "antt" else self.clause
            lines = [line for name in (first, *more) for line in of_one(name)]
        return "\n".join([f"```{block[1]} {block[2]}", *lines, "```"])


def item_of(path, name):
    """An item of a file, with its public comment: `impl:NAME` is the impl of a type, or of a trait for one."""
    text = read(f"crates/{path}")
    kind, _, of = name.rpartition(":")
    head = rf"(?:pub(?:\([a-z]+\))? )?(?:fn|struct|enum) {of}\b"
    head = rf"impl(?:<.*?>)? {of}(?:<.*?>)? (?:for .*)?\{{$" if kind else head
    found = list(re.finditer(rf"^{head}", text, re.M))
    if len(found) != 1:
        raise ValueError(f"{path} has {len(found)} items {name}")
    above, item = text[: found[0].start()].split("\n")[-2::-1], text[found[0].start() :].split("\n")
    comment = list(itertools.takewhile(lambda line: re.match(r"///|#\[", line), above))
    return comment[::-1] + item[: item.index("}") + 1]


def heads():
    """What is wrong with the blocks at the heads of the public crates, which have a file of examples each."""
    for path in sources.code("examples"):
        name = f"bx_{path.stem}"
        if name in sources.crates():
            block = re.search(r"^//! ```\n((?://! .*\n)+)//! ```$", read(sources.root_of(name)), re.M)
            wanted = [line.removeprefix("//!").strip() for line in block[1].splitlines()] if block else []
            lines = [line.strip() for line in read(path).split("\n")]
            if not wanted:
                yield f"{name} has no example at the head of its lib.rt"
            elif not any(lines[i : i + len(wanted)] == wanted for i in range(len(lines))):
                yield f"the example at the head of {name} doesn't stand in examples/src/{path.name}"


def shown_in(page):
    """The names of definitions that a page quotes or explains."""
    quoted = {word.rpartition("/")[2] for match in BLOCK.finditer(page) for word in match[2].split()}
    spans = re.findall(r"`([^`\n]+)`", BLOCK.sub("", page))
    return quoted | {word for span in spans for word in sources.NAME.findall(span)}


def check(options):
    found, bad, shown = Sources(), [], set()
    for name in (HEADLINE, "docs/SAFETY.md", "docs/CALLING.md"):
        found.named, page = set(), read(name)
        try:
            filled = BLOCK.sub(found.filled, page)
        except ValueError as missing:
            return [f"{name}: {missing}"], ""
        bad += sources.generated(name, filled, options.write)
        shown |= shown_in(page)
        if name != "docs/CALLING.md":
            bad += [f"{name} neither quotes nor explains {key[2]} of {key[0]}/{key[1]}" for key in sorted(found.named)
                    if key[2] not in shown]
    return [*bad, *heads()], "what is quoted is as its sources have it"
