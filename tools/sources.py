"""The sources of this repository, for all tools that read them: crates, Rattle code (`.rt`) and definitions
(`.antt`)."""
import itertools
import re
import shutil

from shared import ROOT, read

NAME = re.compile(r"[A-Za-z_][A-Za-z0-9_'-]*")


# Crates

def crates():
    """The crates in the order of crates.txt, each with the crates of this repository that its line names."""
    lines = re.findall(r"(?m)^(\w+)[^:#\n]*:([^#\n]*)", read("crates.txt"))
    named = {name: others.split() for name, others in lines}
    return {name: [other for other in others if other in named] for name, others in named.items()}


def below(listed, name):
    """What a crate stands on, directly or through another one, in the order of crates.txt."""
    found, more = set(), set(listed[name])
    while more:
        found |= more
        more = {other for one in more for other in listed[one]} - found
    return [other for other in listed if other in found]


def product():
    """The crates of the product: all but those of tests, and the examples."""
    return [name for name in crates() if not name.startswith("test_") and name != "examples"]


def folder(name, part="src"):
    """The folder of a crate that has its code, or its definitions."""
    return ROOT / "crates" / name / part


def code(name):
    """The files of a crate's code."""
    return sorted(folder(name).rglob("*.rt"))


def copy(names, top):
    """Makes a repository of some crates in a folder, with their libraries as built."""
    for name in names:
        shutil.copytree(ROOT / "crates" / name, top / "crates" / name, ignore=shutil.ignore_patterns("incremental"))
    shutil.copy(ROOT / "HANDLES", top)
    lines = [line for line in read("crates.txt").splitlines() if line.split(":")[0] in names]
    (top / "crates.txt").write_text("".join(f"{line}\n" for line in lines), encoding="utf-8")


def head(path):
    """The comment at the head of a file of code, as one line."""
    lines = itertools.takewhile(lambda line: line.startswith("//!"), read(path).split("\n"))
    return " ".join(line[3:].strip() for line in lines)


def root_of(name):
    """The root file of a crate."""
    return next(path for path in (folder(name) / "lib.rt", folder(name) / "main.rt") if path.exists())


def families():
    """The inner parts of each family, by the heads of their roots."""
    found = {}
    for name in product():
        for family in re.findall(r"An inner part of `(\w+)`", head(root_of(name))):
            found.setdefault(family, []).append(name)
    return found


def inner():
    """The inner parts whose calls are not public: their family exports some of their types alone."""
    return [part for parts in families().values()
            for part in parts if "which exports all of it" not in head(root_of(part))]


def generated(name, text, write):
    """Writes a page that a tool makes, or answers that it isn't as the tool makes it."""
    if write:
        (ROOT / name).write_text(text, encoding="utf-8")
    is_there = (ROOT / name).exists() and text == read(name)
    return [] if is_there else [f"{name} isn't what tools/docs.py --write makes"]


# Rattle code

def used(text, front):
    """The paths that a source brings in by lines of `use` with this front, split at their colons: the innermost braces
    are written out until there are none."""
    for tree in re.findall(rf"(?m)^ *{front}use ([^;]*);", text):
        while match := re.search(r"([\w:]*)\{([^{}]*)\}", tree):
            written = ",".join(match[1] + part.strip() for part in match[2].split(",") if part.strip())
            tree = tree[: match.start()] + written + tree[match.end() :]
        yield from (path.split(" as ")[0].strip().split("::") for path in tree.split(","))


def closing(text, at, brackets="{}"):
    """The place behind the bracket that closes the one at a place, or the text's end; an arrow's > is none."""
    depth, half = 0, len(brackets) // 2
    for i in range(at, len(text)):
        depth += text[i] in brackets[:half]
        depth -= text[i] in brackets[half:] and not (text[i] == ">" and text[i - 1] in "-=")
        if not depth:
            return i + 1
    return len(text)


def split(text, mark, brackets="([{}])"):
    """A text's parts between marks that stand outside of all brackets."""
    parts, at, last = [], 0, 0
    while at < len(text):
        if text[at] == mark:
            parts.append(text[last:at])
            last = at + 1
        at = closing(text, at, brackets) if text[at] in brackets[: len(brackets) // 2] else at + 1
    return [*parts, text[last:]]


class Item:
    """An item of a file: whether it says `pub`, its kind, its name (of an impl that of the type), its line, and its
    text, which is what stands behind its kind up to the next item. It has `functions`: a function itself, which has
    arguments, a contract and a body, and an impl or a trait its methods, whose `owner` it is, and a head in front of
    them."""

    def __init__(self, match, text, line, owner):
        self.is_public, self.kind, self.text, self.line, self.owner = match[1] == "pub ", match[2], text, line, owner
        self.name = re.match(r"(?:<.*?>)? ?(?:\w+(?:<.*>)? for )?(\w+)" if self.kind == "impl" else r" ?(\w+)", text)[1]
        self.functions = [self] if self.kind == "fn" else []
        if self.kind in ("impl", "trait"):
            self.head = re.split(r"(?m)^ {4}(?=.*\bfn )", text, maxsplit=1)[0]
            self.functions = [item for item in items(text, " {4}", line, self) if item.kind == "fn"]
        elif self.kind == "fn":
            at = re.match(r" \w+", text).end()
            start = closing(text, at, "<([{}])>") if text[at] == "<" else at
            end = closing(text, start, "<([{}])>")
            arguments = split(text[start + 1 : end - 1], ",", "<([{}])>")
            self.arguments = [part.strip() for part in arguments if part.strip()]
            self.contract, self.opened, self.body = [*re.split(r"(?m)(\{\}?|;)$", text[end:], maxsplit=1), "", ""][:3]

    def is_public_by(self, exports, path):
        """Whether it is public where its crate exports these names; an impl where its head has one."""
        names = set(NAME.findall(self.text.split("{")[0])) if self.kind == "impl" else {self.name, f"mod {path}"}
        return (self.is_public or self.kind == "impl") and not names.isdisjoint(exports)

    def shown(self):
        """Which of its functions are public where it is: of an impl those that say `pub`, or all for a trait."""
        is_own = self.kind == "impl" and " for " not in self.text.split("{")[0]
        return [function for function in self.functions if function.is_public or not is_own]


BEGIN = r"^{}(pub(?:\([a-z]+\))? )?(?:const (?=fn|unsafe)|unsafe )*(fn|trait|struct|enum|impl|const)\b"


def items(text, indent="", line=0, owner=None):
    """The items of a text without comments that are set in so far."""
    begun = list(re.finditer(BEGIN.format(indent), text, re.M))
    return [Item(match, text[match.end() : behind and behind.start()], line + text.count("\n", 0, match.start()), owner)
            for match, behind in itertools.zip_longest(begun, begun[1:])]


def items_in(name):
    """The items of a crate's code, each with its file, and its place below `src/` without the ending."""
    return [(path, str(path.relative_to(folder(name)).with_suffix("")), item)
            for path in code(name) for item in items(re.sub("//.*", "", read(path)))]


def sentence(path, at=None):
    """The first sentence at the head of a file, or of the public comment above one of its lines."""
    above = itertools.takewhile(lambda line: re.match(r"\s*(///|#\[)", line), reversed(read(path).split("\n")[:at]))
    text = " ".join(reversed([line.strip()[3:].strip() for line in above if "///" in line])) if at else head(path)
    return re.split(r"(?<=\.) (?=[A-Z`#])|  ", text)[0].rstrip(".")


def clauses(text):
    """The braces of requires, ensures and ghost items, but for what is only brought in and invariants of models, which
    callers don't see."""
    begins = r"\b(requires|ensures|ghost(?! use| invariant))\b[^{;=]*=?\s*\{"
    return [text[match.end() : closing(text, match.end() - 1) - 1] for match in re.finditer(begins, text)]


def exports(name):
    """The names that a crate's root exports, and as `mod PATH` its public modules, whose public items all are."""
    found, todo = set(), ["lib"] if (folder(name) / "lib.rt").exists() else []
    while todo:
        module = todo.pop()
        text = read((folder(name) / module).with_suffix(".rt"))
        found |= {path[-1] for path in used(text, "pub ")} | {f"mod {module}"} - {"mod lib"}
        todo += [f"{module}/{other}".removeprefix("lib/") for other in re.findall(r"(?m)^pub mod (\w+);", text)]
    return found


def public(name):
    """What is public of a crate: what it exports, or of an inner part what the roots of others export of it."""
    roots = [root_of(other) for other in product() if other not in inner()]
    return {path[-1] for root in roots for path in used(read(root), "pub ") if path[0] == name} if name in inner() else exports(name)


# Definitions

HEAD = re.compile(r"^(?:(?:abbrev|unfoldable|opaque|pub) )*(record |data )?([A-Za-z_][\w'-]*)(?= *[:({ ])")


class Definition:
    """A definition of specs/: its crate, file and name, its lines, and the sentence above it."""

    def __init__(self, crate, file, name, lines, above):
        self.crate, self.file, self.name, self.lines, self.sentence = crate, file, name, lines, above
        self.place = f"{crate}/{file}"

    def parameters(self):
        """How many parameters it has: those of its head, and those before its type's last arrow; none in braces."""
        first, *rest = (line for line in self.lines if not line.startswith("module _ "))
        head = itertools.takewhile(lambda line: line.startswith(" "), rest)
        text = " ".join([first, *head])[HEAD.match(first).end() :]
        front, *rest = split(re.split(r"\bwhere\b", text)[0], ":")
        return sum(binders(front)) + sum(sum(binders(part) or [1]) for part in split(":".join(rest), "→")[:-1])


def binders(text):
    """How many names each binder binds that counts, where a text is binders alone; one in braces binds none that
    does."""
    counts, text = [], text.strip()
    while text[:1] in ("(", "{"):
        end = closing(text, 0, "([{}])")
        names, *types = split(text[1 : end - 1], ":")
        counts.append(0 if text[0] == "{" else len(names.split()))
        if not types:
            return []
        text = text[end:].lstrip()
    return [] if text else counts


def imports(text):
    """name in this file -> (crate, module path, name there), of `use Rattle.CRATE.specs.MODULE.{..}`"""
    found = {}
    for crate, module, names in re.findall(r"use Rattle\.(\w+)\.specs\.([\w.]+)\.\{([^}]*)\}", text):
        for name, *alias in (item.split(" as ") for item in names.split(",") if item.strip()):
            found[(alias or [name])[0].strip()] = crate, module, name.strip()
    return found


def parts(text):
    """The definitions of a file: name, lines (no comments, imports or blank lines), and the comment above, or of the
    first the one at the head of the file.

    A line `module _ .. where` gives those below it, set in by two spaces, their first parameters; it counts with the
    next."""
    found, comment, opened, within = [], [], [], False
    head = [line[2:].strip() for line in itertools.takewhile(lambda line: line.startswith("--"), text.split("\n"))]
    for line in map(str.rstrip, text.split("\n")):
        if line.startswith("module _ "):
            comment, opened, within = [], [line], True
            continue
        within = within and (not line or line.startswith("  "))
        line = line.removeprefix("  ") if within else line
        if line.startswith("--"):
            comment.append(line[2:].strip())
            continue
        comment = comment if line else []
        if not line or line.startswith(("use ", "pub use ", "pub mod ")) or line.lstrip().startswith("--"):
            continue
        begun = HEAD.match(line)
        if begun and re.match(r"(abbrev|unfoldable|pub|record|data) |[\w'-]+ :", line):
            found.append((begun[2], opened, " ".join(comment or ([] if found else head))))
            comment, opened = [], []
        if found:
            found[-1][1].append(line)
    return found


def definitions(names):
    """The definitions of some crates, by crate, file and name; and of each file what it brings in."""
    found, brought = {}, {}
    for crate in names:
        for path in sorted(folder(crate, "specs").rglob("*.antt")):
            file = ".".join(path.relative_to(folder(crate, "specs")).with_suffix("").parts)
            brought[(crate, file)] = imports(read(path))
            for part in parts(read(path)):
                found[(crate, file, part[0])] = Definition(crate, file, *part)
    return found, brought
