"""Which definitions the public contracts rest on, and whether docs/generated/BELIEVE.md lists them.

A public contract is a clause of an exported function, method, trait or type of the crates that bx_program stands on by
crates.txt. Of an inner part only its laws and what another crate exports are public; of the program's own parts only
their laws, the one call by which it runs every command, and the trait of the world that this asks of (ROOTS). The names
in its clauses are followed through specs/. What the contracts of calls meet is what a reader has to believe. A law is a
public function that takes nothing and does nothing, so its clauses are proved of definitions: what laws alone meet is a
second reading of them, and stands in the page's last part. tools/believe.txt has the front, the parts and the order of
files; --write makes the page of it, with the sentence that stands above each definition in specs/, and without it the
page is compared. The definitions that the front names, between ` and `, have to be among those that are believed."""
import functools
import itertools
import re

import sources
from shared import read

# the crate that only puts the calls of those below in order
TOP = "bx_program"
# what is public of its own parts: the one call, and what that asks of the system
ROOTS = {"run_request", "World"}
# the folders of an inner part's definitions that crates above name; any other folder is of one room
SHARED = ["model", "show"]
# the page's part of what laws alone name
TOLD = "E"


def named():
    """The crates whose contracts are public."""
    return sources.below(sources.crates(), TOP)


def exported(crate):
    """What is public of a crate; of the program's own parts the ROOTS alone."""
    return ROOTS & sources.exports(crate) if crate.startswith(TOP) else sources.public(crate)


def public_names(crate, exports):
    """The specs that the contracts of what is exported of a crate name: of its calls and types, and of its laws."""
    called, said = set(), set()
    for path, place, item in sources.items_in(crate):
        # a world promises what its trait does
        is_world = exports <= ROOTS and item.kind == "impl"
        if item.is_public_by(exports, place) and not is_world:
            texts = [it.contract for it in item.shown()] if item.kind in ("fn", "impl") else [item.text]
            texts += [item.head] if item.kind == "impl" else []
            known, clauses = sources.imports(read(path)), " ".join(it for text in texts for it in sources.clauses(text))
            is_law = item.kind == "fn" and item.opened == "{}" and not item.arguments
            (said if is_law else called).update(known[it] for it in sources.NAME.findall(clauses) if it in known)
    return called, said


def closure(definitions, imports, named):
    """The definitions that names lead to, through those that they are made of."""
    seen, todo = set(), list(named)
    while todo:
        key = todo.pop()
        if key in definitions and key not in seen:
            seen.add(key)
            words = sources.NAME.findall("\n".join(definitions[key].lines))
            todo += [imports[key[:2]].get(word, (*key[:2], word)) for word in words]
    return seen


def by_place(some):
    return {place: list(here) for place, here in itertools.groupby(some, lambda definition: definition.place)}


def size(some):
    return sum(len(d.lines) for d in some)


def filled(order, believed, told):
    """The page by its front and the order of its files, the lines of each part, and what is wrong with the order."""
    front, parts = order.split("\n---\n")
    left = {False: by_place(believed), True: by_place(told)}
    lines, sizes, bad, part = [front, ""], {}, [], ""
    for line in parts.split("\n"):
        if begun := re.match(r"(\w)\. (.*?): (.*)", line):
            part = begun[1]
            sizes[part] = 0
            lines += [f"## {part}. {begun[2]}", "", begun[3], ""]
        elif line.startswith("  "):
            here = left[part == TOLD].pop(line.strip(), [])
            bad += [] if here else [f"part {part}: nothing of {line.strip()} stands there"]
            sizes[part] += size(here)
            lines += [f"### `{line.strip()}`", "",
                      *(f"- `{d.name}`" + (f": {d.sentence}" if d.sentence else "") for d in here), ""]
    bad += [f"tools/believe.txt doesn't name {place}, in part {TOLD} if laws alone do"
            for places in left.values() for place in sorted(places)]
    return "\n".join(lines).rstrip("\n") + "\n", sizes, bad


@functools.cache
def needed():
    """All definitions, and what each file brings in; and which of them contracts of calls need, or these and laws."""
    crates = named()
    definitions, imports = sources.definitions(crates)
    called = set().union(*(public_names(crate, exported(crate))[0] for crate in crates))
    said = {key for crate in crates for key in public_names(crate, sources.exports(crate))[1]
            if crate not in sources.inner() or "." not in key[1] or key[1].split(".")[0] in SHARED}
    return definitions, imports, closure(definitions, imports, called), closure(definitions, imports, called | said)


def check(options):
    definitions, _, met, met_by_all = needed()
    believed = [d for key, d in definitions.items() if key in met]
    told = [d for key, d in definitions.items() if key in met_by_all - met]
    rest = [d for key, d in definitions.items() if key not in met_by_all]
    text, sizes, bad = filled(read("tools/believe.txt"), believed, told)
    for what, some in (("", believed), (f"{TOLD} ", told), ("unneeded: ", rest)) if options.list else ():
        for place, here in sorted(by_place(some).items()):
            print(f"{size(here):5} {what}{place}: {' '.join(d.name for d in here)}")
    bad += [f"no sentence above {d.place} {d.name}" for d in believed + told if not d.sentence]
    fronted = re.findall(r"`(\w+)`", text.split("\n## ")[0])
    bad += [f"tools/believe.txt: {name} isn't believed" for name in fronted if name not in {d.name for d in believed}]
    parts = ", ".join(f"{part} {lines}" for part, lines in sizes.items() if part != TOLD)
    line = f"{size(believed)} lines in {len(believed)} definitions are needed by the contracts of calls ({parts}), " \
        f"{size(told)} in {len(told)} by those of laws alone ({TOLD}), " \
        f"{size(rest)} in {len(rest)} by no public contract"
    return bad or sources.generated("docs/generated/BELIEVE.md", text, options.write), line
