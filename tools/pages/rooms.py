"""Looks whether the rooms of each crate, and the files in them, import one another in one direction, and as
tools/rooms.txt says, which people change on purpose, and no script.

A room is a module right below `src/`, with its folder; what stands in `lib.rt` is none. A room imports another one
where one of its files has `use crate::ROOM`, or `use crate::NAME` of a name that `lib.rt` exports from that room. It
fails where rooms or files of a crate reach one another both ways, directly or through others, and where rooms.txt names
other imports than the code has. An inner part of a family is imported from above the family only where the crate's line
`inner` names it.

docs/generated/ROOMS.md, which --write writes, has the crates and rooms with the sentence at the head of each file."""
import re

import sources
from shared import read

TOP = """# Crates and their rooms

Written by `tools/docs.py --write` of `crates.txt`, `rooms.txt` and the sentence at the head of each file. A room is a
module right below `src/`; behind it stand the rooms that it may import.
"""


def leads_to(texts, exported, path, depth=0):
    """The file that a path of a crate's own leads to: the deepest module that it names, or the one that its name is
    exported from."""
    place = next((path[:n] for n in range(len(path), 0, -1) if path[:n] in texts), ())
    further = exported.get((place, *path[len(place) : len(place) + 1]))
    return leads_to(texts, exported, further, depth + 1) if further and depth < 9 else place


def file_imports(name):
    """What each file of a crate, by the names of its modules from the crate's root on, imports of the others."""
    exported, used = {}, {}
    texts = {path.relative_to(sources.folder(name)).with_suffix("").parts: read(path) for path in sources.code(name)}
    for module, text in texts.items():
        here = () if module in (("lib",), ("main",)) else module
        for first, *rest in sources.used(text, r"pub(?:\(crate\))? "):
            exported[(here, [first, *rest][-1])] = tuple(rest) if first == "crate" else (*here, first, *rest)
        paths = sources.used(text, r"(?:pub(?:\(crate\))? )?")
        used[module] = [tuple(rest) for first, *rest in paths if first == "crate"]
    return {module: {leads_to(texts, exported, path) for path in paths} - {module, ()}
            for module, paths in used.items()}


def rooms(name, files, below):
    """What each room imports of the others, by what each file does; what stands in the root of a crate is in none. As
    `inner` what the crate imports of inner parts of other families."""
    names = {module[0] for module in files if len(module) == 1} - {"lib", "main"}
    found = {room: {other[0] for module in files if module[0] == room for other in files[module]} & (names - {room})
             for room in names}
    paths = [path for path in sources.folder(name).parent.rglob("*") if "out" not in path.parts]
    text = "\n".join(read(path) for path in paths if path.suffix in (".rt", ".antt"))
    inner = {part for family, parts in sources.families().items() if name not in (family, *parts)
             for part in parts if part in below and re.search(rf"\bRattle\.{part}\.|\buse {part}::", text)}
    return found | ({"inner": inner} if inner else {})


def tables():
    """What rooms.txt says of each crate: the rooms with what they import, and the inner parts."""
    found, name = {}, None
    for line in read("tools/rooms.txt").splitlines():
        if line.startswith("  "):
            room, others = line.split(":")
            found[name][room.strip()] = set(others.split())
        elif line and not line.startswith("#"):
            name = line
            found[name] = {}
    return found


def page(named):
    """The page of crates and rooms."""
    lines = [TOP]
    for name, below in sources.crates().items():
        others = ", ".join(below) or "no other crate"
        lines += [f"## {name}\n\n{sources.sentence(sources.root_of(name))}. It stands on {others}.\n"]
        rows = {room: others for room, others in named.get(name, {}).items() if room != "inner"}
        for room, others in rows.items():
            source = sources.folder(name) / room
            imported = f" ({', '.join(sorted(others))})" if others else ""
            lines += [f"- `{room}`{imported}: {sources.sentence(source.with_suffix('.rt'))}"]
            lines += [f"  - `{path.relative_to(source).with_suffix('')}`: {sources.sentence(path)}"
                      for path in sorted(source.rglob("*.rt"))]
        lines += [""] if rows else []
    return "\n".join(lines)


def check(options):
    """Compares the rooms of each crate with its lines."""
    named, wrong = tables(), []
    for name, below in sources.crates().items():
        files = file_imports(name)
        found, table = rooms(name, files, below), named.get(name, {})
        wrong += [f"{name}: {room} reaches itself through what it imports" for room in found.keys() - {"inner"}
                  if room in sources.below(found | {"inner": ()}, room)]
        wrong += [f"{name}: {room} imports {found.get(room, 'nothing, as it is no room')}, and by rooms.txt {table.get(room)}"
                  for room in sorted(found | table) if found.get(room) != table.get(room)]
        wrong += [f"{name}: the file {'/'.join(file)} reaches itself through what it imports" for file in files
                  if file in sources.below(files, file)]
    wrong += [f"{name} stands in rooms.txt, and is no crate" for name in named.keys() - sources.crates().keys()]
    made = wrong or sources.generated("docs/generated/ROOMS.md", page(named), options.write)
    return made, "rooms import one another in one direction, and as rooms.txt says"
