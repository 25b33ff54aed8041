"""Counts what definitions, functions and calls take and promise, and names that two crates define.

A definition of `specs/` has at most 8 parameters: those in braces don't count, nor do those of a `module _` around it.
A function of a product crate or of test_cache has at most 6 arguments, `self` left out. A public call of a library has
at most 12 `ensures`: a function that its `lib.rt` exports, or a method of a type or trait that it exports; of an inner
part, of what another crate exports. Another function has at most 16. No two crates of the product define the same name
in `specs/`. --list prints all counts."""
import re

import sources

SELF = r"(&\s*('\w+ )?)?(mut )?self\b"
LIMITS = {"parameters": 8, "arguments": 6, "ensures": 12, "inner ensures": 16, "crates": 1}


def functions():
    """What is counted of functions: its kind, its number, and the function's name with crate and file."""
    for name in [*sources.product(), "test_cache"]:
        exports = sources.public(name)
        for _, place, item in sources.items_in(name):
            public = item.shown() if item.is_public_by(exports, place) else []
            for function in item.functions:
                word = f"{item.name}::{function.name}" if function.owner else function.name
                at = f"{name}: {word} (src/{place}.rt)"
                yield "arguments", sum(not re.match(SELF, argument) for argument in function.arguments), at
                promised = len(re.findall(r"(?m)^ *ensures\b", function.contract))
                yield "ensures" if function in public else "inner ensures", promised, at


def definitions():
    """What is counted of definitions: the parameters of each, and the product's crates that define a name."""
    homes = {}
    for d in sources.definitions(sources.crates())[0].values():
        yield "parameters", d.parameters(), f"{d.crate}: {d.name} (specs/{d.file.replace('.', '/')}.antt)"
        if d.crate in sources.product():
            homes.setdefault(d.name, set()).add(d.crate)
    for name, crates in homes.items():
        yield "crates", len(crates), f"{' '.join(sorted(crates))}: {name}"


def check(options):
    wrong = []
    for kind, count, at in sorted([*functions(), *definitions()], key=lambda row: (-row[1], row[2])):
        above = f"{count} {kind} (at most {LIMITS[kind]}): {at}"
        if options.list:
            print(above)
        wrong += [above] if count > LIMITS[kind] else []
    return wrong, "nothing is above its limit"
