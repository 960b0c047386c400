"""The functions of a crate's source, by the names under which a check reports them.

The source is in the layout of `rt fmt`: an item ends at the first closing brace of its own depth.
"""

import functools
import pathlib
import re
from typing import NamedTuple, Optional

ITEM = re.compile(r" *(?:pub(?:\([^)]*\))? )?(?:const |unsafe )*(fn|mod|impl|trait)\b\s*(.*)")
TYPE = re.compile(r"(?m)^(?:pub(?:\([^)]*\))? )?(?:struct|enum) (\w+)")
CYCLE = re.compile(r"\s*#\[cycle\((\w+)\)\]")
TEST = re.compile(r"\s*#\[(cfg\(test\)|test)\]")
TEST_MODULE = re.compile(r"(?m)^#\[cfg\(test\)\]\n(?:pub )?mod (\w+);")
SKIPPED = re.compile(r"\s*(#|//|$)")


class Function(NamedTuple):
    """A function: its file, its name below the crate, and where its text, its body and its end are in the file.

    Of a function in a cycle of calls also the cycle's name, and the last names of all that are in it.
    """

    file: str
    name: str
    start: int
    body: int
    end: int
    cycle: Optional[str]
    of_trait: bool
    mates: tuple = ()

    def unit(self):
        """What is proved at once: the function, or the cycle of calls that it is in."""
        return self.cycle or self.name


class Owner(NamedTuple):
    """A module, an impl or a trait around functions: its path, and the line that ends it."""

    end: int
    path: list
    is_test: bool
    of_trait: bool


def module_of(file):
    """The path of the module that a file of src/ holds."""
    parts = list(pathlib.PurePath(file).with_suffix("").parts[1:])
    return parts[:-1] if parts[-1] in ("lib", "main", "mod") else parts


def joined(path):
    """The last names of a trait and of its arguments, as a check joins them: FromAllocFailed."""
    names = re.findall(r"(?<![\w'])[A-Za-z_]\w*", re.sub(r"\w+::", "", path))
    return "".join(it for it in names if len(it) > 1)


def named_by(header):
    """The type of an impl, and the trait in it, if any, from the text behind `impl`."""
    header = re.sub(r"^<(?:[^<>]|<[^<>]*>)*>", "", header.strip())
    trait, _, of = re.split(r"\bwhere\b|\{", header)[0].strip().rpartition(" for ")
    return re.sub(r"<.*", "", of).lstrip("&").rpartition("::")[2], joined(trait)


def reach_of(lines, number):
    """The lines in which the body of an item opens and ends, or None for an item without one."""
    depth = re.match(" *", lines[number])[0]
    for at in range(number, len(lines)):
        is_outer = re.match(depth + r"\S", lines[at])
        if is_outer and lines[at].endswith("{}"):
            return at, at
        if is_outer and lines[at].count("{") > lines[at].count("}"):
            return at, lines.index(depth + "}", at)
        if lines[at].endswith(";") and re.match(depth + r"(    )?\S", lines[at]):
            return None
    return None


def owner_of(kind, rest, lines, reach, around, homes):
    """The module, impl or trait of a line, in what is around it."""
    if kind != "impl":
        path = [*around.path, re.match(r"\w+", rest)[0]]
        return Owner(reach[1], path, around.is_test, kind == "trait")
    name, trait = named_by(lines.partition("impl")[2])
    path = [*around.path, name + trait] if trait else [*homes.get(name, around.path), name]
    return Owner(reach[1], path, around.is_test, bool(trait))


def calls_itself(name, is_method, body):
    """Whether the body of a function calls it, a method through `self` or `Self`."""
    front = r"\b(?:self\.|Self::)" if is_method else r"(?<![\w.:])"
    return re.search(front + name + r"\(", body.partition("{")[2]) is not None


# what was read of a text is kept: an edit changes one file of many
@functools.lru_cache(maxsize=None)
def functions_of(file, text, known):
    """The functions of one file, in order, without its tests; known has the module of each type."""
    homes = {name: list(path) for name, path in known}
    lines = text.split("\n")
    starts = [0]
    for line in lines:
        starts.append(starts[-1] + len(line) + 1)
    found, cycle, is_test = [], None, False
    owners = [Owner(len(lines), module_of(file), False, False)]
    for number, line in enumerate(lines):
        while number > owners[-1].end:
            owners.pop()
        cycle = CYCLE.match(line)[1] if CYCLE.match(line) else cycle
        is_test = is_test or bool(TEST.match(line))
        if SKIPPED.match(line):
            continue
        item, reach, around = ITEM.fullmatch(line), None, owners[-1]
        if item:
            reach = reach_of(lines, number)
        if reach and item[1] != "fn":
            header = " ".join(lines[number : reach[0] + 1])
            owner = owner_of(item[1], item[2], header, reach, around, homes)
            owners.append(owner._replace(is_test=is_test or owner.is_test))
        elif reach and not (is_test or around.is_test):
            last = re.match(r"\w+", item[2])[0]
            place = (starts[number], starts[reach[0]], starts[reach[1] + 1])
            is_method = around.path != module_of(file)
            cycle = cycle or (last if calls_itself(last, is_method, text[place[1] : place[2]]) else None)
            home = module_of(file) if around.of_trait else around.path
            shared = "::".join([*home, f"+{cycle}"]) if cycle else None
            found.append(Function(file, "::".join([*around.path, last]), *place, shared, around.of_trait))
        cycle, is_test = None, False
    return found


@functools.lru_cache(maxsize=None)
def named_in(text, pattern):
    """What a pattern finds in a text."""
    return tuple(pattern.findall(text))


def all_functions(texts):
    """The functions of a crate, given the texts of src/ by the files' paths."""
    tests = ()
    for file, text in texts.items():
        for name in named_in(text, TEST_MODULE):
            at = "/".join(["src", *module_of(file), name])
            tests += (f"{at}.rt", f"{at}/")
    read = {file: text for file, text in texts.items() if not file.startswith(tests)}
    known = {name: tuple(module_of(file)) for file, text in read.items() for name in named_in(text, TYPE)}
    known = frozenset(known.items())
    found = [it for file, text in read.items() for it in functions_of(file, text, known)]
    mates = {}
    for it in found:
        mates.setdefault(it.unit(), []).append(it.name.rpartition("::")[2])
    return [it._replace(mates=tuple(mates[it.unit()]) if it.cycle else ()) for it in found]
