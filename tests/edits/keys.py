"""The key of an edit: sums of what its refusal depends on, as far as names tell.

A refusal depends on the edited text of the functions concerned and their proof files, and on what these rest on: what is stated of
the functions that they call, types and definitions. It doesn't depend on comments, nor on other functions' bodies and proofs: in a
round these are holes. What counts of the rest is found by name, so a key that stays the same is no proof that the refusal does.
That is why the gate tries a part of the edits again in spite of their keys.
"""

import hashlib
import pathlib
from typing import NamedTuple

from copies import above, folder_of
from edits import BadEdit, change_of, edited, read_edit
from functions import all_functions
from naming import ANTT_COMMENT, CODE_COMMENT, RUST_COMMENT, Named, cited, header_of, imports_of, used, without_comments, words_of


class Key(NamedTuple):
    """The sums of an edit's own texts, with those of its functions and their proofs, and of what these rest on."""

    own: str
    rests: str


def sum_of(*parts):
    """A sum of texts."""
    return hashlib.sha256(repr(parts).encode()).hexdigest()[:24]


def to_the_end(start, below):
    """What is reached from some definitions, where below gives what is reached from one at once."""
    found, left = set(start), list(start)
    while left:
        new = below(left.pop()) - found
        found |= new
        left += new
    return found


class Keys:
    """The keys of the edits of a crate. Named has what other crates define, by folder, so that each is read once."""

    def __init__(self, crate, named=None):
        named = {} if named is None else named
        self.crate, self.own = crate, named.setdefault(crate.folder, None) or Named(crate.folder)
        named[crate.folder] = self.own
        self.all = list(self.own.definitions)
        for below in crate.below():
            if not named.get(below.folder):
                named[below.folder] = Named(below.folder)
            self.all += [it for it in named[below.folder].definitions if it.is_public or it.is_everywhere]
        self.by_name = {}
        for number, it in enumerate(self.all):
            for name in it.names:
                self.by_name.setdefault(name, set()).add(number)
        self.by_place, self.by_module, self.items, self.citing = {}, {}, {}, {}
        for number, it in enumerate(self.all):
            for name in it.names if it.module else ():
                self.by_place.setdefault((it.module, name), set()).add(number)
            self.by_module.setdefault(it.module, set()).add(number)
        self.everywhere = {number for number, it in enumerate(self.all) if it.is_everywhere}
        self.sums = [sum_of(it.names, it.kind, it.text) for it in self.all]
        self.said = repr(sorted(crate.said.items()))

    def named_in(self, words, kinds=("fn", "item", "antt", "lemma", "use")):
        """The numbers of the definitions of these kinds that are named by words."""
        found = set().union(*(self.by_name[it] for it in words & self.by_name.keys()))
        return {it for it in found if self.all[it].kind in kinds}

    def items_below(self, number):
        """The types, constants and re-exports that a definition names."""
        if number not in self.items:
            self.items[number] = self.named_in(self.all[number].words, ("item", "use"))
        return self.items[number]

    def cites(self, number):
        """The definitions that a definition cites."""
        if number not in self.citing:
            self.citing[number] = self.cited(self.all[number].refs)
        return self.citing[number]

    def reached(self, words, refs=frozenset()):
        """What words name; types, constants and re-exports from there on; and all that contracts and types mean.

        That is what the refs, the statements of functions and lemmas that are named, and the types that are reached cite, to the end.
        """
        named = self.named_in(words)
        found = to_the_end(named, self.items_below)
        stated = {it for it in found if self.all[it].kind == "item" or it in named and self.all[it].kind in ("fn", "lemma")}
        cited = self.cited(refs).union(*(self.cites(it) for it in stated | self.everywhere))
        return found | to_the_end(cited, self.cites)

    def cited(self, refs):
        """The definitions that refs cite: in the module that they say, or a type of the sources, or all of a module."""
        found = set()
        for module, name in refs:
            found |= self.by_place.get((module, name), set())
            if ".declared." in module:
                found |= self.named_in(frozenset((name, module.rpartition(".")[2])), ("item",))
            elif module:
                found |= self.by_module.get(module if name == "*" else f"{module}.{name}", set())
        return found

    def own_text(self, edit):
        """The texts of what an edit concerns: its functions as edited, and their proofs; with its words, and what it cites."""
        now = edited(edit, self.own.src)
        change = change_of(edit, self.own.src)
        names = {*change.functions, *edit.judges}
        units = {it.unit() for it in self.own.functions if it.name in names}
        texts, words, refs = [], set(), frozenset()
        for it in all_functions(now):
            if it.unit() in units:
                whole = now[it.file]
                text = without_comments(above(whole, it.start)[1] + whole[it.start : it.end], RUST_COMMENT)
                header = header_of(whole, it.start)
                mine = words_of(f"{header} {text} {it.name}")
                imports = used(imports_of(whole, is_rust=True), text + header, mine)
                texts.append((it.name, header, text, imports))
                words |= mine | words_of(" ".join(imports))
                refs |= cited(imports)
        folders = tuple(f"{folder_of(it, self.own.top).relative_to(self.own.top)}/" for it in self.own.functions if it.unit() in units)
        for file, text in self.own.proofs.items():
            if folders and file.startswith(folders):
                text = without_comments(text, ANTT_COMMENT)
                texts.append((file, text))
                words |= words_of(text)
        if change.is_outside or not units:
            for file, text in now.items():
                text = without_comments(text, CODE_COMMENT)
                texts.append((file, text))
                words |= words_of(text)
                refs |= cited(path for _, path in imports_of(text, is_rust=True))
        return texts, frozenset(words), refs

    def of(self, name):
        """The key of an edit, or None where it can't be applied."""
        path = self.own.top / f"edits/{name}.edit"
        lines = [it for it in path.read_text(encoding="utf-8").split("\n") if not it.startswith("goal: ")]
        try:
            texts, words, refs = self.own_text(read_edit(path))
        except (BadEdit, ValueError, AttributeError, TypeError):
            return None
        found = self.reached(words, refs) | self.everywhere
        own = sum_of(self.crate.name, name, lines, texts)
        return Key(own, sum_of(self.said, sorted({self.sums[it] for it in found})))


def keys_of(crates):
    """The keys of all edits of some crates, by crate and name."""
    named, found = {}, {}
    for crate in crates:
        keys = Keys(crate, named)
        found[crate.name] = {it.stem: keys.of(it.stem) for it in pathlib.Path(crate.folder).glob("edits/*.edit")}
    return found
