"""What the sources of a crate define, as far as a refusal can depend on it: each definition with its text and its names.

A definition is a function's statement (attributes, signature, contract), an item of a source file with its functions
taken out (a type, a constant, an `impl` with its ghost items, a macro), or a paragraph of specs/ or of the lemmas in
proofs/. Comments and blank lines are left out. The layout is kept, since antt reads it. Names are matched by their last
part, whatever module they come from: a name that stands for two definitions means both.
"""

import pathlib
import re
from typing import NamedTuple

from copies import above, folder_of
from functions import all_functions

STRING = r"b?r(?P<hash>#*)\".*?\"(?P=hash)|b?\"(?:\\.|[^\"\\])*\"|b?'(?:\\[^']+|[^'\\\n])'"
RUST_COMMENT = re.compile(rf"(?s)(?P<kept>{STRING})|/\*.*?\*/|//[^\n]*")
CODE_COMMENT = re.compile(rf"(?s)(?P<kept>{STRING}|///[^\n]*)|/\*.*?\*/|//[^\n]*")
ANTT_COMMENT = re.compile(r"(?s)(?P<kept>\"(?:\\.|[^\"\\])*\")|(?<![^\s])--(?=\s|$)[^\n]*")
WORD = re.compile(r"[^\s(){}\[\].,;:&*<>=|'\"`λ→∀◌+!?#@/←≡≢≤]+|[A-Za-z_]\w*")
ITEM_NAME = re.compile(r"\b(?:struct|enum|union|const|static|type|trait|macro_rules!) (\w+)")
DECLARED = re.compile(r"(?m)^\s*(?:\w+ )*?(\S+)(?: \{[^}]*\})* :(?=\s|$)")
GROUPED = re.compile(r"(?m)\b(?:data|record|module|ruleset|syntax) (\S+)")
RUST_USE = re.compile(r"(?m)^ *(pub(?:\([^)]*\))? |ghost )*use ([^;]+);")
ANTT_USE = re.compile(r"(?m)^ *(?:(?:unfoldable|pub) )*use ([^\s{]+(?:\{[^}]*\})?(?: as \S+)?)")
PLAIN_DERIVES = {"Drop", "Clone", "Copy", "Debug", "PartialEq", "Eq", "PartialOrd", "Ord", "Hash", "Default"}
# Methods that code calls without their names: operators, loops, `?`, drops, formats.
IMPLICIT = set(
    "from into eq ne cmp partial_cmp lt le gt ge add sub mul div rem neg not bitand bitor bitxor shl shr add_assign "
    "sub_assign mul_assign bitand_assign bitor_assign index index_mut deref deref_mut drop next into_iter fmt branch "
    "from_residual default hash call call_mut call_once borrow as_ref".split()
)


class Definition(NamedTuple):
    """What stands under some names: its kind (fn, item, antt, lemma, use), its text, the words in it, and whether others can name it.

    The text has the imports of its file that it uses. What is everywhere is part of each key. Refs has definitions of specs/
    and of lemmas that it cites, each as a module and a name: an import says the module, and what isn't imported is the file's own.
    """

    names: tuple
    kind: str
    text: str
    words: frozenset
    is_public: bool
    is_everywhere: bool = False
    module: str = ""
    refs: frozenset = frozenset()


def without_comments(text, comment):
    """A text without its comments, blank lines and blanks at the ends of lines."""
    bare = comment.sub(lambda it: it["kept"] or "", text)
    return "\n".join(line.rstrip() for line in bare.split("\n") if line.strip())


def words_of(text):
    """The words of a text."""
    return frozenset(WORD.findall(text)) | frozenset(re.findall(r"[A-Za-z_]\w*", text))


def leaves(path, separator):
    """What an import brings, as pairs of a name and the whole path; groups in braces are taken apart."""
    path = " ".join(path.split())
    head, brace, rest = path.partition("{")
    if not brace:
        whole, _, alias = path.partition(" as ")
        return [(alias or whole.rpartition(separator)[2], path)]
    parts, depth = [""], 0
    for letter in rest[: rest.rindex("}")]:
        depth += {"{": 1, "}": -1}.get(letter, 0)
        if letter == "," and not depth:
            parts.append("")
        else:
            parts[-1] += letter
    return [leaf for part in parts if part.strip() for leaf in leaves(head + part.strip(), separator)]


def imports_of(text, is_rust):
    """What a file's imports bring: names with their paths."""
    if is_rust:
        return [leaf for it in RUST_USE.finditer(text) for leaf in leaves(it[2], "::" if "::" in it[2] else ".")]
    return [leaf for it in ANTT_USE.finditer(text) for leaf in leaves(it[1], ".")]


def used(imports, text, words):
    """The imports that a text may use: those of a word in it, of an operator whose signs stand in it, and of all names."""
    is_used = lambda name: name in words or name in ("*", "self") or "◌" in name and all(it in text for it in name.split("◌"))
    return sorted({path for name, path in imports if is_used(name)})


def cited(paths):
    """The definitions of specs/ and of lemmas that imports bring, each as a module and a name."""
    parted = [it.partition(" as ")[0].rpartition(".") for it in paths if it.startswith("Rattle.")]
    return frozenset((module, name) for module, _, name in parted)


def definition(names, kind, text, imports, is_public, is_everywhere=False, module="", means=None):
    """A definition with its text and the imports that it uses; what these rename is a word of it too.

    What it cites is what the part of the text that means something cites: all of it, if means is left out.
    """
    words = words_of(text)
    paths = used(imports, text, words)
    means = text if means is None else means
    refs = cited(used(imports, means, words_of(means))) | frozenset((module, it) for it in words_of(means) if module)
    words = words | words_of(" ".join(paths))
    return Definition(tuple(names), kind, "\n".join([text, *paths]), words, is_public, is_everywhere, module, refs)


def header_of(text, start):
    """The head of the impl, trait or module that the function at a place stands in, or nothing."""
    before = text[: text.rfind("\n", 0, start) + 1] if text[start : start + 1] != " " else text[:start]
    around = before.rpartition("\n}\n")[2]
    found = re.findall(r"(?m)^(?:pub(?:\([^)]*\))? |unsafe )*(?:impl|trait|mod)\b[^{;]*\{$", around)
    return found[-1] if found and text[start : start + 1] == " " else ""


def statement(text, function):
    """What is said of a function, and its body where it is a `const fn`, which constants are computed with."""
    own = above(text, function.start)[1]
    head = text[function.start : function.body] + text[function.body : function.end].partition("{")[0]
    is_const = re.search(r"\bconst (?:unsafe )?fn\b", head)
    return own + (text[function.start : function.end] if is_const else head)


def items_of(text, functions):
    """The items of a source file without its functions, and the file's inner attributes."""
    rest, at = [], 0
    for it in sorted(functions, key=lambda it: it.start):
        rest.append(text[at : it.start - len(above(text, it.start)[1])])
        at = it.end
    left = "".join([*rest, text[at:]])
    inner = re.findall(r"(?m)^ *#!\[.*\]$", left)
    blocks = re.split(r"\n\s*\n(?=[^\s}])", re.sub(r"(?m)^ *#!\[.*\]$", "", left))
    return inner, [it for it in blocks if "#[cfg(test)]" not in it]


def is_plain(block):
    """Whether an item's comments say nothing to a derive: it has none but those of std."""
    return not any(set(re.findall(r"\w+", it)) - PLAIN_DERIVES for it in re.findall(r"#\[derive\(([^)]*)\)\]", block))


def named_by_impl(header):
    """The names that an impl stands under: those of its type, or of its trait where the type is a parameter."""
    header = " ".join(header.split())
    generics = re.match(r"<(?:[^<>]|<[^<>]*>)*>", header)
    trait, _, of = re.split(r"\bwhere\b", header[generics.end() if generics else 0 :])[0].rpartition(" for ")
    bound = set(re.findall(r"[A-Za-z_]\w*", generics[0])) if generics else set()
    return sorted(set(re.findall(r"[A-Za-z_]\w*", of)) - bound) or re.findall(r"[A-Za-z_]\w*", trait)


def rust_definitions(texts, functions):
    """What the source files of a crate define."""
    found = []
    for file, text in texts.items():
        imports = imports_of(text, is_rust=True)
        mine = [it for it in functions if it.file == file]
        for it in mine:
            bare = without_comments(statement(text, it), RUST_COMMENT)
            last = it.name.rpartition("::")[2]
            said = f"{header_of(text, it.start)}\n{bare}"
            is_open = it.of_trait or bare.partition("fn ")[0].find("pub") >= 0
            found.append(definition([last], "fn", said, imports, is_open, it.of_trait and last in IMPLICIT))
        inner, blocks = items_of(text, mine)
        found += [definition([], "item", f"{file}: {it}", [], False, True) for it in inner]
        for block in blocks:
            bare = without_comments(block, RUST_COMMENT if is_plain(block) else CODE_COMMENT)
            names = ITEM_NAME.findall(bare)
            for header in re.findall(r"(?m)^(?:unsafe )?impl\b([^{]*)\{", bare):
                names += named_by_impl(header)
            if names:
                found.append(definition(names, "item", bare, imports, True, "macro_rules!" in bare))
        for name, path in imports:
            if re.search(rf"(?m)^pub(\([^)]*\))? use [^;]*\b{re.escape(name)}\b", text):
                found.append(Definition((name,), "use", path, words_of(path), True))
    return found


def stated(block):
    """What a block of proof text states: the types of its lemmas. Of what can be unfolded that is all of it."""
    if re.match(r"\s*(?:pub )?(?:abbrev|unfoldable|data|record|module|ruleset|syntax)\b", block):
        return block
    lines, depth = [], None
    for line in block.split("\n"):
        own = len(line) - len(line.lstrip(" "))
        if DECLARED.match(line):
            depth = own
        elif depth is not None and own <= depth:
            depth = None
        if depth is not None:
            lines.append(line)
    return "\n".join(lines)


def antt_definitions(crate, texts):
    """What files of specs/ and of lemmas define. What stands in a module has the module's head, with its variables."""
    found = []
    for file, text in texts.items():
        imports, around = imports_of(text, is_rust=False), []
        module = f"Rattle.{crate}.{file.removesuffix('.antt').replace('/', '.')}"
        for it in re.finditer(r"(?m)^ *(?:unfoldable )?pub use ([^\s{]+(?:\{[^}]*\})?)", text):
            for name, path in leaves(it[1], "."):
                found.append(Definition((name,), "use", path, words_of(path), True, False, module, cited([path])))
        for block in re.split(r"\n\s*\n", text):
            block = without_comments(block, ANTT_COMMENT)
            depth = len(block) - len(block.lstrip(" "))
            around = [it for it in around if it[0] < depth]
            names = [*DECLARED.findall(block), *GROUPED.findall(block)]
            is_mutual = bool(around) and "mutual" in around[-1][1]
            has_signs = any("◌" in it for it in names) or re.search(r"(?m)^\s*(?:pub )?(?:infix|ruleset|syntax)", block) is not None
            said = "\n".join([*(line for _, line in around), block])
            if is_mutual and found:
                # what is defined together means nothing by itself, so it is one definition
                last = found.pop()
                names, said, has_signs = [*last.names, *names], f"{last.text}\n{block}", has_signs or last.is_everywhere
            if names:
                # a lemma rests on what its statement means; its proof was checked with it
                kind, means = ("lemma", stated(said)) if ".proofs." in module else ("antt", said)
                found.append(definition(names, kind, said, imports, True, has_signs, module, means))
            if re.match(r" *(?:(?:abbrev|unfoldable|pub) )*(?:mutual|module)\b", block):
                around.append((depth, block.partition("\n")[0]))
    return found


def texts_below(top, part, ending):
    """The texts of a part of a crate, by file."""
    return {str(it.relative_to(top)): it.read_text(encoding="utf-8") for it in sorted(top.glob(f"{part}/**/*{ending}"))}


class Named:
    """A crate's texts, its functions, and what it defines."""

    def __init__(self, folder):
        self.top = pathlib.Path(folder)
        self.src = texts_below(self.top, "src", ".rt")
        self.proofs = texts_below(self.top, "proofs", ".antt")
        self.functions = all_functions(self.src)
        folders = tuple(f"{folder_of(it, self.top).relative_to(self.top)}/" for it in self.functions)
        lemmas = {file: text for file, text in self.proofs.items() if not file.startswith(folders)}
        specs = texts_below(self.top, "specs", ".antt")
        self.definitions = rust_definitions(self.src, self.functions) + antt_definitions(self.top.name, {**specs, **lemmas})
