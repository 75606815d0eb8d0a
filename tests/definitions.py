"""Reads definitions: the lines that each has, which others it uses, and which the clauses of a call cite."""
import os
import re
from collections import Counter
from typing import Callable, Dict, Iterable, Iterator, List, Set, Tuple

import sources

SPEC = re.compile(r"crates/(\w+)/specs/(?!declared/)([\w/]+)\.antt")
IMPORTED = re.compile(r"^(?:ghost )?use Rattle\.(\w+)\.specs\.([\w.]+?)(?:\.\{(.*)\}| as (\w+));?$", re.M)

# A file of definitions: the crate and the module. A definition: its file, and which of its definitions it is.
Module = Tuple[str, str]
Place = Tuple[Module, int]


def definitions_of(text: str) -> Iterator[List[str]]:
    """Yields the definitions of a file: the lines of each without comments. Those of a mutual block are one, and the
    constructors of a type belong to it."""
    mutual = None
    for block in text.split("\n\n"):
        skipped = ("--", "use ", "module ", "pub mod ", "pub use ")
        lines = [line for line in block.splitlines() if line.strip() and not line.lstrip().startswith(skipped)]
        if not lines:
            continue
        if mutual and not lines[0].startswith(" "):
            yield mutual
            mutual = None
        if lines[0].endswith("mutual"):
            mutual = []
        if mutual is None:
            yield lines
        else:
            mutual += lines
    if mutual:
        yield mutual


def names_of(block: List[str]) -> List[str]:
    """Returns the names that a definition declares."""
    heads = block[:1] if re.match(" *pub record", block[0]) else block
    names = re.findall(r"^ *(?:abbrev |unfoldable )?pub (?:record |data )?(\w+)", "\n".join(heads), re.M)
    text = "\n".join(block)
    if "pub data" in text:
        names += " ".join(re.findall(r"^ +((?!pub )\w[\w ]*) :", text, re.M)).split()
    return names


def imports_of(text: str) -> Tuple[Dict[str, Module], Dict[str, Module]]:
    """Returns where the names that a file imports are from, and the modules that it calls by another name."""
    names: Dict[str, Module] = {}
    modules: Dict[str, Module] = {}
    for crate, module, listed, alias in IMPORTED.findall(text):
        if alias:
            modules[alias] = (crate, module)
        else:
            names.update({name: (crate, module) for name in listed.split(", ")})
    return names, modules


def cited(text: str, names: Dict[str, Module], modules: Dict[str, Module]) -> Set[Tuple[Module, str]]:
    """Returns the names of other files that a text has."""
    found = {(modules[alias], name) for alias, name in re.findall(r"\b(\w+)\.(\w+)", text) if alias in modules}
    text = re.sub(r"^ +pub \w+ :|(?<=[\w)])\.\w+", " ", text, flags=re.M)
    return found | {(names[name], name) for name in set(re.findall(r"[A-Za-z_]\w*", text)) if name in names}


class Definitions:
    """The definitions of all crates, with what each uses."""

    def __init__(self, files: Iterable[str], text_of: Callable[[str], str]) -> None:
        self.lines: Dict[Place, int] = {}
        self.owner: Dict[Tuple[Module, str], Place] = {}
        self.uses: Dict[Place, Set[Tuple[Module, str]]] = {}
        for path in sorted(files):
            found = SPEC.fullmatch(path)
            if found and os.path.basename(path) != "Lib.antt":
                self.add((found[1], found[2].replace("/", ".")), text_of(path))

    def add(self, module: Module, text: str) -> None:
        """Adds the definitions of a file."""
        names, modules = imports_of(text)
        blocks = list(definitions_of(text))
        for at, block in enumerate(blocks):
            names.update({name: module for name in names_of(block)})
            self.owner.update({(module, name): (module, at) for name in names_of(block)})
        for at, block in enumerate(blocks):
            self.lines[module, at] = len(block)
            self.uses[module, at] = cited("\n".join(block), names, modules)

    def needed(self, roots: Iterable[Tuple[Module, str]]) -> Set[Place]:
        """Returns the definitions of these names, and all that they use."""
        left, reached = [self.owner[root] for root in roots if root in self.owner], set()
        while left:
            place = left.pop()
            if place not in reached:
                reached.add(place)
                left += [self.owner[use] for use in self.uses[place] if use in self.owner]
        return reached

    def by_module(self, places: Iterable[Place]) -> "Counter[Module]":
        """Returns how many lines these definitions have, by file."""
        count: "Counter[Module]" = Counter()
        for place in places:
            count[place[0]] += self.lines[place]
        return count


def calls_of(text: str) -> Iterator[Tuple[str, Set[Tuple[Module, str]]]]:
    """Yields the public calls of a source, with the names of definitions that the clauses of each cite."""
    names, modules = imports_of(text)
    for function in sources.functions(text):
        if function.visibility == "pub" or function.owner.startswith("trait"):
            clauses = " ".join(clause.text for clause in function.clauses)
            yield function.name, cited(clauses, names, modules)
