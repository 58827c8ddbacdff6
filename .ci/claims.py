#!/usr/bin/env python3
"""Makes the index of docs/CLAIMS.md: the public functions and types of each library, with their contracts' clauses.

Usage: .ci/claims.py [--write]

A row for each name that a library gives out, for each public function of its types, and for each function of a trait
of these crates: the first sentence of its docstring, the names of its clauses, and the definitions that these name.
The clauses for traits of other crates are in the row of the type, as `eq::exact`. Without `--write` it compares the
index with the page, prints what differs, and ends with 1 where something does.
"""

import os
import re

import made_part
from definitions import GHOST_USE, STRING, WORD, Definitions, Scope, text_of

PAGE = "docs/CLAIMS.md"
SCRIPT = ".ci/claims.py"

CRATE = re.compile(r"^(\w+)(?: staticlib)?:", re.M)
GIVEN = re.compile(r"^pub use ([\w:]+?)::(?:\{([^}]*)\}|(\w+));|^pub (?:extern \S+ )?(?:fn|struct|enum|trait|const|type) (\w+)", re.M)
ITEM = re.compile(r"^(|    )(pub )?(?:extern \S+ )?(fn|struct|enum|trait|const|type) (\w+)")
IMPL = re.compile(r"^impl(?:<.*?>)? (?:([\w:]+)(?:<.*?>)? for )?(\w+)(?:<.*>)? \{")
TRAIT = re.compile(r"^pub trait (\w+)", re.M)
GHOST_WORD = re.compile(r"^    ghost (?:output|from_gives) = ")
CLAUSE = re.compile(r"\b(requires|ensures)\*?(?: (\w+))? \{|\bghost (output|from_gives) = \{")
SENTENCE = re.compile(r"(.*?[.!?])(?:\s|$)", re.S)


class Item:
    """A function or a type of the code: what its docstring begins with, and its clauses, by name and text."""

    def __init__(self, path, name, doc, scope):
        self.path = path
        self.name = name
        self.doc = doc
        self.scope = scope
        self.clauses = []


class Block:
    """A block of code with functions of a type: its own, those of a trait for it, or the trait itself."""

    def __init__(self, owner, trait=None, is_trait=False):
        self.owner = owner
        self.trait = trait
        self.is_trait = is_trait


def block_at(line, block):
    """The block that is open behind a line."""
    impl = IMPL.match(line)
    trait = TRAIT.match(line)
    if impl is not None:
        return Block(impl[2], impl[1])
    if trait is not None:
        return Block(trait[1], None, True)
    return None if line == "}" else block


class Source:
    """One file of code: its public items by their names, and the functions of types by the type's name."""

    def __init__(self, path):
        self.path = path
        self.text = text_of(path)
        self.lines = self.text.split("\n")
        self.scope = Scope(GHOST_USE.finditer(self.text))
        self.items = {}
        self.of_types = {}
        block = None
        for number, line in enumerate(self.lines):
            block = block_at(line, block)
            found = ITEM.match(line)
            if block is not None and GHOST_WORD.match(line):
                self.add_ghost(block, number)
            elif found is not None:
                self.add(block, found, number)

    def add(self, block, found, number):
        """An item that begins in a line, where it is public, or a function that a trait asks for."""
        item = Item(self.path, found[4], self.doc_before(number), self.scope)
        if found[3] == "fn":
            item.clauses = self.clauses_from(number, len(found[1]))
        if found[2] and not found[1]:
            self.items[item.name] = item
        elif block is not None and found[3] == "fn" and (found[2] or block.is_trait or block.trait and item.clauses):
            self.of_types.setdefault(block.owner, []).append((block.trait, item))

    def add_ghost(self, block, number):
        """What a word of std's traits says of a function of it: of `fmt` what is displayed, of `from` what is given."""
        text = self.lines[number]
        while "};" not in text:
            number += 1
            text += "\n" + self.lines[number]
        item = Item(self.path, "fmt" if "ghost output" in text else "from", "", self.scope)
        item.clauses = clauses_in(text)
        self.of_types.setdefault(block.owner, []).append((block.trait, item))

    def doc_before(self, number):
        """The first sentence of the docstring before a line."""
        lines = []
        number -= 1
        while number >= 0 and self.lines[number].strip().startswith(("///", "#[")):
            lines.insert(0, self.lines[number].strip())
            number -= 1
        text = []
        for line in lines:
            if line.startswith("///"):
                if not line[3:].strip():
                    break
                text.append(line[3:].strip())
        return first_sentence(" ".join(text))

    def clauses_from(self, number, indent):
        """The clauses between the head of a function and its body."""
        text = self.lines[number]
        while not ends_head(self.lines[number], indent) and number + 1 < len(self.lines):
            number += 1
            text += "\n" + self.lines[number]
        return clauses_in(text)


def ends_head(line, indent):
    """Whether the body of a function begins in this line, or its declaration ends there."""
    inner = line[indent:]
    if inner.startswith("{") or line.endswith(";"):
        return True
    return line.endswith(" {") and CLAUSE.search(line) is None and not line.startswith(" " * (indent + 8))


def clauses_in(text):
    """Each clause of a contract: its name, or nothing, and its text; a condition has the name `requires`."""
    text = re.sub(r"^\s*//.*$", "", STRING.sub('""', text), flags=re.M)
    clauses = []
    for clause in CLAUSE.finditer(text):
        at, depth = clause.end(), 1
        while depth and at < len(text):
            depth += {"{": 1, "}": -1}.get(text[at], 0)
            at += 1
        name = "requires" if clause[1] == "requires" else clause[2] or clause[3]
        clauses.append((name, text[clause.end() : at - 1]))
    return clauses


def first_sentence(text):
    """The first sentence, as a cell of a table."""
    found = SENTENCE.match(text)
    sentence = (found[1] if found is not None else text).replace("|", "\\|")
    return re.sub(r"\[(`[^`\]]*`)\](?:\([^)]*\))?", r"\1", sentence)


def outer_clauses(item):
    """The clauses of a function of a type, as those of the type: `eq::exact`."""
    return [(f"{item.name}::{name}" if name else item.name, text) for name, text in item.clauses]


class Crate:
    """One library: its files of code, by their modules."""

    def __init__(self, name):
        self.name = name
        self.sources = {}
        folder = f"crates/{name}/src"
        for place, folders, files in os.walk(folder):
            folders.sort()
            for file in sorted(files):
                if file.endswith(".rt"):
                    path = os.path.join(place, file)
                    module = os.path.relpath(path, folder)[: -len(".rt")].replace("/", "::")
                    self.sources["" if module == "lib" else module] = Source(path)

    def about(self):
        """The first sentence of the page of the crate."""
        lines = []
        for line in self.sources[""].lines:
            if not line.startswith("//!") or not line[3:].strip():
                break
            lines.append(line[3:].strip())
        return first_sentence(" ".join(lines))

    def given(self, module=""):
        """Each name that a module gives out, and the item, or the crate that it comes from."""
        source = self.sources[module]
        for use in GIVEN.finditer(source.text):
            if use[4] is not None:
                yield use[4], source.items[use[4]]
                continue
            inner = f"{module}::{use[1]}" if module else use[1]
            for name in re.findall(r"\w+", use[2] or use[3]):
                if inner in self.sources:
                    yield name, dict(self.given(inner)).get(name)
                else:
                    yield name, use[1].split("::")[0]

    def of_type(self, name):
        """The functions of a type: its own, then those of traits."""
        found = [pair for source in self.sources.values() for pair in source.of_types.get(name, [])]
        return sorted(found, key=lambda pair: pair[0] is not None)


class Index:
    """The index of all libraries."""

    def __init__(self):
        names = CRATE.findall(text_of("crates.txt"))
        self.crates = [Crate(name) for name in names if os.path.exists(f"crates/{name}/src/lib.rt")]
        sources = [source for crate in self.crates for source in crate.sources.values()]
        self.traits = {trait for source in sources for trait in TRAIT.findall(source.text)}
        self.definitions = Definitions()

    def cited(self, item):
        """The names of the definitions that the clauses name, each once."""
        names = []
        for _, text in item.clauses:
            for word in WORD.findall(text):
                found = self.definitions.meant(item.scope, word)
                if found is not None and found.scope is not None and not found.is_view:
                    names.append(found.name)
        return list(dict.fromkeys(names))

    def row(self, name, item, trait=None):
        clauses = list(dict.fromkeys(clause for clause, _ in item.clauses if clause is not None))
        title = f"`{name}`" + (f" of `{trait}`" if trait else "")
        cells = [title, item.doc, ", ".join(f"`{c}`" for c in clauses), ", ".join(f"`{c}`" for c in self.cited(item))]
        return "| " + " | ".join(cells) + " |\n"

    def section(self, crate):
        rows = []
        for name, item in crate.given():
            if isinstance(item, str):
                rows.append(f"| `{name}` | the one of `{item}` | | |\n")
                continue
            if item is None:
                raise SystemExit(f"crates/{crate.name}: `{name}` is given out, and no such item was found")
            inners = crate.of_type(name) if name[0].isupper() else []
            own = [(trait, inner) for trait, inner in inners if trait is None or trait in self.traits]
            item.clauses += [clause for pair in inners if pair not in own for clause in outer_clauses(pair[1])]
            rows.append(self.row(name, item))
            rows += [self.row(f"{name}::{inner.name}", inner, trait) for trait, inner in own]
        if not rows:
            return ""
        head = "| name | says | clauses | definitions |\n|---|---|---|---|\n"
        return f"\n### {crate.name}\n\n{crate.about()}\n\n{head}" + "".join(rows)

    def made(self):
        return "".join(map(self.section, self.crates))


if __name__ == "__main__":
    os.chdir(os.path.join(os.path.dirname(os.path.abspath(__file__)), ".."))
    made_part.run(PAGE, SCRIPT, Index().made())
