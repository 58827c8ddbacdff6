"""The definitions in the `specs/` of the crates: where each is, its lines, and what it names."""

import glob
import os
import re

HEAD = re.compile(r"^(?:abbrev |unfoldable )?pub (?:(record|data) )?([^\s:({]+)")
CONSTRUCTOR = re.compile(r"^\s+([^\s:]+)\s+:")
FIELD = re.compile(r"^\s+pub\s+([^\s:]+)\s+:")
USE = re.compile(r"^(?:pub )?use Rattle\.([\w.]+?)(?:\.\{([^}]*)\}| as ([\w-]+))$", re.M)
STRING = re.compile(r'"[^"\n]*"')
COMMENT = re.compile(r"(?:^|\s)--(?:\s.*)?$", re.M)
WORD = re.compile(r"(?:«[^»]*»|[^\W\d][\w'-]*)(?:\.[^\W\d][\w'-]*)*")
GHOST_USE = re.compile(r"^\s*ghost use Rattle\.([\w.]+?)(?:\.\{([^}]*)\}| as ([\w-]+));", re.M)
VIEW = re.compile(r"^impl(?:<[^>]*>)? Model for (\w+)[^\n]*\{\n(.*?)^\}", re.M | re.S)
VALUE = re.compile(r"ghost Value = \{(.*?)\};", re.S)
CRATE_USE = re.compile(r"^use (\w+)::(?:\{([^}]*)\}|(\w+));", re.M)
TYPE = re.compile(r"^pub (?:struct|enum) (\w+)[^\n]*?(?:;|\{\}|\{\n.*?^\})$", re.M | re.S)


def text_of(path):
    with open(path, encoding="utf-8") as file:
        return file.read()


class Definition:
    """One definition, or a type of the code: its file, its name, its lines without comments, and what it names.

    A type that definitions see as another one, by its view, is a mere name for that one: `is_view`.
    """

    def __init__(self, path, name, lines, scope=None, is_view=False):
        self.path = path
        self.name = name
        self.lines = lines
        self.scope = scope
        self.is_view = is_view

    def words(self, fields=None):
        """The words of it; of a record those of these fields alone, where some are named."""
        for line in self.lines:
            field = FIELD.match(line)
            if fields is None or field is not None and field[1] in fields:
                yield from WORD.findall(line)


class Scope:
    """The names that a text takes from files of definitions, and those that it defines."""

    def __init__(self, uses):
        self.taken = {}
        self.aliases = {}
        self.definitions = {}
        self.constructors = {}
        for use in uses:
            if use[3] is not None:
                self.aliases[use[3]] = use[1]
            else:
                self.taken.update(dict.fromkeys(use[2].replace(",", " ").split(), use[1]))


class Module(Scope):
    """One file of definitions."""

    def __init__(self, path):
        text = text_of(path)
        super().__init__(USE.finditer(text))
        self.name = ".".join(os.path.splitext(path)[0].split("/")[1:])
        self.read(path, COMMENT.sub("", STRING.sub('""', text)))

    def read(self, path, text):
        current = None
        for line in filter(None, map(str.rstrip, text.split("\n"))):
            head = HEAD.match(line)
            if line.startswith(("use ", "pub use ", "pub mod ")):
                current = None
            elif head is not None:
                current = Definition(path, head[2], [line], self)
                self.definitions[head[2]] = current
            elif current is not None:
                current.lines.append(line)
                constructor = CONSTRUCTOR.match(line)
                if constructor is not None and current.lines[0].startswith("pub data"):
                    self.constructors[constructor[1]] = current


class Definitions:
    """All definitions of the crates, and the types of their code."""

    def __init__(self):
        modules = map(Module, sorted(glob.glob("crates/*/specs/**/*.antt", recursive=True)))
        self.modules = {module.name: module for module in modules}
        self.types = {}

    def named(self, name):
        """The one definition of this name."""
        found = [m.definitions[name] for m in self.modules.values() if name in m.definitions]
        if len(found) != 1:
            raise SystemExit(f"{name}: {len(found)} definitions of this name, where one was looked for")
        return found[0]

    def types_of(self, crate):
        """The public types of the code of a crate, by their names."""
        if crate not in self.types:
            types = {}
            for path in sorted(glob.glob(f"crates/{crate}/src/**/*.rt", recursive=True)):
                text = text_of(path)
                for found in TYPE.finditer(text):
                    lines = [line for line in found[0].split("\n") if not line.strip().startswith(("//", "#["))]
                    types[found[1]] = Definition(path, found[1], lines)
                for view in VIEW.finditer(text):
                    uses = [*GHOST_USE.finditer(text[: text.find("\nimpl")]), *GHOST_USE.finditer(view[2])]
                    value = VALUE.search(view[2])[1]
                    types[view[1]] = Definition(path, view[1], [value], Scope(uses), True)
            self.types[crate] = types
        return self.types[crate]

    def type_named(self, path, name):
        """The type of the code that a name means in a file of code, or nothing if it is none of ours."""
        own = self.types_of(path.split("/")[1])
        if name in own:
            return own[name]
        for use in CRATE_USE.finditer(text_of(path)):
            if name in re.findall(r"\w+", use[2] or use[3]):
                return self.types_of(use[1]).get(name)
        return None

    def given(self, module, name):
        """What a module gives by a name: a definition or a type of the code, or nothing if it is none of ours."""
        if ".specs.declared." in module:
            parts = module.removesuffix(".TheVariants").split(".")
            return self.types_of(parts[0]).get(parts[-1])
        file = self.modules.get(module)
        if file is None:
            return None
        if name in file.definitions or name in file.constructors:
            return file.definitions.get(name) or file.constructors[name]
        return self.given(file.taken[name], name) if name in file.taken else None

    def meant(self, scope, word):
        """What a word means there."""
        first, _, rest = word.partition(".")
        if rest and first in scope.aliases:
            return self.given(scope.aliases[first], rest.split(".")[0])
        if first in scope.taken:
            return self.given(scope.taken[first], first)
        return scope.definitions.get(first) or scope.constructors.get(first)

    def cited(self, definition, fields=None):
        """The definitions and the types that one names."""
        if definition.scope is None:
            found = (self.type_named(definition.path, word) for word in definition.words())
        else:
            found = (self.meant(definition.scope, word) for word in definition.words(fields))
        return [one for one in found if one is not None]

    def closure(self, roots, fields, left_out=()):
        """What definitions of these names rest on, themselves first: all that they name, and so on.

        `fields` says of some records which of their fields count; what is left out is not followed.
        """
        reached = {}
        waiting = [self.named(name) for name in reversed(roots)]
        while waiting:
            one = waiting.pop()
            if one.name in left_out or (one.path, one.name) in reached:
                continue
            reached[one.path, one.name] = one
            waiting += reversed(self.cited(one, fields.get(one.name)))
        return reached
