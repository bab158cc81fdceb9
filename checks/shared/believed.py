"""Which definitions of specs/ the clauses of `run_style` rest on, by name.

A file is cut into its definitions, each with the comment before it. A definition rests on each other one whose name is a word of it: of its
own file, or of one that the file takes it from by `use`. A constructor or a field is a part of its type. A word that is only a variable with
the name of a definition counts too, so that at most too much is found.
"""

import dataclasses
import pathlib
import re

TOP = pathlib.Path(__file__).resolve().parents[2]
CRATES = TOP / "crates"

USED = re.compile(r"^\s*use Rattle\.(\w+)\.specs\.([\w.]+?)(?:\.\{([^}]*)\})?(?: as (\S+))?$", re.M)
BLOCK = re.compile(r"(?:(?:abbrev|unfoldable|pub) )*(?:module|mutual)\b")
HEAD = re.compile(r"(?P<marks>(?:(?:abbrev|unfoldable|pub)\s+)*)(?P<kind>(?:record|data)\s+)?(?P<name>\S+)(?P<rest>.*)$")
WORD = re.compile(r"[\w'?!]+(?:\.[\w'?!]+)*|[^\s\w(){}\[\],.;:=λ→]+")


@dataclasses.dataclass
class Definition:
    """A definition and its lines, comments among them and blank lines not."""

    path: pathlib.Path
    name: str
    lines: list
    is_type: bool

    def words(self):
        code = "\n".join(line for line in self.lines if not line.strip().startswith("--"))
        return set(WORD.findall(re.sub(r'"[^"]*"', "", code)))

    def parts(self):
        """The names of its constructors or fields, where it is a type."""
        heads = [re.match(r"\s+(?:pub )?((?:[^\s:(){}]+ )+): ", line) for line in self.lines if self.is_type]
        return [name for head in heads if head for name in head.group(1).split()]


class DefinitionFile:
    """The definitions of a file, and the names that it takes from others."""

    def __init__(self, path):
        text = path.read_text()
        self.path = path
        self.definitions = []
        self.taken, self.aliases = {}, {}
        for crate, file, names, alias in USED.findall(text):
            found = (CRATES / crate / "specs").joinpath(*file.split(".")).with_suffix(".antt")
            if alias:
                self.aliases[alias] = found
            for name in filter(None, map(str.strip, names.split(","))):
                there, _, here = name.partition(" as ")
                self.taken[here or there] = (found, there)
        self.cut(re.sub(r"(?m)^use [^\n{]*(?:\{[^}]*\})?[^\n]*\n", "", text))
        self.owners = {part: one for one in self.definitions for part in one.parts()} | {one.name: one for one in self.definitions}

    def cut(self, text):
        """Cuts the text into definitions. One that is in a block is indented by two."""
        before, margin = [], 0
        for line in filter(str.strip, text.splitlines()):
            indent = len(line) - len(line.lstrip())
            if line.strip().startswith("--"):
                before.append(line)
            elif BLOCK.match(line):
                before, margin = before + [line], 2
            elif indent > margin:
                self.definitions[-1].lines += before + [line]
                before = []
            else:
                margin = min(margin, indent)
                self.add(line, before)
                before = []
        if before:
            self.definitions[-1].lines += before

    def add(self, line, before):
        """Adds a line that is the first of a definition, or one of the equations of one."""
        head = HEAD.match(line.strip())
        name, kind = head["name"], head["kind"]
        found = next((one for one in self.definitions if one.name == name), None)
        if found and not head["marks"] and not kind:
            found.lines += before + [line]
        elif head["marks"] or kind or (" : " in line and "=" not in line.split(" : ")[0]):
            self.definitions.append(Definition(self.path, name, before + [line], bool(kind)))
        elif self.definitions:
            self.definitions[-1].lines += before + [line]


class Believed:
    """The definitions on which some rest."""

    def __init__(self):
        self.files = {}
        self.found = {}
        self.left = []

    def file(self, path):
        """The definitions of a file; none where a path is that of a type of the program."""
        if path not in self.files:
            self.files[path] = DefinitionFile(path) if path.exists() else None
        return self.files[path]

    def take(self, path, name):
        """Takes a definition in."""
        file = self.file(path)
        if file and name in file.owners:
            one = file.owners[name]
            if (path, one.name) not in self.found:
                self.found[path, one.name] = one
                self.left.append(one)

    def close(self):
        """Takes in all on which those that were taken in rest."""
        while self.left:
            one = self.left.pop()
            file = self.file(one.path)
            for word in one.words():
                self.take_word(file, word)

    def take_word(self, file, word):
        first, _, rest = word.partition(".")
        if rest and first in file.aliases:
            self.take(file.aliases[first], rest.split(".")[0])
        for name in [first] if first[0].isalnum() or first[0] == "_" else [first, f"◌{first}◌", f"{first}◌", f"◌{first}"]:
            self.take(file.path, name)
            if name in file.taken:
                self.take(*file.taken[name])


def roots():
    """The definitions that the clauses of `run_style` name, each with its file."""
    text = (CRATES / "style_program" / "src" / "top.rt").read_text()
    clauses = set(re.findall(r"\w+", text.split("pub fn run_style", 1)[1].split("\n{\n", 1)[0]))
    for crate, file, names in re.findall(r"^ghost use Rattle\.(\w+)\.specs\.([\w.]+)\.\{([^}]*)\};$", text, re.M):
        for name in map(str.strip, names.split(",")):
            if name in clauses:
                yield CRATES / crate / "specs" / f"{file}.antt", name


def believed():
    """The definitions on which the clauses of `run_style` rest, by file."""
    all_of = Believed()
    for path, name in roots():
        all_of.take(path, name)
    all_of.close()
    by_file = {}
    for path, _ in sorted(all_of.found):
        by_file.setdefault(path, [one for one in all_of.file(path).definitions if (path, one.name) in all_of.found])
    return by_file
