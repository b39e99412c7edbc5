"""What the repository has under a name: files and folders, and what their texts declare."""

import builtins
import re
from functools import cached_property
from pathlib import Path

CODE = (".antt", ".rt", ".h", ".py", ".js", ".edit")
FOLDERS = ("crates", "tools", "tests", "include", "examples", "page")
OTHERS = {"rt", "diff", "grep", "requires", "--help", "--allow-holes", "--check", "-s"}  # programs, a word of the language, options of others

# a definition or a theorem, a constructor or a field: what a colon follows at the front of a line
DEFINED = re.compile(r"^\s*(?:(?:unfoldable|abbrev|pub)\s+)*(?:(?:record|data)\s+([^\s({:]+)|([^\s(){}:,]+)\s+:\s)", re.M)
KIT = re.compile(r"^use (?!Rattle)(?:\w+\.)*(\w+)\.\{([^}]*)\}", re.M)
CODED = re.compile(r"\b(?:fn|struct|enum|type|const|mod)\s+(\w+)|(?:->|\w:) &?(?:mut )?\[?(\w+)")
BLOCK = re.compile(r"^(?:pub\s+)?(?:impl|struct|enum)\s+(\w+)\s*\{\n(.*?)^\}", re.M | re.S)
MEMBER = re.compile(r"\b(?:fn|const)\s+(\w+)|^    (?:pub )?(\w+)(?=:|,|\(| \{)", re.M)
PYTHON = re.compile(r"\b(?:def|class)\s+(\w+)|^(\w+)\s*=|\.(\w+)\s*=|[\"'](-*\w[\w-]*)[\"']", re.M)
SCRIPT = re.compile(r"\b(?:function|class|const|let)\s+(\w+)")
HEADER = re.compile(r"\b\w+\b")


def taken(pattern, text):
    """The names that a pattern's groups take out of a text."""
    return {name for match in pattern.finditer(text) for name in match.groups() or (match[0],) if name}


def names_in(path):
    """The names that a file declares. Of Python also the words that it quotes: commands, options, words of the formats."""
    text = path.read_text(encoding="utf-8")
    if path.suffix == ".antt":
        return taken(DEFINED, text)
    if path.suffix == ".rt":
        members = {(owner, name) for owner, block in BLOCK.findall(text) for name in taken(MEMBER, block)}
        plain = taken(CODED, text)
        return plain | {name for _, name in members} | {"::".join(m) for m in members} | {f"{path.stem}::{name}" for name in plain}
    if path.suffix == ".edit":
        return {path.stem}
    return taken({".py": PYTHON, ".js": SCRIPT}.get(path.suffix, HEADER), text)


class Tree:
    """The repository below a folder."""

    def __init__(self, top):
        self.top = Path(top).resolve()
        self.crates = sorted(p for p in (self.top / "crates").iterdir() if p.is_dir())
        self.declared = {p: names_in(p) for f in FOLDERS for p in (self.top / f).rglob("*") if p.suffix in CODE}

    @cached_property
    def names(self):
        """Every name: the tree's, its crates, and what its files take from the kit and from Python."""
        texts = [p.read_text(encoding="utf-8") for p in self.declared if p.suffix == ".antt"]
        kit = {w.strip() for text in texts for module, group in KIT.findall(text) for w in (module, *group.split(","))}
        return set().union(*self.declared.values(), kit, (p.name for p in self.crates), dir(builtins), OTHERS)

    def places(self, path, folders=()):
        """The files or folders that a path in a document means: from the top, below crates/, a must-fail edit as CRATE/EDIT, a file in
        the first of these folders that has it, or what each crate has under the path."""
        crate, _, edit = path.partition("/")
        crates = self.top / "crates"
        tried = (self.top / path, crates / path, crates / crate / "must-fail" / f"{edit}.edit", *(f / path for f in folders))
        first = next((p for p in tried if p.exists()), None)
        return [first] if first else [p / path for p in self.crates if (p / path).exists()]

    def declares(self, place, name):
        """Whether a file, or a file below a folder, declares a name; true of what is no text of names."""
        if place.is_dir():
            return any(name in self.declared.get(p, ()) for p in place.rglob("*"))
        return place.suffix == ".edit" or name in self.declared.get(place, {name})
