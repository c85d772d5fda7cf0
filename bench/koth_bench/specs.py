"""Reads the definitions of specs, and what they name."""

import os
import re
import typing

from .crates import crates
from .program import ROOT, contents

DECLARED = re.compile(r"(?:(?:abbrev|unfoldable) )*(?:pub )?(?:(?:record|data) )?([^\s(){}:,]+)\s*(?:[({].*)?:", re.U)
WORD = re.compile(r"[^\s(){}\[\],.;`]+")
USE = re.compile(r"^\s*(?:pub )?(?:ghost )?use (Rattle\.(?:[^;\n]*\{\n[^;}]*\}|.*?));?\s*$", re.M)
RENAMED = re.compile(r"Rattle\.(\w+)\.specs\.([\w.]+) as (\w+)$")
SKIPPED = ("use ", "pub use ", "mod ", "pub mod ", "ghost use ", "infix", "--")
Key = tuple[str, str, str]  # the crate, the module of specs and the name of a definition
Meant = dict[str, set[Key]]  # what the names that a file brings in stand for


def files_of(crate: str, folder: str, ending: str) -> typing.Iterator[str]:
    for place, _, names in os.walk(f"{ROOT}/crates/{crate}/{folder}"):
        yield from (f"{place}/{name}" for name in sorted(names) if name.endswith(ending))


def paths_in(text: str) -> list[str]:
    """The whole paths that a `use` brings in: of `a.{b, c.{d, e}}` those are a.b, a.c.d and a.c.e."""
    found, heads, head = [], [""], ""
    for part in re.findall(r"\{|\}|,|[^{},\s]+", text):
        if part == "{":
            heads.append(heads[-1] + head)
            head = ""
        elif part in "},":
            if head:
                found.append(heads[-1] + head)
            head = ""
            if part == "}":
                heads.pop()
        else:
            head = part
    return found + ([heads[-1] + head] if head else [])


def brought(text: str) -> Meant:
    """What the names that a file brings in stand for: the crate, the module of specs and the name."""
    known: Meant = {}
    for use in USE.findall(text):
        renamed = RENAMED.match(use)
        if renamed:
            crate, module, name = renamed.groups()
            for it in re.findall(rf"\b{name}\.([^\s(){{}}.,]+)", text):
                known.setdefault(it, set()).add((crate, module, it))
        for path in paths_in(use):
            parts = path.split(".")
            if len(parts) > 3 and parts[2] == "specs":
                known.setdefault(parts[-1], set()).add((parts[1], ".".join(parts[3:-1]), parts[-1]))
    return known


def words(text: str) -> set[str]:
    """The names in a text without its comments; an operator between its sides is named by its sign."""
    return set(WORD.findall("\n".join(line.partition("--")[0].partition("//")[0] for line in text.split("\n"))))


def blocks_of(text: str) -> dict[str, tuple[int, str]]:
    """The definitions of a file: each name with its line and all that is said of it."""
    found: dict[str, tuple[int, str]] = {}
    name = ""
    for number, line in enumerate(text.split("\n"), 1):
        declared = None if not line or line[0] in " \t-" or line.startswith(SKIPPED) else DECLARED.match(line)
        if declared and declared.group(1) not in found:
            name = declared.group(1)
            found[name] = number, ""
        elif line and line.startswith(("use ", "pub use ", "mod ", "pub mod ")):
            name = ""
        if name:
            found[name] = found[name][0], found[name][1] + line + "\n"
    return found


class Definitions:
    """All definitions of the specs: the texts of their modules, what each module has of its own, and the file and the
    line of each."""

    def __init__(self) -> None:
        self.texts: dict[tuple[str, str], str] = {}
        self.places: dict[Key, tuple[str, int]] = {}
        self.own: dict[tuple[str, str], dict[str, tuple[int, str]]] = {}
        for crate in crates():
            for path in files_of(crate, "specs", ".antt"):
                module = os.path.relpath(path, f"{ROOT}/crates/{crate}/specs").removesuffix(".antt").replace("/", ".")
                self.texts[crate, module] = text = contents(path).decode()
                self.own[crate, module] = own = blocks_of(text)
                self.places.update({(crate, module, name): (path, number) for name, (number, _) in own.items()})
        self.brought = {module: brought(text) for module, text in self.texts.items()}

    def said(self, key: Key) -> str:
        return self.own[key[:2]][key[2]][1]

    def named_by(self, key: Key) -> list[Key]:
        """The definitions that this one names, as it names them."""
        meant = {**self.brought[key[:2]], **{it: {(*key[:2], it)} for it in self.own[key[:2]]}}
        return named_in(words(self.said(key)), meant)


def named_in(found: set[str], meant: Meant) -> list[Key]:
    """Of what names stand for all that these words name."""
    # (a name with places for operands is there by its signs)
    return [key for name, keys in meant.items() if all(it in found for it in name.split("◌") if it) for key in keys]
