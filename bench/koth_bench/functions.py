"""Reads the functions of crates, and applies edits to them."""

import os
import re
import typing

from .program import text_of

FUNCTION = re.compile(r"( *)(pub(?:\(\w+\))? )?(?:unsafe )?(?:const )?fn (\w+)")
HOLDER = re.compile(r"( *)(pub(?:\(\w+\))? )?(?:unsafe )?(impl|trait|mod)\b(.*)")
TYPE = re.compile(r"^ *(?:pub(?:\(\w+\))? )?(?:struct|enum) (\w+)", re.M)
CONSTANT = re.compile(r"( *)(?:pub(?:\(\w+\))? )?(?:const|static) (?!fn\b)(\w+)")
Texts = dict[str, str]  # by their paths


class Function(typing.NamedTuple):
    """A function: its path, its file, and its first line, the last of its head, and its last."""

    path: str
    name: str
    file: str
    first: int
    body: int
    last: int
    text: str


def files_below(folder: str, ending: str) -> list[str]:
    return [f"{at}/{it}" for at, _, names in sorted(os.walk(folder)) for it in sorted(names) if it.endswith(ending)]


def head_of_holder(lines: list[str], at: int, indent: int) -> re.Match[str] | None:
    """The line that begins what holds a function in this line, as the match of it."""
    return next((it for it in map(HOLDER.match, reversed(lines[:at])) if it and len(it[1]) < indent), None)


def past_parameters(head: str) -> tuple[str, str]:
    depth, at = 0, 0
    for at, letter in enumerate(head):
        depth += (letter == "<") - (letter == ">")
        if not depth:
            break
    return (head[: at + 1], head[at + 1 :].strip()) if head.startswith("<") else ("", head)


def holder_of(lines: list[str], at: int, indent: int) -> str:
    """How the path of a function in this line names its type: with the trait after it, if an impl of a trait holds the
    function."""
    found = head_of_holder(lines, at, indent)
    if not found or found[3] != "impl":
        word = re.match(r"\w+", found[4].strip()) if found else None
        return word[0] if word else ""
    parameters, head = past_parameters(found[4].strip().removesuffix("{"))
    of_trait, _, of_type = head.rpartition(" for ")
    of_type, is_borrowed = re.subn(r"^&('\w+ )?", "", of_type.strip())
    name, _, of = of_type.partition("<")
    name = "Ref" * is_borrowed + name.split()[0].rpartition("::")[2]
    # what a type is of is part of the name if it is more than the impl's own parameters
    more = re.findall(r"\w+", re.sub(r"'\w+", "", of))
    if not of_trait and not set(more) <= set(re.findall(r"\w+", parameters)):
        return "+".join([name, *more])
    # lifetimes and type parameters are no part of it
    words = [name, *re.findall(r"\w\w+", re.sub(r"'\w+", "", of_trait))]
    return "".join(it[0].upper() + it[1:] for it in words)


def module_of(path: str) -> list[str]:
    """The names in the path of the module that a file of src is."""
    return [it for it in path.removeprefix("src/").removesuffix(".rt").split("/") if it not in ("lib", "main", "mod")]


def functions_in(path: str, text: str, homes: dict[str, list[str]]) -> list[Function]:
    """The functions of a file, which is in the layout of `rt fmt`: where a body begins and ends, a brace stands at the
    depth of the function. Those of a type stand below the module that defines the type, which `homes` names."""
    lines, found = text.split("\n"), []
    homes = {**homes, **{it: module_of(path) for it in TYPE.findall(text)}}
    for at, line in enumerate(lines):
        if not (head := FUNCTION.match(line)):
            continue
        edge = re.compile(head[1] + r"(?! ).*[{;}]")
        # (a trait's method may have no body)
        edges = [it for it in range(at, len(lines)) if edge.fullmatch(lines[it])][:2] or [at]
        first, body, last = at, edges[0], edges[-1] if lines[edges[0]].endswith("{") else edges[0]
        while lines[first - 1].startswith(f"{head[1]}#["):
            first -= 1
        holder = holder_of(lines, at, len(head[1])) if head[1] else ""
        path_of_it = "::".join(filter(None, [*homes.get(holder, module_of(path)), holder, head[3]]))
        found.append(Function(path_of_it, head[3], path, first, body, last, "\n".join(lines[first : last + 1])))
    return found


def function_at(functions: list[Function], path: str, line: int) -> Function | None:
    return next((it for it in reversed(functions) if it.file == path and it.first <= line <= it.last), None)


def constant_at(text: str, line: int) -> str | None:
    """The name of the constant that has this line, which is in the layout of `rt fmt`, or nothing if none has it."""
    lines = text.split("\n")
    for first in range(line, -1, -1):
        if begin := CONSTANT.match(lines[first]):
            depth, name = begin.groups()
            # it ends at its own depth, if not all of its value is below its first line
            end = re.compile(r".*;" if lines[first].endswith("=") else rf"{depth}(?! ).*;")
            last = next((it for it in range(first, len(lines)) if end.fullmatch(lines[it])), first)
            return str(name) if line <= last else None
    return None


def applied(edit: str, folder: str, texts: Texts) -> tuple[Texts | None, list[tuple[str, int]], str | None]:
    """Of an edit the crate's texts with it, the files and lines at which it changes these texts, and why it does not
    apply, if it doesn't."""
    path, old, texts, places = "", "", dict(texts), []
    for line in edit.split("\n"):
        word, _, rest = line.partition(":")
        if word == "file" and rest.startswith(" "):
            path = rest.strip()
            is_plain = os.path.normpath(path) == path and re.fullmatch(r"src/.*\.rt", path)
            if not is_plain or not os.path.isfile(f"{folder}/{path}"):
                return None, [], f"there is no file {path} of src"
        elif word == "old" and rest.startswith(" "):
            old = rest[1:]
        elif word == "new":
            if not path or not old:
                return None, [], "a `new:` stands before any `file:` or `old:`"
            text = texts.get(path) or text_of(f"{folder}/{path}")
            if text.count(old) != 1:
                return None, [], f"an `old:` text stands in {path} {text.count(old)} times, and not once"
            at = text.index(old) + len(old) - len(old.lstrip())
            places.append((path, text[:at].count("\n")))
            texts[path], old = text.replace(old, rest.removeprefix(" ")), ""
    is_same = all(text_of(f"{folder}/{path}") == text for path, text in texts.items())
    return (texts, places, None) if places and not is_same else (None, [], "it changes nothing")
